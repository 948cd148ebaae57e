/* Tests of the library through its header.

       tests LISTINGS.. -- REREADS..

   Each argument is a folder of cases, NAME.in with NAME.out: inputs with the listings of the tracking program, and behind --
   inputs with those of the rereading program. Every block and slice that is lent stands between guards, which are looked at
   after each call. The last line tells how many cases and checks there were; the first check that fails ends the run. */

#define _POSIX_C_SOURCE 200809L

#include <dirent.h>
#include <pthread.h>
#include <stdio.h>
#include <stdlib.h>
#include <string.h>
#include <unistd.h>

#include "peashuttle.h"

#define GUARD 64
#define GUARD_BYTE 0xa5
#define SECONDS 300 /* in which all has to be done */
#define REREAD_ROOM 262144

static unsigned long checks;
static const char *subject = "";

static void check(int holds, const char *claim, int line)
{
    checks++;
    if (!holds) {
        fprintf(stderr, "tests.c:%d: not so: %s; %s\n", line, claim, subject);
        exit(1);
    }
}

#define CHECK(claim) check((claim) != 0, #claim, __LINE__)

/* ---- memory between guards */

typedef struct guarded {
    uint8_t *bytes;
    size_t count;
} guarded;

static guarded lend(size_t count)
{
    guarded lent;
    uint8_t *whole = malloc(count + 2 * GUARD);
    CHECK(whole != NULL);
    memset(whole, GUARD_BYTE, count + 2 * GUARD);
    lent.bytes = whole + GUARD;
    lent.count = count;
    return lent;
}

static guarded lend_copy(const void *bytes, size_t count)
{
    guarded lent = lend(count);
    if (count != 0) {
        memcpy(lent.bytes, bytes, count);
    }
    return lent;
}

static int is_guarded(guarded lent)
{
    int at, whole = 1;
    for (at = 0; at < GUARD; at++) {
        whole = whole && lent.bytes[-1 - at] == GUARD_BYTE && lent.bytes[lent.count + (size_t)at] == GUARD_BYTE;
    }
    return whole;
}

static void give_back(guarded lent)
{
    CHECK(is_guarded(lent));
    free(lent.bytes - GUARD);
}

static int holds(guarded lent, const void *bytes)
{
    return memcmp(lent.bytes, bytes, lent.count) == 0;
}

/* The four blocks, each between guards. */
typedef struct blocks {
    guarded lent[4];
    peashuttle_table *table;
    peashuttle_run *run;
    peashuttle_track *track;
    peashuttle_work *work;
} blocks;

static blocks lend_blocks(void)
{
    blocks b;
    b.lent[0] = lend(sizeof(peashuttle_table));
    b.lent[1] = lend(sizeof(peashuttle_run));
    b.lent[2] = lend(sizeof(peashuttle_track));
    b.lent[3] = lend(sizeof(peashuttle_work));
    b.table = peashuttle_table_in(b.lent[0].bytes, b.lent[0].count);
    b.run = peashuttle_run_in(b.lent[1].bytes, b.lent[1].count);
    b.track = peashuttle_track_in(b.lent[2].bytes, b.lent[2].count);
    b.work = peashuttle_work_in(b.lent[3].bytes, b.lent[3].count);
    CHECK(b.table != NULL && b.run != NULL && b.track != NULL && b.work != NULL);
    return b;
}

static void give_back_blocks(blocks b)
{
    int each;
    for (each = 0; each < 4; each++) {
        give_back(b.lent[each]);
    }
}

static int are_guarded(const blocks *b)
{
    return is_guarded(b->lent[0]) && is_guarded(b->lent[1]) && is_guarded(b->lent[2]) && is_guarded(b->lent[3]);
}

/* What blocks held. */
typedef struct kept {
    peashuttle_table table;
    peashuttle_run run;
    peashuttle_track track;
    peashuttle_work work;
} kept;

static kept *keep(const blocks *b)
{
    kept *before = malloc(sizeof *before);
    CHECK(before != NULL);
    memcpy(&before->table, b->table, sizeof before->table);
    memcpy(&before->run, b->run, sizeof before->run);
    memcpy(&before->track, b->track, sizeof before->track);
    memcpy(&before->work, b->work, sizeof before->work);
    return before;
}

/* Whether a run is another, the room for an address apart. */
static int are_same(const peashuttle_run *one, const peashuttle_run *other)
{
    return one->stamp == other->stamp && memcmp(one->counters, other->counters, sizeof one->counters) == 0
        && memcmp(one->nodes, other->nodes, sizeof one->nodes) == 0
        && memcmp(one->track, other->track, sizeof one->track) == 0;
}

/* Whether table, run and track are as they were, and nothing beside them was touched. */
static int are_kept(const blocks *b, const kept *before)
{
    return are_guarded(b) && memcmp(b->table, &before->table, sizeof before->table) == 0
        && are_same(b->run, &before->run) && memcmp(b->track, &before->track, sizeof before->track) == 0;
}

/* Whether the run's room for an address is as it was, too. */
static int are_digits_kept(const blocks *b, const kept *before)
{
    return memcmp(b->run->digits, before->run.digits, sizeof before->run.digits) == 0;
}

/* Whether all four blocks are as they were, byte by byte. */
static int are_untouched(const blocks *b, const kept *before)
{
    return are_kept(b, before) && are_digits_kept(b, before)
        && memcmp(b->work, &before->work, sizeof before->work) == 0;
}

/* ---- listings by parts */

typedef struct written {
    uint8_t *bytes;
    size_t count;
} written;

static void put(written *out, const void *bytes, size_t count)
{
    CHECK(out->count + count <= PEASHUTTLE_LISTING_ROOM + REREAD_ROOM);
    memcpy(out->bytes + out->count, bytes, count);
    out->count += count;
}

static void put_number(written *out, const char *form, unsigned first, unsigned second)
{
    char line[16];
    put(out, line, (size_t)snprintf(line, sizeof line, form, first, second));
}

static void put_refusal(written *out, uint32_t number, size_t line)
{
    CHECK(peashuttle_is_refused(number));
    put_number(out, "4e%02x%04x\n", peashuttle_refusal(number), (unsigned)line);
}

static void put_event(written *out, uint32_t number)
{
    if (peashuttle_is_event(number)) {
        put_number(out, "4002%02x\n", peashuttle_event(number), 0);
    } else {
        put_number(out, "40%02x\n", number, 0);
    }
}

/* Behind the first line that begins with 1f or 1F. */
static size_t table_end(const uint8_t *text, size_t length)
{
    size_t at, start = 0;
    for (at = 0; at < length; at++) {
        if (text[at] == '\n') {
            if (at >= start + 2 && text[start] == '1' && (text[start + 1] | 0x20) == 'f') {
                return at + 1;
            }
            start = at + 1;
        }
    }
    return length;
}

/* A saved or written track: into a slice that is a byte short, into one that fits, and into one that is longer. */
static void put_text(written *out, const blocks *b, size_t room, int is_saved)
{
    size_t length = 0, again = 0;
    kept *before = keep(b);
    uint32_t number = is_saved ? peashuttle_save(b->run, b->table, b->work, NULL, 0, &length)
                               : peashuttle_write(b->track, b->table, NULL, 0, &length);
    guarded slice = lend(length + 1);
    CHECK(number == PEASHUTTLE_REFUSED + PEASHUTTLE_SLICE_TOO_SHORT && length != 0);
    number = is_saved ? peashuttle_save(b->run, b->table, b->work, slice.bytes, length - 1, &again)
                      : peashuttle_write(b->track, b->table, slice.bytes, length - 1, &again);
    CHECK(number == PEASHUTTLE_REFUSED + PEASHUTTLE_SLICE_TOO_SHORT && again == length);
    for (again = 0; again < length + 1; again++) {
        if (slice.bytes[again] != GUARD_BYTE) {
            CHECK(!"refusal 12 writes nothing");
        }
    }
    number = is_saved ? peashuttle_save(b->run, b->table, b->work, slice.bytes, length, NULL)
                      : peashuttle_write(b->track, b->table, slice.bytes, length, NULL);
    CHECK(number == PEASHUTTLE_DONE && slice.bytes[length] == GUARD_BYTE);
    CHECK(are_kept(b, before) && are_digits_kept(b, before));
    if (length <= room) {
        put(out, slice.bytes, length);
    } else {
        put_refusal(out, PEASHUTTLE_REFUSED + PEASHUTTLE_SLICE_TOO_SHORT, 0);
    }
    give_back(slice);
    free(before);
}

/* Checks a table's text; whether it was accepted. A refusal is put, and leaves the block as it was. */
static int is_checked(written *out, const blocks *b, const uint8_t *text, size_t length)
{
    size_t line = 77;
    kept *before = keep(b);
    guarded given = lend_copy(text, length);
    uint32_t number = peashuttle_check(b->table, given.bytes, length, &line);
    CHECK(holds(given, text) && are_guarded(b));
    if (number != PEASHUTTLE_DONE) {
        CHECK(are_untouched(b, before));
        put_refusal(out, number, line);
    } else {
        CHECK(line == 0 && peashuttle_table_definitions(b->table) >= 1 && peashuttle_table_terms(b->table) >= 1);
    }
    give_back(given);
    free(before);
    return number == PEASHUTTLE_DONE;
}

/* Plays a script line by line; gives the number that ended it, with its line. */
static uint32_t play_script(written *out, const blocks *b, const uint8_t *script, size_t length, size_t *line)
{
    size_t cursor = 0, stood;
    guarded given = lend_copy(script, length);
    uint32_t number;
    kept *before;
    *line = 1;
    do {
        stood = cursor;
        number = peashuttle_play(b->run, b->table, given.bytes, length, &cursor);
        if (number < PEASHUTTLE_REFUSED) {
            CHECK(stood < cursor && cursor <= length);
            put_event(out, number);
            *line += 1;
        }
    } while (number < PEASHUTTLE_REFUSED);
    CHECK(cursor == stood);
    before = keep(b);
    CHECK(peashuttle_play(b->run, b->table, given.bytes, length, &cursor) == number && cursor == stood);
    CHECK(holds(given, script) && are_kept(b, before));
    give_back(given);
    free(before);
    return number;
}

/* The listing of the tracking program. */
static void list_by_parts(written *out, const uint8_t *input, size_t length)
{
    size_t end = table_end(input, length), line;
    blocks b = lend_blocks();
    uint32_t number;
    if (is_checked(out, &b, input, end)) {
        if (length - end > PEASHUTTLE_SCRIPT_ROOM) {
            put_refusal(out, PEASHUTTLE_REFUSED + PEASHUTTLE_TEXT_OVER_ROOM, 0);
        } else {
            CHECK(peashuttle_start(b.run) == PEASHUTTLE_DONE);
            number = play_script(out, &b, input + end, length - end, &line);
            put_number(out, "41%02x\n", peashuttle_status(b.run, b.table), 0);
            if (number != PEASHUTTLE_END) {
                put_refusal(out, number, line);
            }
            put_text(out, &b, PEASHUTTLE_SAVED_ROOM, 1);
        }
    }
    give_back_blocks(b);
}

/* The listing of the rereading program. */
static void reread_by_parts(written *out, const uint8_t *input, size_t length)
{
    size_t end = table_end(input, length), line = 77;
    blocks b = lend_blocks();
    if (is_checked(out, &b, input, end)) {
        kept *before = keep(&b);
        guarded given = lend_copy(input + end, length - end);
        uint32_t number = peashuttle_read(b.track, b.table, b.work, given.bytes, given.count, &line);
        CHECK(holds(given, input + end) && are_guarded(&b));
        if (number == PEASHUTTLE_DONE) {
            CHECK(line == 0);
            put_text(out, &b, REREAD_ROOM, 0);
        } else {
            CHECK(are_kept(&b, before) && are_digits_kept(&b, before));
            put_refusal(out, number, line);
        }
        give_back(given);
        free(before);
    }
    give_back_blocks(b);
}

/* ---- cases */

static written read_file(const char *folder, const char *name, size_t stem, const char *ending)
{
    char path[4096];
    FILE *file;
    written read = {NULL, 0};
    size_t room = PEASHUTTLE_LISTING_ROOM + REREAD_ROOM;
    snprintf(path, sizeof path, "%s/%.*s%s", folder, (int)stem, name, ending);
    file = fopen(path, "rb");
    CHECK(file != NULL);
    read.bytes = malloc(room);
    CHECK(read.bytes != NULL);
    read.count = fread(read.bytes, 1, room, file);
    fclose(file);
    return read;
}

/* peashuttle_list into a slice with room for all, into one that is too short, and into none. */
static void check_list(const written *input, const written *expected)
{
    size_t half = expected->count / 2;
    guarded given = lend_copy(input->bytes, input->count);
    guarded out = lend(PEASHUTTLE_LISTING_ROOM), front = lend(half), none = lend(0);
    size_t length = peashuttle_list(given.bytes, given.count, out.bytes, out.count);
    CHECK(length == expected->count && memcmp(out.bytes, expected->bytes, length) == 0);
    for (; length < out.count; length++) {
        if (out.bytes[length] != GUARD_BYTE) {
            CHECK(!"behind the listing the slice is as it was");
        }
    }
    CHECK(peashuttle_list(given.bytes, given.count, front.bytes, half) == expected->count);
    CHECK(holds(front, expected->bytes) && holds(given, input->bytes));
    CHECK(peashuttle_list(given.bytes, given.count, none.bytes, 0) == expected->count);
    give_back(given);
    give_back(out);
    give_back(front);
    give_back(none);
}

static void check_case(const char *folder, const char *name, size_t stem, int is_reread)
{
    written input = read_file(folder, name, stem, ".in"), expected = read_file(folder, name, stem, ".out");
    written out = {NULL, 0};
    subject = name;
    out.bytes = malloc(PEASHUTTLE_LISTING_ROOM + REREAD_ROOM);
    CHECK(out.bytes != NULL);
    if (is_reread) {
        reread_by_parts(&out, input.bytes, input.count);
    } else {
        list_by_parts(&out, input.bytes, input.count);
        check_list(&input, &expected);
    }
    CHECK(out.count == expected.count && memcmp(out.bytes, expected.bytes, out.count) == 0);
    free(input.bytes);
    free(expected.bytes);
    free(out.bytes);
    subject = "";
}

static unsigned check_folder(const char *folder, int is_reread)
{
    DIR *listed = opendir(folder);
    struct dirent *entry;
    unsigned cases = 0;
    subject = folder;
    CHECK(listed != NULL);
    while ((entry = readdir(listed)) != NULL) {
        size_t length = strlen(entry->d_name);
        if (length > 3 && strcmp(entry->d_name + length - 3, ".in") == 0) {
            check_case(folder, entry->d_name, length - 3, is_reread);
            cases++;
        }
    }
    closedir(listed);
    return cases;
}

/* ---- blocks that are not there */

/* SHOW = a -> SKIP [| {a} |] a -> STOP, and its run. */
static const char TABLE[] = "10010101\n1100\n12060000000000000001\n120200\n1207\n120200\n1208\n1f0005\n";
static const char SCRIPT[] = "200000\n20000103\n20000101\n20000102\n";
/* N = N ; SKIP, whose control grows by a cell each step. */
static const char GROWING[] = "10010100\n1100\n1205\n120100\n1207\n1f0003\n";

static const uint8_t *bytes_of(const char *text)
{
    return (const uint8_t *)text;
}

static void fill_table(const blocks *b, const char *text)
{
    CHECK(peashuttle_check(b->table, bytes_of(text), strlen(text), NULL) == PEASHUTTLE_DONE);
}

static void test_null_blocks(void)
{
    blocks b = lend_blocks();
    kept *before = keep(&b);
    uint8_t slice[4] = {9, 9, 9, 9};
    size_t told = 77;
    uint64_t events = 77;
    subject = "null blocks";
    CHECK(peashuttle_list(NULL, 4, slice, 4) == 0 && peashuttle_list(slice, 4, NULL, 4) == 0);
    CHECK(peashuttle_list(NULL, 4, NULL, 0) == 0 && peashuttle_list(NULL, 0, NULL, 4) == 0);
    CHECK(peashuttle_check(NULL, slice, 4, &told) == PEASHUTTLE_NO_BLOCK);
    CHECK(peashuttle_check(b.table, NULL, 4, &told) == PEASHUTTLE_NO_BLOCK);
    CHECK(peashuttle_start(NULL) == PEASHUTTLE_NO_BLOCK);
    CHECK(peashuttle_step(NULL, b.table, slice, 0) == PEASHUTTLE_NO_BLOCK);
    CHECK(peashuttle_step(b.run, NULL, slice, 0) == PEASHUTTLE_NO_BLOCK);
    CHECK(peashuttle_step(b.run, b.table, NULL, 1) == PEASHUTTLE_NO_BLOCK);
    CHECK(peashuttle_play(NULL, b.table, slice, 4, &told) == PEASHUTTLE_NO_BLOCK);
    CHECK(peashuttle_play(b.run, NULL, slice, 4, &told) == PEASHUTTLE_NO_BLOCK);
    CHECK(peashuttle_play(b.run, b.table, slice, 4, NULL) == PEASHUTTLE_NO_BLOCK);
    CHECK(peashuttle_play(b.run, b.table, NULL, 4, &told) == PEASHUTTLE_NO_BLOCK);
    CHECK(peashuttle_offers(NULL, b.table, &events) == PEASHUTTLE_NO_BLOCK);
    CHECK(peashuttle_offers(b.run, NULL, &events) == PEASHUTTLE_NO_BLOCK);
    CHECK(peashuttle_status(NULL, b.table) == PEASHUTTLE_NO_BLOCK);
    CHECK(peashuttle_status(b.run, NULL) == PEASHUTTLE_NO_BLOCK);
    CHECK(peashuttle_save(NULL, b.table, b.work, slice, 4, &told) == PEASHUTTLE_NO_BLOCK);
    CHECK(peashuttle_save(b.run, NULL, b.work, slice, 4, &told) == PEASHUTTLE_NO_BLOCK);
    CHECK(peashuttle_save(b.run, b.table, NULL, slice, 4, &told) == PEASHUTTLE_NO_BLOCK);
    CHECK(peashuttle_save(b.run, b.table, b.work, NULL, 4, &told) == PEASHUTTLE_NO_BLOCK);
    CHECK(peashuttle_read(NULL, b.table, b.work, slice, 4, &told) == PEASHUTTLE_NO_BLOCK);
    CHECK(peashuttle_read(b.track, NULL, b.work, slice, 4, &told) == PEASHUTTLE_NO_BLOCK);
    CHECK(peashuttle_read(b.track, b.table, NULL, slice, 4, &told) == PEASHUTTLE_NO_BLOCK);
    CHECK(peashuttle_read(b.track, b.table, b.work, NULL, 4, &told) == PEASHUTTLE_NO_BLOCK);
    CHECK(peashuttle_write(NULL, b.table, slice, 4, &told) == PEASHUTTLE_NO_BLOCK);
    CHECK(peashuttle_write(b.track, NULL, slice, 4, &told) == PEASHUTTLE_NO_BLOCK);
    CHECK(peashuttle_write(b.track, b.table, NULL, 4, &told) == PEASHUTTLE_NO_BLOCK);
    CHECK(peashuttle_table_terms(NULL) == 0 && peashuttle_track_nodes(NULL) == 0);
    CHECK(told == 77 && events == 77 && memcmp(slice, "\t\t\t\t", 4) == 0);
    CHECK(are_untouched(&b, before));
    free(before);
    give_back_blocks(b);
}

static void test_short_and_misaligned_memory(void)
{
    guarded whole = lend(sizeof(peashuttle_work) + 8);
    uint8_t *bytes = whole.bytes;
    size_t off;
    subject = "memory that holds no block";
    CHECK(peashuttle_table_in(NULL, 1000000) == NULL && peashuttle_run_in(NULL, 1000000) == NULL);
    CHECK(peashuttle_track_in(NULL, 1000000) == NULL && peashuttle_work_in(NULL, 1000000) == NULL);
    CHECK(peashuttle_table_in(bytes, sizeof(peashuttle_table) - 1) == NULL);
    CHECK(peashuttle_run_in(bytes, sizeof(peashuttle_run) - 1) == NULL);
    CHECK(peashuttle_track_in(bytes, sizeof(peashuttle_track) - 1) == NULL);
    CHECK(peashuttle_work_in(bytes, sizeof(peashuttle_work) - 1) == NULL);
    for (off = 0; off < 8; off++) {
        CHECK((peashuttle_table_in(bytes + off, sizeof(peashuttle_table)) != NULL) == (off == 0));
        CHECK((peashuttle_run_in(bytes + off, sizeof(peashuttle_run)) != NULL) == (off == 0));
        CHECK((peashuttle_track_in(bytes + off, sizeof(peashuttle_track)) != NULL) == (off == 0));
        CHECK((peashuttle_work_in(bytes + off, sizeof(peashuttle_work)) != NULL) == (off == 0));
    }
    CHECK(peashuttle_start(peashuttle_run_in(bytes + 1, sizeof(peashuttle_run))) == PEASHUTTLE_NO_BLOCK);
    give_back(whole);
}

/* Calls every function that needs a table, a run or a track, and looks for the number that each has to tell. */
static void check_unfilled(const blocks *b, uint32_t of_run, uint32_t of_reading, uint32_t of_track)
{
    kept *before = keep(b);
    uint8_t slice[4] = {9, 9, 9, 9};
    size_t told = 77;
    uint64_t events = 77;
    CHECK(peashuttle_step(b->run, b->table, slice, 0) == of_run);
    CHECK(peashuttle_play(b->run, b->table, bytes_of(SCRIPT), strlen(SCRIPT), &told) == of_run);
    CHECK(peashuttle_offers(b->run, b->table, &events) == of_run);
    CHECK(peashuttle_status(b->run, b->table) == of_run);
    CHECK(peashuttle_save(b->run, b->table, b->work, slice, 4, &told) == of_run);
    if (of_reading != PEASHUTTLE_DONE) {
        CHECK(peashuttle_read(b->track, b->table, b->work, slice, 4, &told) == of_reading);
    }
    CHECK(peashuttle_write(b->track, b->table, slice, 4, &told) == of_track);
    CHECK(told == 77 && events == 77 && memcmp(slice, "\t\t\t\t", 4) == 0);
    CHECK(are_untouched(b, before));
    free(before);
}

static void test_unfilled_blocks(void)
{
    static const int fills[] = {0x00, 0xff, 0x5a};
    size_t each;
    subject = "blocks that were never filled";
    for (each = 0; each < sizeof fills / sizeof fills[0]; each++) {
        blocks b = lend_blocks();
        memset(b.table, fills[each], sizeof *b.table);
        memset(b.run, fills[each], sizeof *b.run);
        memset(b.track, fills[each], sizeof *b.track);
        memset(b.work, fills[each], sizeof *b.work);
        CHECK(peashuttle_table_definitions(b.table) == 0 && peashuttle_table_events(b.table) == 0);
        CHECK(peashuttle_track_arcs(b.track) == 0 && peashuttle_track_meetings(b.track) == 0);
        check_unfilled(&b, PEASHUTTLE_NO_TABLE, PEASHUTTLE_NO_TABLE, PEASHUTTLE_NO_TABLE);
        CHECK(peashuttle_check(b.table, bytes_of(TABLE), 9, NULL) == PEASHUTTLE_REFUSED + PEASHUTTLE_WRONG_FRAME);
        check_unfilled(&b, PEASHUTTLE_NO_TABLE, PEASHUTTLE_NO_TABLE, PEASHUTTLE_NO_TABLE);
        fill_table(&b, TABLE);
        check_unfilled(&b, PEASHUTTLE_NO_RUN, PEASHUTTLE_DONE, PEASHUTTLE_NO_TRACK);
        give_back_blocks(b);
    }
}

static void test_empty_slices(void)
{
    blocks b = lend_blocks();
    guarded listing = lend(9);
    size_t cursor = 0, line = 77;
    subject = "slices of no bytes";
    CHECK(peashuttle_list(NULL, 0, NULL, 0) == 9 && peashuttle_list(NULL, 0, listing.bytes, 9) == 9);
    CHECK(holds(listing, "4e020001\n"));
    CHECK(peashuttle_list(bytes_of(TABLE), strlen(TABLE), NULL, 0) != 0);
    give_back(listing);
    CHECK(peashuttle_check(b.table, NULL, 0, &line) == PEASHUTTLE_REFUSED + PEASHUTTLE_WRONG_FRAME && line == 1);
    CHECK(peashuttle_check(b.table, NULL, 0, NULL) == PEASHUTTLE_REFUSED + PEASHUTTLE_WRONG_FRAME);
    fill_table(&b, TABLE);
    CHECK(peashuttle_table_definitions(b.table) == 1 && peashuttle_table_events(b.table) == 1);
    CHECK(peashuttle_table_terms(b.table) == 5);
    CHECK(peashuttle_start(b.run) == PEASHUTTLE_DONE);
    CHECK(peashuttle_play(b.run, b.table, NULL, 0, &cursor) == PEASHUTTLE_END && cursor == 0);
    cursor = 1000;
    CHECK(peashuttle_play(b.run, b.table, bytes_of(SCRIPT), strlen(SCRIPT), &cursor) == PEASHUTTLE_END);
    CHECK(peashuttle_step(b.run, b.table, NULL, 0) == PEASHUTTLE_TAU);
    CHECK(peashuttle_offers(b.run, b.table, NULL) == 0);
    CHECK(peashuttle_save(b.run, b.table, b.work, NULL, 0, NULL) == PEASHUTTLE_REFUSED + PEASHUTTLE_SLICE_TOO_SHORT);
    CHECK(peashuttle_read(b.track, b.table, b.work, NULL, 0, NULL) == PEASHUTTLE_REFUSED + PEASHUTTLE_WRONG_FRAME);
    give_back_blocks(b);
}

/* ---- answers */

static void test_numbers(void)
{
    uint32_t refusal;
    subject = "numbers";
    CHECK(!peashuttle_is_refused(PEASHUTTLE_DONE) && !peashuttle_is_refused(PEASHUTTLE_END));
    CHECK(!peashuttle_is_refused(PEASHUTTLE_NO_BLOCK) && peashuttle_refusal(PEASHUTTLE_NO_TRACK) == 0);
    CHECK(!peashuttle_is_event(PEASHUTTLE_TAU) && !peashuttle_is_event(PEASHUTTLE_TICK));
    CHECK(peashuttle_is_event(PEASHUTTLE_EVENT) && peashuttle_event(PEASHUTTLE_EVENT + 63) == 63);
    for (refusal = 1; refusal <= 13; refusal++) {
        CHECK(peashuttle_is_refused(PEASHUTTLE_REFUSED + refusal));
        CHECK(peashuttle_refusal(PEASHUTTLE_REFUSED + refusal) == refusal);
        CHECK(strcmp(peashuttle_refusal_text(refusal), peashuttle_refusal_text(0)) != 0);
    }
}

static void test_offers_and_status(void)
{
    static const uint8_t both[] = {3}, left[] = {1}, right[] = {2};
    blocks b = lend_blocks();
    uint64_t events = 77;
    subject = "offers and status";
    fill_table(&b, TABLE);
    peashuttle_start(b.run);
    CHECK(peashuttle_offers(b.run, b.table, &events) == PEASHUTTLE_OFFERS_TAU && events == 0);
    CHECK(peashuttle_step(b.run, b.table, NULL, 0) == PEASHUTTLE_TAU);
    CHECK(peashuttle_offers(b.run, b.table, &events) == 0 && events == 1);
    CHECK(peashuttle_status(b.run, b.table) == PEASHUTTLE_LIVE);
    CHECK(peashuttle_step(b.run, b.table, both, 1) == PEASHUTTLE_EVENT + 0);
    CHECK(peashuttle_step(b.run, b.table, left, 1) == PEASHUTTLE_TAU);
    CHECK(peashuttle_status(b.run, b.table) == PEASHUTTLE_STUCK);
    CHECK(peashuttle_step(b.run, b.table, right, 1) == PEASHUTTLE_TAU);
    fill_table(&b, "10010100\n1100\n1207\n1f0001\n");
    peashuttle_start(b.run);
    CHECK(peashuttle_step(b.run, b.table, NULL, 0) == PEASHUTTLE_TAU);
    CHECK(peashuttle_offers(b.run, b.table, &events) == PEASHUTTLE_OFFERS_TICK && events == 0);
    CHECK(peashuttle_step(b.run, b.table, NULL, 0) == PEASHUTTLE_TICK);
    CHECK(peashuttle_status(b.run, b.table) == PEASHUTTLE_ENDED);
    give_back_blocks(b);
}

/* Steps that are refused leave table, run and track as they were. */
static void test_refused_steps(void)
{
    static uint8_t address[PEASHUTTLE_DIGITS + 1];
    static const size_t lengths[] = {1, 2, 64, PEASHUTTLE_DIGITS, PEASHUTTLE_DIGITS + 1};
    blocks b = lend_blocks();
    kept *before;
    size_t each;
    int digit, step;
    subject = "refused steps";
    fill_table(&b, GROWING);
    peashuttle_start(b.run);
    for (step = 0; step < PEASHUTTLE_CELLS; step++) {
        CHECK(peashuttle_step(b.run, b.table, NULL, 0) == PEASHUTTLE_TAU);
    }
    before = keep(&b);
    CHECK(peashuttle_step(b.run, b.table, NULL, 0) == PEASHUTTLE_REFUSED + PEASHUTTLE_CELLS_OVER_ROOM);
    for (digit = 0; digit < 256; digit += digit < 6 ? 1 : 83) {
        memset(address, digit, sizeof address);
        for (each = 0; each < sizeof lengths / sizeof lengths[0]; each++) {
            CHECK(peashuttle_step(b.run, b.table, address, lengths[each])
                == PEASHUTTLE_REFUSED + PEASHUTTLE_NO_DERIVATION);
            CHECK(are_kept(&b, before));
        }
    }
    free(before);
    give_back_blocks(b);
}

/* A run goes on in the same way whatever stands in its room for an address. */
static void test_room_for_an_address(void)
{
    blocks b = lend_blocks(), other = lend_blocks();
    size_t cursor = 0, at = 0;
    uint32_t number;
    subject = "a run's room for an address";
    fill_table(&b, TABLE);
    peashuttle_start(b.run);
    peashuttle_start(other.run);
    do {
        memset(other.run->digits, 0xff, sizeof other.run->digits);
        number = peashuttle_play(b.run, b.table, bytes_of(SCRIPT), strlen(SCRIPT), &cursor);
        CHECK(peashuttle_play(other.run, b.table, bytes_of(SCRIPT), strlen(SCRIPT), &at) == number && at == cursor);
        CHECK(are_same(b.run, other.run));
    } while (number < PEASHUTTLE_REFUSED);
    CHECK(number == PEASHUTTLE_END && cursor == strlen(SCRIPT));
    give_back_blocks(b);
    give_back_blocks(other);
}

/* ---- blocks with the right stamps and anything else behind them */

static uint32_t lots = 2010;

static uint8_t lot(void)
{
    lots = lots * 1664525u + 1013904223u;
    return (uint8_t)(lots >> 24);
}

/* Words by which every reference has sides that lead to one reference, and by which every second subterm is one term: whoever
   goes down both sides, or both subterms, as far as they lead comes to no end. */
static const uint16_t leading_back[2][4] = {{1, 1, 1, 1}, {6, 0, 6, 6}};

#define LEADING_BACK 258

/* Fills memory with one byte, or by lot, or by lot with numbers that are mostly small, or with words that lead back. */
static void fill(void *memory, size_t bytes, int how)
{
    uint8_t *at = memory;
    size_t each;
    for (each = 0; each < bytes; each++) {
        if (how >= LEADING_BACK) {
            at[each] = each % 2 == 0 ? (uint8_t)leading_back[how - LEADING_BACK][each / 2 % 4] : 0;
        } else {
            at[each] = how < 256 ? (uint8_t)how : how == 256 || each % 2 == 0 ? lot() : (uint8_t)(lot() < 32);
        }
    }
}

/* Every function on blocks as they stand, which it must answer, and write nothing but what it is lent to be written. */
static void check_answers(const blocks *b)
{
    static uint8_t address[PEASHUTTLE_DIGITS];
    guarded slice = lend(100000);
    size_t told = 0, cursor = 0, each;
    kept *before = keep(b);
    uint32_t number;
    for (each = 0; each < sizeof address; each++) {
        address[each] = (uint8_t)(1 + lot() % 4);
    }
    CHECK(peashuttle_offers(b->run, b->table, NULL) < PEASHUTTLE_REFUSED);
    CHECK(peashuttle_status(b->run, b->table) <= PEASHUTTLE_STUCK);
    number = peashuttle_save(b->run, b->table, b->work, slice.bytes, slice.count, &told);
    CHECK(number == PEASHUTTLE_DONE ? told <= slice.count : told > slice.count);
    number = peashuttle_write(b->track, b->table, slice.bytes, slice.count, &told);
    CHECK(number == PEASHUTTLE_DONE ? told <= slice.count : told > slice.count);
    CHECK(are_kept(b, before) && are_digits_kept(b, before));
    for (each = 0; each <= sizeof address; each = 2 * each + 1) {
        number = peashuttle_step(b->run, b->table, address, each);
        CHECK(number < PEASHUTTLE_REFUSED || peashuttle_is_refused(number));
    }
    number = peashuttle_play(b->run, b->table, bytes_of(SCRIPT), strlen(SCRIPT), &cursor);
    CHECK(number < PEASHUTTLE_REFUSED || peashuttle_is_refused(number));
    number = peashuttle_read(b->track, b->table, b->work, bytes_of(SCRIPT), strlen(SCRIPT), &told);
    CHECK(peashuttle_is_refused(number));
    CHECK(memcmp(b->table, &before->table, sizeof before->table) == 0 && are_guarded(b));
    give_back(slice);
    free(before);
}

static void test_garbage(void)
{
    static const int fills[] = {0x00, 0x02, 0x7f, 0xff, 256, 256, 256, 257, 257, 257, LEADING_BACK, LEADING_BACK + 1};
    size_t each;
    subject = "blocks of garbage behind the right stamps";
    for (each = 0; each < sizeof fills / sizeof fills[0]; each++) {
        blocks b = lend_blocks();
        fill(b.run, sizeof *b.run, fills[each]);
        fill(b.track, sizeof *b.track, fills[each]);
        fill(b.work, sizeof *b.work, fills[each]);
        b.run->stamp = PEASHUTTLE_RUN_STAMP;
        b.track->head[0] = PEASHUTTLE_TRACK_STAMP;
        fill_table(&b, TABLE);
        check_answers(&b);
        fill(b.table, sizeof *b.table, fills[each]);
        b.table->head[0] = PEASHUTTLE_TABLE_STAMP;
        check_answers(&b);
        fill_table(&b, TABLE);
        CHECK(peashuttle_start(b.run) == PEASHUTTLE_DONE);
        CHECK(peashuttle_step(b.run, b.table, NULL, 0) == PEASHUTTLE_TAU);
        give_back_blocks(b);
    }
}

/* A run goes on by another table than its own: what is answered means nothing, and is answered all the same. */
static void test_another_table(void)
{
    blocks b = lend_blocks();
    size_t cursor = 0;
    subject = "a run by another table";
    fill_table(&b, TABLE);
    peashuttle_start(b.run);
    while (peashuttle_play(b.run, b.table, bytes_of(SCRIPT), 16, &cursor) < PEASHUTTLE_REFUSED) {
    }
    CHECK(peashuttle_read(b.track, b.table, b.work, bytes_of("3001000000000000\n3f\n"), 20, NULL) == PEASHUTTLE_DONE);
    CHECK(peashuttle_track_nodes(b.track) == 0);
    fill_table(&b, GROWING);
    check_answers(&b);
    give_back_blocks(b);
}

/* ---- deep work, in a thread with a stack of 2 MiB */

#define NESTED 61 /* parallels in one term, of which every one has the next as its left side */
#define DEEPEST 511

/* The table of N, so many parallels around a call of N, with STOP as every right side. */
static size_t put_nested(char *text)
{
    char *at = text;
    int each;
    at += sprintf(at, "10010100\n1100\n");
    for (each = 0; each < NESTED; each++) {
        at += sprintf(at, "12060000000000000000\n");
    }
    at += sprintf(at, "120100\n");
    for (each = 0; each < NESTED; each++) {
        at += sprintf(at, "1208\n");
    }
    at += sprintf(at, "1f%04x\n", 2 * NESTED + 1);
    return (size_t)(at - text);
}

/* The script that goes down into the parallels as deep as there are cells for, and there steps a STOP. */
static size_t put_descent(char *text)
{
    char *at = text;
    int depth, each;
    for (depth = 0; depth < DEEPEST; depth += NESTED) {
        at += sprintf(at, "20%04x", depth);
        for (each = 0; each < depth; each++) {
            at += sprintf(at, "01");
        }
        at += sprintf(at, "\n");
    }
    at += sprintf(at, "20%04x", DEEPEST);
    for (each = 1; each < DEEPEST; each++) {
        at += sprintf(at, "01");
    }
    at += sprintf(at, "02\n");
    return (size_t)(at - text);
}

static char deep[PEASHUTTLE_INPUT_ROOM];
static uint8_t listed[PEASHUTTLE_LISTING_ROOM];

static void *go_deep(void *unused)
{
    size_t table_length = put_nested(deep);
    size_t length = table_length + put_descent(deep + table_length), listing;
    written out = {malloc(PEASHUTTLE_LISTING_ROOM), 0};
    CHECK(out.bytes != NULL);
    listing = peashuttle_list(bytes_of(deep), length, listed, sizeof listed);
    list_by_parts(&out, bytes_of(deep), length);
    CHECK(listing == out.count && memcmp(listed, out.bytes, listing) == 0);
    CHECK(memcmp(listed, "4000\n4000\n4000\n4000\n4000\n4000\n4000\n4000\n4000\n4000\n4100\n30", 57) == 0);
    free(out.bytes);
    return unused;
}

/* a -> SKIP [| {} |] a -> STOP: an event on the left passes outward through any number of such parallels. */
static const char LOOSE[] = "10010101\n1100\n12060000000000000000\n120200\n1207\n120200\n1208\n1f0005\n";

/* Words that no run has: so many parallels inside one another as an address has digits, each with the next as its left side,
   or, where two sides are wanted, as both. */
static void fill_chain(peashuttle_run *run, int sides)
{
    size_t each;
    memset(run, 0, sizeof *run);
    run->stamp = PEASHUTTLE_RUN_STAMP;
    run->counters[0] = 1;
    for (each = 1; each < PEASHUTTLE_DIGITS; each++) {
        run->nodes[8 * each + 1] = 1;
        run->nodes[8 * each + 4] = (uint16_t)(each + 1);
        run->nodes[8 * each + 5] = sides == 2 ? (uint16_t)(each + 1) : 0;
    }
}

/* Each of them has a cell less than the one around it. */
static void tell_cells(peashuttle_run *run)
{
    size_t each;
    for (each = 1; each < PEASHUTTLE_DIGITS; each++) {
        run->nodes[8 * each + 6] = (uint16_t)(PEASHUTTLE_CELLS - each);
    }
}

static void *go_deeper(void *unused)
{
    static uint8_t address[PEASHUTTLE_DIGITS];
    blocks b = lend_blocks();
    size_t length;
    int digit;
    fill_table(&b, LOOSE);
    fill_chain(b.run, 1);
    tell_cells(b.run);
    CHECK(peashuttle_status(b.run, b.table) == PEASHUTTLE_LIVE);
    fill_chain(b.run, 1);
    memset(address, 1, sizeof address);
    CHECK(peashuttle_step(b.run, b.table, address, sizeof address) == PEASHUTTLE_EVENT + 0);
    for (digit = 1; digit <= 4; digit++) {
        memset(address, digit, sizeof address);
        for (length = PEASHUTTLE_DIGITS - 8; length <= PEASHUTTLE_DIGITS; length++) {
            uint32_t number;
            fill_chain(b.run, 2);
            number = peashuttle_step(b.run, b.table, address, length);
            CHECK((number < PEASHUTTLE_REFUSED || peashuttle_is_refused(number)) && are_guarded(&b));
        }
    }
    give_back_blocks(b);
    return unused;
}

static void in_a_thread(void *(*work)(void *))
{
    pthread_attr_t attributes;
    pthread_t thread;
    CHECK(pthread_attr_init(&attributes) == 0);
    CHECK(pthread_attr_setstacksize(&attributes, PEASHUTTLE_STACK) == 0);
    CHECK(pthread_create(&thread, &attributes, work, NULL) == 0);
    CHECK(pthread_join(thread, NULL) == 0);
    pthread_attr_destroy(&attributes);
}

int main(int argc, char **argv)
{
    unsigned cases[2] = {0, 0};
    int is_reread = 0, each;
    alarm(SECONDS);
    test_numbers();
    test_null_blocks();
    test_short_and_misaligned_memory();
    test_unfilled_blocks();
    test_empty_slices();
    test_offers_and_status();
    test_refused_steps();
    test_room_for_an_address();
    test_garbage();
    test_another_table();
    subject = "deep work";
    in_a_thread(go_deep);
    in_a_thread(go_deeper);
    for (each = 1; each < argc; each++) {
        if (strcmp(argv[each], "--") == 0) {
            is_reread = 1;
        } else {
            cases[is_reread] += check_folder(argv[each], is_reread);
        }
    }
    printf("%u listings, %u rereads, %lu checks\n", cases[0], cases[1], checks);
    return 0;
}
