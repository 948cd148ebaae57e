/* Peashuttle for C and C++: check a table of CSP terms, step it by addresses or by the lines of a script, tell events, offers
   and status, save the track, read a saved one and write it again.

   The library, libpeashuttle.a, is for x86-64 Linux. It keeps nothing of its own, takes no memory and calls no system.
   Whoever calls it owns four blocks, each of which this header declares as a struct:

       peashuttle_table   a checked table                             peashuttle_check fills it
       peashuttle_run     a run: its control and its track            peashuttle_start fills it
       peashuttle_track   a saved track that was read                 peashuttle_read fills it
       peashuttle_work    room to save and read in; nothing is kept   whatever stands in it

   Blocks are large: make them static or take them from malloc. A block may be copied as a whole, which keeps a run as it
   stood. Blocks need not be cleared: one that was never filled is refused, since its stamp is missing. Threads may call at
   the same time as long as each has a work block of its own and none writes what another is lent. What is lent to be
   written must not overlap anything else that is lent in the same call.

   The fields of a block are the library's own. Where something else has written into a block that was filled, every function
   still ends, within milliseconds, and touches nothing but what it is lent; but what it answers means nothing.

   Every function but peashuttle_list answers with a number:

       0 and more                  done: an event, a status, what is offered, or PEASHUTTLE_DONE
       PEASHUTTLE_REFUSED + n      refused, by the paper's number n, 1 to 13; table, run, track and slice stay as they were
       PEASHUTTLE_END              the script has no further line
       PEASHUTTLE_NO_TABLE ..      a block was never filled; everything stays as it was
       PEASHUTTLE_NO_BLOCK         a block is null, or a slice that has a length is; everything stays as it was

   The stack that a call takes in the library at most, in bytes, its return address included, whatever it is lent:

       peashuttle_list      2,143,632
       peashuttle_play      1,639,616
       peashuttle_step      1,639,536
       peashuttle_offers      186,784
       peashuttle_status      186,784
       peashuttle_check        12,744
       peashuttle_save            480
       peashuttle_write           352
       peashuttle_read            328
       peashuttle_start            24

   Runs that the library started and stepped take far less: about 1 MiB in peashuttle_list, and half of that in
   peashuttle_step. What peashuttle_list steps is always such a run, so a thread of 2 MiB, PEASHUTTLE_STACK, has enough for
   each of them. */

#ifndef PEASHUTTLE_H
#define PEASHUTTLE_H

#include <stddef.h>
#include <stdint.h>

#if !defined(__x86_64__) || defined(__ILP32__)
#error "libpeashuttle.a is for x86-64 with pointers of 64 bits"
#endif

#ifdef __cplusplus
extern "C" {
#endif

/* ---- rooms and sizes */

#define PEASHUTTLE_TABLE_ROOM 32768  /* bytes of a table's text */
#define PEASHUTTLE_SCRIPT_ROOM 65536 /* bytes of a script's text; play takes any, so whoever plays holds it to this */
#define PEASHUTTLE_SAVED_ROOM 65536  /* bytes that a listing has for a saved track */
#define PEASHUTTLE_INPUT_ROOM 98305  /* bytes of an input of peashuttle_list: more than these change nothing */
#define PEASHUTTLE_LISTING_ROOM 131086 /* no listing is longer */

#define PEASHUTTLE_DEFINITIONS 64
#define PEASHUTTLE_EVENTS 64
#define PEASHUTTLE_TERMS 1024
#define PEASHUTTLE_DIGITS 1024 /* digits of an address */
#define PEASHUTTLE_CELLS 1024
#define PEASHUTTLE_NODES 4096
#define PEASHUTTLE_ARCS 8192
#define PEASHUTTLE_MEETINGS 4096

#define PEASHUTTLE_HEAD_WORDS 4
#define PEASHUTTLE_PLAN_WORDS 4096
#define PEASHUTTLE_NODE_WORDS 65544
#define PEASHUTTLE_TRACK_WORDS 28672
#define PEASHUTTLE_COUNTER_WORDS 8
#define PEASHUTTLE_COLUMN_WORDS 8193
#define PEASHUTTLE_SIDE_WORDS 16388

#define PEASHUTTLE_ALIGNMENT 8 /* of a block in memory of one's own */
#define PEASHUTTLE_STACK 2097152 /* bytes of a thread's stack that are enough for every function */

/* ---- numbers */

#define PEASHUTTLE_DONE 0x00000u
#define PEASHUTTLE_REFUSED 0x10000u /* the paper's number is added to it */
#define PEASHUTTLE_END 0x20000u
#define PEASHUTTLE_NO_BLOCK 0x30000u
#define PEASHUTTLE_NO_TABLE 0x30001u
#define PEASHUTTLE_NO_RUN 0x30002u
#define PEASHUTTLE_NO_TRACK 0x30003u

/* An accepted step's event. */
#define PEASHUTTLE_TAU 0u
#define PEASHUTTLE_TICK 1u
#define PEASHUTTLE_EVENT 2u /* the event's own number is added to it */

/* A run's status. */
#define PEASHUTTLE_LIVE 0u
#define PEASHUTTLE_ENDED 1u
#define PEASHUTTLE_STUCK 2u

/* Of what a run offers, the bits for tau and tick. */
#define PEASHUTTLE_OFFERS_TAU 1u
#define PEASHUTTLE_OFFERS_TICK 2u

/* The paper's numbers of refusal. */
#define PEASHUTTLE_NO_LINE 1u
#define PEASHUTTLE_WRONG_FRAME 2u
#define PEASHUTTLE_OUT_OF_RANGE 3u
#define PEASHUTTLE_INCOMPLETE 4u
#define PEASHUTTLE_TERM_OVER_ROOM 5u
#define PEASHUTTLE_TEXT_OVER_ROOM 6u
#define PEASHUTTLE_NO_DERIVATION 7u
#define PEASHUTTLE_CELLS_OVER_ROOM 8u
#define PEASHUTTLE_NODES_OVER_ROOM 9u
#define PEASHUTTLE_ARCS_OVER_ROOM 10u
#define PEASHUTTLE_MEETINGS_OVER_ROOM 11u
#define PEASHUTTLE_SLICE_TOO_SHORT 12u
#define PEASHUTTLE_SHAPE_BROKEN 13u

/* Whether a number is a refusal. */
static inline int peashuttle_is_refused(uint32_t number)
{
    return PEASHUTTLE_REFUSED <= number && number < PEASHUTTLE_END;
}

/* The paper's number of a refusal, 0 where a number is none. */
static inline uint32_t peashuttle_refusal(uint32_t number)
{
    return peashuttle_is_refused(number) ? number - PEASHUTTLE_REFUSED : 0;
}

/* Whether a step's number is an event of the table, and neither tau nor tick. */
static inline int peashuttle_is_event(uint32_t number)
{
    return PEASHUTTLE_EVENT <= number && number < PEASHUTTLE_REFUSED;
}

/* The event's own number, 0 to 63, of a step's number that is one. */
static inline uint32_t peashuttle_event(uint32_t number)
{
    return number - PEASHUTTLE_EVENT;
}

/* What a refusal means, by the paper's number. */
static inline const char *peashuttle_refusal_text(uint32_t refusal)
{
    switch (refusal) {
    case PEASHUTTLE_NO_LINE:
        return "it is not a line of hexadecimal";
    case PEASHUTTLE_WRONG_FRAME:
        return "it is not a line that can stand there, or the text ends too early";
    case PEASHUTTLE_OUT_OF_RANGE:
        return "a number in it is outside its range";
    case PEASHUTTLE_INCOMPLETE:
        return "a definition is not complete there, or has a term too many";
    case PEASHUTTLE_TERM_OVER_ROOM:
        return "there are more than 1,024 terms, or a literal's path has more than 64 digits";
    case PEASHUTTLE_TEXT_OVER_ROOM:
        return "the text is longer than its room";
    case PEASHUTTLE_NO_DERIVATION:
        return "no step has this address";
    case PEASHUTTLE_CELLS_OVER_ROOM:
        return "the step would leave more than 1,024 cells of control";
    case PEASHUTTLE_NODES_OVER_ROOM:
        return "the step would make more than 4,096 nodes";
    case PEASHUTTLE_ARCS_OVER_ROOM:
        return "the step would make more than 8,192 arcs";
    case PEASHUTTLE_MEETINGS_OVER_ROOM:
        return "the step would make more than 4,096 meetings";
    case PEASHUTTLE_SLICE_TOO_SHORT:
        return "the saved text is longer than the slice for it";
    case PEASHUTTLE_SHAPE_BROKEN:
        return "the saved text does not have the shape of a track of this table";
    default:
        return "it is no refusal";
    }
}

/* ---- blocks */

typedef struct peashuttle_table {
    size_t head[PEASHUTTLE_HEAD_WORDS]; /* stamp, definitions, events, terms */
    uint8_t kinds[PEASHUTTLE_TERMS];
    uint64_t payloads[PEASHUTTLE_TERMS];
    uint8_t owners[PEASHUTTLE_TERMS];
    uint16_t after[PEASHUTTLE_TERMS];
    uint16_t roots[PEASHUTTLE_DEFINITIONS];
    uint16_t plan[PEASHUTTLE_PLAN_WORDS];
} peashuttle_table;

typedef struct peashuttle_run {
    size_t stamp;
    uint8_t digits[PEASHUTTLE_DIGITS]; /* room for an address, which is no part of the run */
    uint16_t counters[PEASHUTTLE_COUNTER_WORDS];
    uint16_t nodes[PEASHUTTLE_NODE_WORDS];
    uint16_t track[PEASHUTTLE_TRACK_WORDS];
} peashuttle_run;

typedef struct peashuttle_track {
    size_t head[PEASHUTTLE_HEAD_WORDS]; /* stamp, nodes, arcs, meetings */
    uint16_t labels[PEASHUTTLE_COLUMN_WORDS];
    uint16_t graph[PEASHUTTLE_TRACK_WORDS];
} peashuttle_track;

typedef struct peashuttle_work {
    uint16_t labels[PEASHUTTLE_COLUMN_WORDS];
    uint16_t graph[PEASHUTTLE_TRACK_WORDS];
    uint16_t marks[PEASHUTTLE_COLUMN_WORDS];
    uint16_t sides[PEASHUTTLE_SIDE_WORDS];
    uint16_t pending[PEASHUTTLE_SIDE_WORDS];
    uint16_t numbers[PEASHUTTLE_COLUMN_WORDS];
    uint16_t spare[PEASHUTTLE_TRACK_WORDS];
} peashuttle_work;

/* The first word of a block that is filled. */
#define PEASHUTTLE_TABLE_STAMP ((size_t)0x5045415441423031u)
#define PEASHUTTLE_RUN_STAMP ((size_t)0x50454152554e3031u)
#define PEASHUTTLE_TRACK_STAMP ((size_t)0x50454154524b3031u)

/* Whether memory is there, is as long as a block, and begins where one may. */
static inline int peashuttle_has_room(const void *memory, size_t bytes, size_t wanted)
{
    return memory != NULL && wanted <= bytes && (uintptr_t)memory % PEASHUTTLE_ALIGNMENT == 0;
}

/* A block at the front of memory of one's own; null where that is null, too short or not aligned to 8 bytes. */
static inline peashuttle_table *peashuttle_table_in(void *memory, size_t bytes)
{
    return peashuttle_has_room(memory, bytes, sizeof(peashuttle_table)) ? (peashuttle_table *)memory : NULL;
}

static inline peashuttle_run *peashuttle_run_in(void *memory, size_t bytes)
{
    return peashuttle_has_room(memory, bytes, sizeof(peashuttle_run)) ? (peashuttle_run *)memory : NULL;
}

static inline peashuttle_track *peashuttle_track_in(void *memory, size_t bytes)
{
    return peashuttle_has_room(memory, bytes, sizeof(peashuttle_track)) ? (peashuttle_track *)memory : NULL;
}

static inline peashuttle_work *peashuttle_work_in(void *memory, size_t bytes)
{
    return peashuttle_has_room(memory, bytes, sizeof(peashuttle_work)) ? (peashuttle_work *)memory : NULL;
}

/* A word of a block's head, 0 where the block is null or was never filled. */
static inline size_t peashuttle_count(const size_t *head, size_t stamp, size_t word)
{
    return head != NULL && head[0] == stamp ? head[word] : 0;
}

/* How many definitions, events and terms a checked table has; 0 where it is none. */
static inline size_t peashuttle_table_definitions(const peashuttle_table *table)
{
    return peashuttle_count(table != NULL ? table->head : NULL, PEASHUTTLE_TABLE_STAMP, 1);
}

static inline size_t peashuttle_table_events(const peashuttle_table *table)
{
    return peashuttle_count(table != NULL ? table->head : NULL, PEASHUTTLE_TABLE_STAMP, 2);
}

static inline size_t peashuttle_table_terms(const peashuttle_table *table)
{
    return peashuttle_count(table != NULL ? table->head : NULL, PEASHUTTLE_TABLE_STAMP, 3);
}

/* How many nodes, arcs and meetings a track that was read has; 0 where it is none. */
static inline size_t peashuttle_track_nodes(const peashuttle_track *track)
{
    return peashuttle_count(track != NULL ? track->head : NULL, PEASHUTTLE_TRACK_STAMP, 1);
}

static inline size_t peashuttle_track_arcs(const peashuttle_track *track)
{
    return peashuttle_count(track != NULL ? track->head : NULL, PEASHUTTLE_TRACK_STAMP, 2);
}

static inline size_t peashuttle_track_meetings(const peashuttle_track *track)
{
    return peashuttle_count(track != NULL ? track->head : NULL, PEASHUTTLE_TRACK_STAMP, 3);
}

/* ---- what the library exports

   The functions below hand on to these, and are the ones to call: here no pointer may be null, not even that of a slice of
   length 0. */

size_t peashuttle_proved_list(const uint8_t *input, size_t input_length, uint8_t *out, size_t out_length);
uint32_t peashuttle_proved_check(const uint8_t *text, size_t text_length, size_t *line, peashuttle_table *table);
void peashuttle_proved_start(peashuttle_run *run);
uint32_t peashuttle_proved_step(const uint8_t *address, size_t address_length, const peashuttle_table *table,
    peashuttle_run *run);
uint32_t peashuttle_proved_play(const uint8_t *script, size_t script_length, size_t *at, const peashuttle_table *table,
    peashuttle_run *run);
uint32_t peashuttle_proved_offers(uint64_t *events, const peashuttle_table *table, const peashuttle_run *run);
uint32_t peashuttle_proved_status(const peashuttle_table *table, const peashuttle_run *run);
uint32_t peashuttle_proved_save(uint8_t *text, size_t text_length, size_t *length, const peashuttle_table *table,
    const peashuttle_run *run, peashuttle_work *work);
uint32_t peashuttle_proved_read(const uint8_t *text, size_t text_length, size_t *line, const peashuttle_table *table,
    peashuttle_track *found, peashuttle_work *work);
uint32_t peashuttle_proved_write(uint8_t *text, size_t text_length, size_t *length, const peashuttle_table *table,
    const peashuttle_track *found);

/* ---- the functions to call

   A slice is a pointer and a length; one of length 0 may be null. Where nobody asks for a line, a length or events, the
   pointer for it may be null. */

/* A place for slices of no bytes, at which nothing is read or written. */
static inline uint8_t *peashuttle_nowhere(void)
{
    static uint8_t nowhere;
    return &nowhere;
}

/* Whether a slice is null and has a length all the same. */
static inline int peashuttle_is_missing(const uint8_t *bytes, size_t length)
{
    return bytes == NULL && length != 0;
}

/* Writes the listing of an input, a table and the script behind it, to the front of out, as far as that goes, and tells how
   long the listing is, which is never 0; 0 where a slice is null and has a length. */
static inline size_t peashuttle_list(const uint8_t *input, size_t input_length, uint8_t *out, size_t out_length)
{
    if (peashuttle_is_missing(input, input_length) || peashuttle_is_missing(out, out_length)) {
        return 0;
    }
    return peashuttle_proved_list(input != NULL ? input : peashuttle_nowhere(), input_length,
        out != NULL ? out : peashuttle_nowhere(), out_length);
}

/* Checks a table's text, and fills a table's block with it. Refusals are 1 to 6, told with the line, counted from 1; line 0
   is the text as a whole, and stands where the text is accepted too. */
static inline uint32_t peashuttle_check(peashuttle_table *table, const uint8_t *text, size_t text_length, size_t *line)
{
    size_t unasked = 0;
    if (table == NULL || peashuttle_is_missing(text, text_length)) {
        return PEASHUTTLE_NO_BLOCK;
    }
    return peashuttle_proved_check(text != NULL ? text : peashuttle_nowhere(), text_length, line != NULL ? line : &unasked,
        table);
}

/* Starts a run, whatever its block held. */
static inline uint32_t peashuttle_start(peashuttle_run *run)
{
    if (run == NULL) {
        return PEASHUTTLE_NO_BLOCK;
    }
    peashuttle_proved_start(run);
    return PEASHUTTLE_DONE;
}

/* Steps a run by an address, its digits a byte each, 1 to 4, and tells the event. Refusals are 7 to 11. The table is the
   one of all the run's steps: by another, what is answered means nothing. */
static inline uint32_t peashuttle_step(peashuttle_run *run, const peashuttle_table *table, const uint8_t *address,
    size_t address_length)
{
    if (run == NULL || table == NULL || peashuttle_is_missing(address, address_length)) {
        return PEASHUTTLE_NO_BLOCK;
    }
    return peashuttle_proved_step(address != NULL ? address : peashuttle_nowhere(), address_length, table, run);
}

/* Plays the script's line that begins at the cursor, and tells the event, and PEASHUTTLE_END where there is no further line.
   The cursor goes behind an accepted line, and else stays. Refusals are 1, 2, 3 and 7 to 11. */
static inline uint32_t peashuttle_play(peashuttle_run *run, const peashuttle_table *table, const uint8_t *script,
    size_t script_length, size_t *cursor)
{
    if (run == NULL || table == NULL || cursor == NULL || peashuttle_is_missing(script, script_length)) {
        return PEASHUTTLE_NO_BLOCK;
    }
    return peashuttle_proved_play(script != NULL ? script : peashuttle_nowhere(), script_length, cursor, table, run);
}

/* What a run offers: event k is bit k of events; the number has the bits PEASHUTTLE_OFFERS_TAU and PEASHUTTLE_OFFERS_TICK. */
static inline uint32_t peashuttle_offers(const peashuttle_run *run, const peashuttle_table *table, uint64_t *events)
{
    uint64_t unasked = 0;
    if (run == NULL || table == NULL) {
        return PEASHUTTLE_NO_BLOCK;
    }
    return peashuttle_proved_offers(events != NULL ? events : &unasked, table, run);
}

/* The status of a run: PEASHUTTLE_LIVE, PEASHUTTLE_ENDED or PEASHUTTLE_STUCK. */
static inline uint32_t peashuttle_status(const peashuttle_run *run, const peashuttle_table *table)
{
    if (run == NULL || table == NULL) {
        return PEASHUTTLE_NO_BLOCK;
    }
    return peashuttle_proved_status(table, run);
}

/* Saves a run's track as its text, to the front of a slice, and tells how long it is. Refusal 12 tells the length too, and
   writes nothing. */
static inline uint32_t peashuttle_save(const peashuttle_run *run, const peashuttle_table *table, peashuttle_work *work,
    uint8_t *text, size_t text_length, size_t *length)
{
    size_t unasked = 0;
    if (run == NULL || table == NULL || work == NULL || peashuttle_is_missing(text, text_length)) {
        return PEASHUTTLE_NO_BLOCK;
    }
    return peashuttle_proved_save(text != NULL ? text : peashuttle_nowhere(), text_length, length != NULL ? length : &unasked,
        table, run, work);
}

/* Reads a saved text against a table, and fills a track's block with it. Refusals are 1, 2, 3, with the line, and 13. */
static inline uint32_t peashuttle_read(peashuttle_track *track, const peashuttle_table *table, peashuttle_work *work,
    const uint8_t *text, size_t text_length, size_t *line)
{
    size_t unasked = 0;
    if (track == NULL || table == NULL || work == NULL || peashuttle_is_missing(text, text_length)) {
        return PEASHUTTLE_NO_BLOCK;
    }
    return peashuttle_proved_read(text != NULL ? text : peashuttle_nowhere(), text_length, line != NULL ? line : &unasked,
        table, track, work);
}

/* Writes a track that was read against this table as its text; otherwise like peashuttle_save. */
static inline uint32_t peashuttle_write(const peashuttle_track *track, const peashuttle_table *table, uint8_t *text,
    size_t text_length, size_t *length)
{
    size_t unasked = 0;
    if (track == NULL || table == NULL || peashuttle_is_missing(text, text_length)) {
        return PEASHUTTLE_NO_BLOCK;
    }
    return peashuttle_proved_write(text != NULL ? text : peashuttle_nowhere(), text_length,
        length != NULL ? length : &unasked, table, track);
}

#ifdef __cplusplus
}
#endif

#endif
