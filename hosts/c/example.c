/* Prints the listing of a table and the script behind it, as ./run does, by the parts of the library.

       cc example.c -I include -L lib -lpeashuttle -o example
       ./example casino.txt

   Without a file standard input is read. The exit status is 0 where all was accepted, 1 where something was refused, and 2
   where the file cannot be read. */

#include <stdio.h>

#include "peashuttle.h"

/* Blocks are too large for the stack. */
static peashuttle_table table;
static peashuttle_run run;
static peashuttle_work work;

static uint8_t input[PEASHUTTLE_INPUT_ROOM];
static uint8_t saved[PEASHUTTLE_SAVED_ROOM];

/* Where the table ends: behind the first line that begins with 1f or 1F. */
static size_t table_end(const uint8_t *text, size_t length)
{
    size_t at = 0;
    int last = 0;
    while (at < length && !last) {
        last = at + 1 < length && text[at] == '1' && (text[at + 1] == 'f' || text[at + 1] == 'F');
        while (at < length && text[at] != '\n') {
            at++;
        }
        at += at < length;
    }
    return at;
}

static void tell_event(uint32_t number)
{
    if (peashuttle_is_event(number)) {
        printf("4002%02x\n", (unsigned)peashuttle_event(number));
    } else {
        printf("40%02x\n", (unsigned)number);
    }
}

/* Tells a refusal, also in words to whoever watches; gives the exit status. */
static int tell_refusal(uint32_t number, size_t line)
{
    uint32_t refusal = peashuttle_refusal(number);
    printf("4e%02x%04x\n", (unsigned)refusal, (unsigned)line);
    fprintf(stderr, "refused, number %u, line %zu: %s\n", (unsigned)refusal, line, peashuttle_refusal_text(refusal));
    return 1;
}

/* Plays a script from its start, and tells each event, the status, the refusal if there is one, and the track. */
static int tell_run(const uint8_t *script, size_t length)
{
    size_t cursor = 0, line = 1, saved_length = 0;
    int exit_status = 0;
    uint32_t number;

    peashuttle_start(&run);
    while ((number = peashuttle_play(&run, &table, script, length, &cursor)) < PEASHUTTLE_REFUSED) {
        tell_event(number);
        line++;
    }
    printf("41%02x\n", (unsigned)peashuttle_status(&run, &table));
    if (peashuttle_is_refused(number)) {
        exit_status = tell_refusal(number, line);
    }
    number = peashuttle_save(&run, &table, &work, saved, sizeof saved, &saved_length);
    if (peashuttle_is_refused(number)) {
        return tell_refusal(number, 0);
    }
    fwrite(saved, 1, saved_length, stdout);
    return exit_status;
}

int main(int argc, char **argv)
{
    FILE *file = argc > 1 ? fopen(argv[1], "rb") : stdin;
    size_t length, end, line = 0;
    uint32_t number;

    if (file == NULL) {
        perror(argv[1]);
        return 2;
    }
    length = fread(input, 1, sizeof input, file);
    end = table_end(input, length);
    number = peashuttle_check(&table, input, end, &line);
    if (peashuttle_is_refused(number)) {
        return tell_refusal(number, line);
    }
    if (length - end > PEASHUTTLE_SCRIPT_ROOM) {
        return tell_refusal(PEASHUTTLE_REFUSED + PEASHUTTLE_TEXT_OVER_ROOM, 0);
    }
    return tell_run(input + end, length - end);
}
