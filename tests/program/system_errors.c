/*
 * What tramread does where the system fails it. Document 01 is silent here; what is held is this, and the reasons are the C
 * library's words for the error:
 *
 *   - A read that fails: the lines of what was read come first, then one line on standard error that names what failed and ends
 *     in the reason, after a colon. The lines that only the end of the input gives (`short`, `words`, or `card refused 1` for less
 *     than a card) don't come: the last line says that all input was read.
 *   - A write that fails: one line on standard error, as above. What went out before is the beginning of the right text.
 *   - An interrupted read or write is tried again, and a write that takes only some of the bytes is gone on with: both without
 *     a word.
 *   - Any argument: how to use the program, on standard error; nothing is read, and nothing written to standard output.
 *   - The exit status is 0 in all of these.
 *
 *     system_errors PROGRAM FAILING_CALLS [MOST]     stops after MOST faults (20)
 *
 * FAILING_CALLS is failing_calls.c as a shared object.
 *
 * Exit status 0: all held; 1: some did not; 2: the test could not be made.
 */
#define _GNU_SOURCE
#include <errno.h>
#include <fcntl.h>
#include <stdio.h>
#include <stdlib.h>
#include <string.h>
#include <unistd.h>

#include "feed.h"
#include "tracks.h"

/* Words of two bytes, so many that their lines are more than the 64 KiB that a pipe or a buffer usually holds. */
#define INPUT_WORDS 3500
#define INPUT_BYTES (CARD_BYTES + 2 * INPUT_WORDS)

static const char *program, *failing_calls;
static unsigned long runs, faults, most = 20;
static struct track track;

static void told(int holds, const char *name, size_t count, const struct outcome *o)
{
    runs++;
    if (holds)
        return;
    faults++;
    printf("tests/program: %s, %zu bytes of input: status %d, %zu bytes left\n", name, count, o->status, o->untaken);
    printf("    standard output '%.300s'%s\n", o->output, o->output_bytes > 300 ? "..." : "");
    printf("    standard error '%s'\n", o->errors);
    if (faults >= most) {
        printf("tests/program: errors of the system: stopped after %lu faults in %lu runs\n", faults, runs);
        exit(1);
    }
}

/*
 * One line that ends in a colon and the reason, and names what failed before it by one of two words. The program's own name, with
 * which the line may begin, does not count.
 */
static int names_failure(const char *line, const char *word, const char *other_word, int reason)
{
    static const char own_name[] = "tramread";
    char end[200];
    size_t length = strlen(line), end_length = (size_t)snprintf(end, sizeof end, ": %s\n", strerror(reason));
    const char *named = strncmp(line, own_name, sizeof own_name - 1) == 0 ? line + sizeof own_name - 1 : line;
    const char *found = strcasestr(named, word) != NULL ? strcasestr(named, word) : strcasestr(named, other_word);

    return length > end_length && strchr(line, '\n') == line + length - 1 && strcmp(line + length - end_length, end) == 0 &&
           found != NULL && found < line + length - end_length;
}

/* What follows the lines that the first `count` bytes give, without what the end of the input adds; NULL: other text. */
static const char *after_lines(const char *output, size_t count)
{
    char *so_far = text_so_far(&track, count);
    const char *after = strncmp(output, so_far, strlen(so_far)) == 0 ? output + strlen(so_far) : NULL;

    free(so_far);
    return after;
}

/* A run whose input fails after `count` bytes; then the same with both streams in one file, which shows what came first. */
static void failing_input(const char *name, int input, size_t count, size_t piece, int reason)
{
    struct streams s = {input, MADE, MADE, NULL, input == MADE ? failing_calls : NULL};
    struct outcome o = run_on(program, &s, track.bytes, track.count, piece);
    const char *after = after_lines(o.output, count);
    char *both;
    size_t both_bytes;

    told(after != NULL && *after == 0 && names_failure(o.errors, "input", "read", reason) && o.status == 0, name, count, &o);
    forget(&o);
    s.output = s.errors = unnamed_file();
    o = run_on(program, &s, track.bytes, track.count, piece);
    both = contents(s.output, &both_bytes);
    free(o.output);
    o.output = both;
    o.output_bytes = both_bytes;
    after = after_lines(both, count);
    told(after != NULL && names_failure(after, "input", "read", reason) && o.status == 0, "both streams in one file", count, &o);
    forget(&o);
}

static void failing_inputs(void)
{
    static const size_t counts[] = {0, 1, 511, 512, 513, 514, 515, 700, 4096, 7000};
    static const size_t pieces[] = {IN_ONE_PIECE, AS_A_FILE, 100};
    int folder = open("/", O_RDONLY | O_DIRECTORY | O_CLOEXEC);
    char number[30];
    size_t i, j;

    if (folder < 0)
        give_up("the root folder");
    failing_input("standard input closed", -1, 0, IN_ONE_PIECE, EBADF);
    failing_input("standard input a folder", folder, 0, IN_ONE_PIECE, EISDIR);
    close(folder);
    for (i = 0; i < sizeof counts / sizeof *counts; i++)
        for (j = 0; j < sizeof pieces / sizeof *pieces; j++) {
            snprintf(number, sizeof number, "%zu", counts[i]);
            setenv("FAIL_READ_AFTER", number, 1);
            failing_input("a read fails", MADE, counts[i], pieces[j], EIO);
        }
    unsetenv("FAIL_READ_AFTER");
}

static void failing_output(const char *name, int output, size_t count, int reason)
{
    struct streams s = {MADE, output, MADE, NULL, NULL};
    struct outcome o = run_on(program, &s, track.bytes, count, IN_ONE_PIECE);

    told(names_failure(o.errors, "output", "writ", reason) && o.status == 0, name, count, &o);
    forget(&o);
    s.errors = -1;
    o = run_on(program, &s, track.bytes, count, IN_ONE_PIECE);
    told(o.status == 0, "standard error closed too", count, &o);
    forget(&o);
}

/* Standard output takes `limit` bytes and no more. */
static void output_stops(size_t count, size_t limit)
{
    struct streams s = {MADE, MADE, MADE, NULL, failing_calls};
    char *expected = text_of(&track, count), number[30];
    struct outcome o;
    int alike;

    snprintf(number, sizeof number, "%zu", limit);
    setenv("FAIL_WRITE_AFTER", number, 1);
    o = run_on(program, &s, track.bytes, count, IN_ONE_PIECE);
    unsetenv("FAIL_WRITE_AFTER");
    alike = o.output_bytes == limit && strncmp(o.output, expected, limit) == 0;
    told(alike && names_failure(o.errors, "output", "writ", ENOSPC) && o.status == 0, "a write fails", count, &o);
    forget(&o);
    free(expected);
}

static void failing_outputs(void)
{
    static const size_t counts[] = {0, 511, 512, 513, 514, 700, INPUT_BYTES};
    int full = open("/dev/full", O_WRONLY | O_CLOEXEC);
    size_t i;

    if (full < 0)
        give_up("/dev/full");
    for (i = 0; i < sizeof counts / sizeof *counts; i++) {
        failing_output("standard output full", full, counts[i], ENOSPC);
        failing_output("standard output closed", -1, counts[i], EBADF);
        output_stops(counts[i], 0);
        output_stops(counts[i], 7);
    }
    output_stops(INPUT_BYTES, 30000);
    close(full);
}

/* Calls that are to be made again: what is printed does not change. */
static void repeated_calls(const char *variable, const char *value)
{
    static const size_t counts[] = {0, 511, 512, 513, 701, INPUT_BYTES};
    static const size_t pieces[] = {IN_ONE_PIECE, AS_A_FILE, 100};
    struct streams s = {MADE, MADE, MADE, NULL, failing_calls};
    size_t i, j;

    setenv(variable, value, 1);
    for (i = 0; i < sizeof counts / sizeof *counts; i++)
        for (j = 0; j < sizeof pieces / sizeof *pieces; j++) {
            struct outcome o = run_on(program, &s, track.bytes, counts[i], pieces[j]);
            char *expected = text_of(&track, counts[i]);

            told(strcmp(o.output, expected) == 0 && o.errors_bytes == 0 && o.status == 0, variable, counts[i], &o);
            free(expected);
            forget(&o);
        }
    unsetenv(variable);
}

static void arguments(void)
{
    static const char *const given[][3] = {{"x", NULL}, {"--help", NULL}, {"-", NULL}, {"", NULL}, {"a", "b", NULL}};
    static const size_t counts[] = {0, 520};
    size_t i, j;

    for (i = 0; i < sizeof given / sizeof *given; i++)
        for (j = 0; j < 2; j++) {
            struct streams s = {MADE, MADE, MADE, given[i], NULL};
            struct outcome o = run_on(program, &s, track.bytes, counts[j], IN_ONE_PIECE);

            told(o.output_bytes == 0 && strcasestr(o.errors, "usage") != NULL && o.status == 0 && o.untaken == counts[j],
                 "an argument", counts[j], &o);
            forget(&o);
        }
}

int main(int count, char **words)
{
    static const struct fields card_b = {3, 1, 14, {7}};
    uint8_t card[CARD_BYTES];

    if (count < 3) {
        fprintf(stderr, "usage: system_errors PROGRAM FAILING_CALLS [MOST]\n");
        return 2;
    }
    if (count > 3)
        most = strtoul(words[3], NULL, 10);
    program = words[1];
    failing_calls = words[2];
    card_of(&card_b, card);
    track = track_of(card, INPUT_WORDS);
    make_words(&track);
    answer_words(&track);
    arguments();
    repeated_calls("INTERRUPT", "1");
    repeated_calls("SHORT_WRITES", "10");
    failing_inputs();
    failing_outputs();
    drop(&track);
    printf("tests/program: errors of the system: %lu runs, %lu not as they should be\n", runs, faults);
    return faults != 0;
}
