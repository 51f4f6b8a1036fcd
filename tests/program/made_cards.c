/*
 * What tramcard writes. Request P1 is silent on the program; what is held is this:
 *
 *   - Three arguments, TRACK, R and M, each a number in decimal with or without leading zeros, of a code within the limits: the
 *     card's 512 bytes on standard output, as the second reader makes them, with offset 0, and not a word on standard error.
 *   - Anything else: one line on standard error, and nothing on standard output. The line says the first thing that is wrong:
 *     the count of the arguments; TRACK, R or M, which is empty, has a character that is no digit, or does not fit; refusal 13.
 *   - A write that fails: one line on standard error that ends in the reason, in the C library's words. An interrupted write is
 *     tried again, and one that takes only some of the bytes is gone on with.
 *   - Standard input is not read, and the exit status is 0 in all of these.
 *
 *     made_cards PROGRAM FAILING_CALLS [MOST]     stops after MOST faults (20)
 *
 * FAILING_CALLS is failing_calls.c as a shared object.
 *
 * Exit status 0: all held; 1: some did not; 2: the test could not be made.
 */
#include <errno.h>
#include <fcntl.h>
#include <stdio.h>
#include <stdlib.h>
#include <string.h>
#include <unistd.h>

#include "feed.h"
#include "tracks.h"

#define COUNT(list) (sizeof(list) / sizeof *(list))

static const char *program, *failing_calls;
static unsigned long runs, faults, most = 20;

static const char usage[] = "usage: tramcard TRACK R M > CARD   (three numbers in decimal; a card of 512 bytes)\n";
static const char refused[] = "tramcard: refused 13: M is not 1 to 6, R is above M, or k is above 12\n";
static const char *const no_number[] = {
    "tramcard: TRACK is not a number from 0 to 65535\n",
    "tramcard: R is not a number from 0 to 4294967295\n",
    "tramcard: M is not a number from 0 to 4294967295\n",
};

/* Bytes that wait on standard input, and stay there. */
static const uint8_t waiting[] = "14 1 4\n";

/* A run with these arguments: these bytes on standard output, and this text on standard error. */
static void hold(const char *const *arguments, int output, const char *preload, const void *bytes, size_t count, const char *line)
{
    struct streams s = {MADE, output, MADE, arguments, preload};
    struct outcome o = run_on(program, &s, waiting, sizeof waiting, IN_ONE_PIECE);
    size_t i;

    runs++;
    if (o.output_bytes != count || memcmp(o.output, bytes, count) != 0 || strcmp(o.errors, line) != 0 || o.status != 0 ||
        o.untaken != sizeof waiting) {
        faults++;
        printf("tests/program: tramcard");
        for (i = 0; arguments[i] != NULL; i++)
            printf(" '%.30s'", arguments[i]);
        printf(": status %d, %zu bytes, %zu wanted, %zu bytes of input left\n", o.status, o.output_bytes, count, o.untaken);
        printf("    standard error '%s'\n            wanted '%s'\n", o.errors, line);
    }
    forget(&o);
    if (faults >= most) {
        printf("tests/program: made cards: stopped after %lu faults in %lu runs\n", faults, runs);
        exit(1);
    }
}

/* Nothing is made, and this is the line. */
static void hold_told(const char *track, const char *r, const char *m, const char *line)
{
    const char *const arguments[] = {track, r, m, NULL};

    hold(arguments, MADE, NULL, "", 0, line);
}

/* Three numbers: the second reader's card, or refusal 13. `form` is how they are typed. */
static void hold_card(uint16_t track, uint32_t r, uint32_t m, const char *form)
{
    char texts[3][30];
    const char *const arguments[] = {texts[0], texts[1], texts[2], NULL};
    static const uint8_t no_offset[4];
    uint8_t card[CARD_BYTES];
    uint32_t refusal = second_make_card(track, r, m, card, CARD_BYTES);

    if (refusal == 0 && memcmp(card + 100, no_offset, sizeof no_offset) != 0)
        give_up("the offset of the second reader's card");
    snprintf(texts[0], sizeof texts[0], form, (unsigned)track);
    snprintf(texts[1], sizeof texts[1], form, (unsigned)r);
    snprintf(texts[2], sizeof texts[2], form, (unsigned)m);
    if (refusal == 0)
        hold(arguments, MADE, NULL, card, CARD_BYTES, "");
    else if (refusal == 13)
        hold(arguments, MADE, NULL, "", 0, refused);
    else
        give_up("the second reader's card");
}

static void every_code(void)
{
    static const uint16_t tracks[] = {0, 1, 14, 255, 256, 4660, 32768, 65535};
    static const uint32_t large[] = {256, 257, 65536, 65540, 2147483648u, 4294967294u, 4294967295u};
    uint32_t r, m;
    size_t i;

    for (m = 0; m <= 8; m++)
        for (r = 0; r <= 8; r++) {
            hold_card(tracks[(m * 9 + r) % COUNT(tracks)], r, m, "%u");
            hold_card((uint16_t)below(65536), r, m, "%012u");
        }
    for (i = 0; i < COUNT(tracks); i++)
        hold_card(tracks[i], 1, 4, "%u");
    for (i = 0; i < COUNT(large); i++) {
        hold_card(14, large[i], 4, "%u");
        hold_card(14, 1, large[i], "%u");
        hold_card(14, large[i], large[i], "%u");
    }
}

/* The longest text that the system hands to a program: 131,071 bytes. */
static void long_texts(void)
{
    static char zeros[131072];
    uint8_t card[CARD_BYTES];
    const char *const arguments[] = {zeros, "1", "4", NULL};

    memset(zeros, '0', sizeof zeros - 1);
    memcpy(zeros + sizeof zeros - 3, "14", 2);
    if (second_make_card(14, 1, 4, card, CARD_BYTES) != 0)
        give_up("the second reader's card");
    hold(arguments, MADE, NULL, card, CARD_BYTES, "");
    zeros[0] = '1';
    hold_told(zeros, "1", "4", no_number[0]);
}

static void bad_arguments(void)
{
    static const char *const bad[] = {"",    " ",    "1 ",   " 1",  "+1",   "-1",  "-0",  "1x",   "x1", "x", "0x1",
                                      "1.0", "1,0",  "1e1",  "/",   ":",    "1/",  "1:",  "\n",   "1\n", "\xff", "\xb1",
                                      "4294967296", "4294967297", "4294967300", "99999999999", "18446744073709551616",
                                      "18446744073709551617", "100000000000000000000000000000000000001", "1-"};
    static const char *const wide_tracks[] = {"65536", "65537", "65550", "99999", "131073", "4294967295"};
    size_t i;

    for (i = 0; i < COUNT(bad); i++) {
        hold_told(bad[i], "1", "4", no_number[0]);
        hold_told("14", bad[i], "4", no_number[1]);
        hold_told("14", "1", bad[i], no_number[2]);
        hold_told(bad[i], bad[i], bad[i], no_number[0]);
        hold_told("14", bad[i], bad[i], no_number[1]);
        hold_told(bad[i], "1", "7", no_number[0]);
    }
    for (i = 0; i < COUNT(wide_tracks); i++)
        hold_told(wide_tracks[i], "1", "4", no_number[0]);
}

static void counts_of_arguments(void)
{
    static const char *const given[][7] = {
        {NULL},
        {"14", NULL},
        {"14", "1", NULL},
        {"14", "1", "4", "", NULL},
        {"14", "1", "4", "4", NULL},
        {"x", "1", "4", "4", "5", "6", NULL},
        {"--help", NULL},
    };
    size_t i;

    for (i = 0; i < COUNT(given); i++)
        hold(given[i], MADE, NULL, "", 0, usage);
}

static void failing_outputs(void)
{
    static const char *const made[] = {"14", "1", "4", NULL}, *const outside[] = {"14", "1", "7", NULL};
    uint8_t card[CARD_BYTES];
    char told[200];
    int full = open("/dev/full", O_WRONLY | O_CLOEXEC);

    if (full < 0 || second_make_card(14, 1, 4, card, CARD_BYTES) != 0)
        give_up("/dev/full, or the second reader's card");
    snprintf(told, sizeof told, "tramcard: writing standard output: %s\n", strerror(ENOSPC));
    hold(made, full, NULL, "", 0, told);
    hold(outside, full, NULL, "", 0, refused);
    setenv("FAIL_WRITE_AFTER", "7", 1);
    hold(made, MADE, failing_calls, card, 7, told);
    unsetenv("FAIL_WRITE_AFTER");
    snprintf(told, sizeof told, "tramcard: writing standard output: %s\n", strerror(EBADF));
    hold(made, -1, NULL, "", 0, told);
    setenv("INTERRUPT", "1", 1);
    hold(made, MADE, failing_calls, card, CARD_BYTES, "");
    unsetenv("INTERRUPT");
    setenv("SHORT_WRITES", "100", 1);
    hold(made, MADE, failing_calls, card, CARD_BYTES, "");
    unsetenv("SHORT_WRITES");
    close(full);
}

int main(int count, char **words)
{
    if (count < 3) {
        fprintf(stderr, "usage: made_cards PROGRAM FAILING_CALLS [MOST]\n");
        return 2;
    }
    if (count > 3)
        most = strtoul(words[3], NULL, 10);
    program = words[1];
    failing_calls = words[2];
    every_code();
    long_texts();
    bad_arguments();
    counts_of_arguments();
    failing_outputs();
    printf("tests/program: made cards: %lu runs, %lu not as they should be\n", runs, faults);
    return faults != 0;
}
