/*
 * Lends dunnavish_read_levels numbers of every count from 0 to 9 and floats of every count from 0 to 4: only five and two are
 * served, any other counts are answered 100 before anything else is looked at. Where levels are read, the numbers and, bit for
 * bit, the floats are the answer; otherwise nothing is written, and never past the two or into the levels.
 */
#include <math.h>
#include <stdio.h>
#include <string.h>

#include "dunnavish.h"

#define LENT 16
#define MARKED_BYTE 0xA5
#define BITS 15
#define MOST_LEVELS 320
#define COUNT_OF(list) (sizeof(list) / sizeof *(list))
#define NOT_READ DUNNAVISH_NOT_READ

/* Card B: n 3, k 1, track 14, row 7, check 3 + 2 * 1 + 4 * 14 + 12 * 7 = 145. D 3; position m has m ones, then zeros. */
static uint8_t card[DUNNAVISH_CARD_BYTES];
static int failed = 0;

/*
 * A word of card B, of which `count` levels are lent, the others being 1: -1 for 1, 1 for 0, and for an erased bit 0 (?) or -0 (-).
 * One level of it is another, at a place.
 */
struct trial {
    const char *word;
    size_t place;
    float level;
    size_t card_bytes, count;
    uint32_t status;                           /* what is answered where five numbers and two floats are lent, */
    uint32_t values[DUNNAVISH_READ_VALUES];    /* and, where that is 0, the numbers */
    float strength[DUNNAVISH_STRENGTH_VALUES]; /* and the floats */
};

static const struct trial trials[] = {
    /* positions 10, 7 and 0, by rules 1, 2 and 3; a strong level, a bit erased, and a code chunk that bears one wrong or two erased */
    {"111111111100000", 14, 1, 512, 15, 0, {10, 0, 1, 0, NOT_READ}, {15, 1}},
    {"111111111100000", 0, -2.5f, 512, 15, 0, {10, 0, 1, 0, NOT_READ}, {16.5f, 2.5f}},
    {"111111100000000", 14, 1e6f, 512, 15, 0, {7, 0, 2, NOT_READ, 0}, {1000014, 1e6f}},
    {"11111110000-000", 14, 1, 512, 15, 0, {7, 0, 2, NOT_READ, 0}, {14, 1}},
    {"000000000000000", 3, -1, 512, 15, 0, {0, 1, 3, 1, 0}, {15, 1}},
    {"0000?-000000000", 14, 1, 512, 15, 0, {0, 0, 3, 0, 0}, {13, 1}},
    /* separator 1 sums to zero, which reads 0, and then to the least single-precision number below it, which reads 1 */
    {"10?000000000000", 14, 1, 512, 15, 0, {1, 0, 3, 0, 0}, {14, 1}},
    {"10?000000000000", 2, -1e-45f, 512, 15, 0, {1, 1, 2, NOT_READ, 0}, {14, 1}},
    /* the card first; then the count of levels; then a level outside the limits, in any place; then the word */
    {"111111100000000", 14, NAN, 511, 14, 1, {0}, {0}},
    {"111111100000000", 0, NAN, 512, 0, 15, {0}, {0}},
    {"111111100000000", 0, NAN, 512, 14, 15, {0}, {0}},
    {"111111100000000", 0, NAN, 512, 16, 15, {0}, {0}},
    {"111111100000000", 14, 1, 512, MOST_LEVELS, 15, {0}, {0}},
    {"111111100000000", 0, NAN, 512, 15, 16, {0}, {0}},
    {"111111100000000", 14, NAN, 512, 15, 16, {0}, {0}},
    {"111111100000000", 14, INFINITY, 512, 15, 16, {0}, {0}},
    {"111111100000000", 7, -INFINITY, 512, 15, 16, {0}, {0}},
    {"111111100000000", 14, 1000000.0625f, 512, 15, 16, {0}, {0}},
    {"111111100000000", 0, -1000000.0625f, 512, 15, 16, {0}, {0}},
    {"000000111000000", 4, -INFINITY, 512, 15, 16, {0}, {0}},
    {"000000111000000", 14, 1, 512, 15, 9, {0}, {0}},
    {"00001?000000000", 14, 1, 512, 15, 10, {0}, {0}},
    {"0000000000?-?00", 9, 0, 512, 15, 10, {0}, {0}},
    {"000000000111000", 14, 1, 512, 15, 11, {0}, {0}},
    {"000000000000111", 14, -1, 512, 15, 12, {0}, {0}},
    {"111000111000000", 14, 1, 512, 15, 12, {0}, {0}},
    {"000111000111000", 14, 1, 512, 15, 17, {0}, {0}},
    {"?-0111000111000", 14, 1, 512, 15, 17, {0}, {0}},
};

static float level_of(char bit)
{
    return bit == '1' ? -1.0f : bit == '0' ? 1.0f : bit == '?' ? 0.0f : -0.0f;
}

/* The levels of a trial. */
static void put_levels(const struct trial *trial, float levels[MOST_LEVELS])
{
    size_t i;

    for (i = 0; i < MOST_LEVELS; i++)
        levels[i] = i < BITS ? level_of(trial->word[i]) : 1.0f;
    levels[trial->place] = trial->level;
}

/* One call on marked numbers and floats, of which so many are lent: what they and the levels hold then is known from the trial. */
static void lend(const struct trial *trial, size_t values_count, size_t strength_count)
{
    int own = values_count == DUNNAVISH_READ_VALUES && strength_count == DUNNAVISH_STRENGTH_VALUES;
    uint32_t expected = own ? trial->status : 100, status;
    static float levels[MOST_LEVELS], as_put[MOST_LEVELS];
    uint32_t values[LENT], left[LENT];
    float strength[LENT], strength_left[LENT];

    put_levels(trial, levels);
    memcpy(as_put, levels, sizeof levels);
    memset(values, MARKED_BYTE, sizeof values);
    memset(strength, MARKED_BYTE, sizeof strength);
    memcpy(left, values, sizeof left);
    memcpy(strength_left, strength, sizeof strength_left);
    if (expected == 0) {
        memcpy(left, trial->values, sizeof trial->values);
        memcpy(strength_left, trial->strength, sizeof trial->strength);
    }
    status = dunnavish_read_levels(card, trial->card_bytes, levels, trial->count, values, values_count, strength, strength_count);
    if (status != expected || memcmp(values, left, sizeof left) != 0 || memcmp(strength, strength_left, sizeof strength) != 0 ||
        memcmp(levels, as_put, sizeof levels) != 0) {
        printf("lent_levels: trial %zu, %zu numbers and %zu floats: status %u\n", (size_t)(trial - trials), values_count,
               strength_count, (unsigned)status);
        failed = 1;
    }
}

int main(void)
{
    size_t i, values_count, strength_count;

    card[0] = 3;
    card[1] = 1;
    card[3] = 14;
    card[11] = 7;
    card[511] = 145;
    for (i = 0; i < COUNT_OF(trials); i++)
        for (values_count = 0; values_count < 10; values_count++)
            for (strength_count = 0; strength_count < 5; strength_count++)
                lend(&trials[i], values_count, strength_count);
    return failed;
}
