/*
 * Lends the calls numbers of every count from 0 to 9, signed ones for a distance, and the call that makes a card bytes of many
 * counts: only the call's own count is served, any other is answered 100 before anything else is looked at, and nothing is
 * written then, nor past the values or the card. A refused call changes nothing either.
 */
#include <stdio.h>
#include <string.h>

#include "dunnavish.h"

#define LENT 16
#define MARK 0xA5A5A5A5u
#define SIGNED_MARK (-1515870811) /* the same bytes as MARK */
#define LENT_BYTES 1024
#define MARKED_BYTE 0xA5
#define COUNT_OF(list) (sizeof(list) / sizeof *(list))

enum { CHECK, READ, START, NEAREST, VOTE, CALLS };
static const size_t counts[CALLS] = {DUNNAVISH_CARD_VALUES, DUNNAVISH_READ_VALUES, DUNNAVISH_NUMBER_VALUES, DUNNAVISH_NUMBER_VALUES,
                                     DUNNAVISH_VOTE_VALUES};

/* Card B: n 3, k 1, track 14, row 7; its check is 145 where the offset is 0. */
static uint8_t card[DUNNAVISH_CARD_BYTES];
static uint32_t values[LENT];
static int failed = 0;

/* Two trams on it, widened by 10 at both ends and cut: 0 to 12 and 3 to 15. */
static const uint32_t lows[2] = {0, 13}, highs[2] = {2, 15};

/*
 * A call: on card B with an offset, `card_bytes` of it lent, or of a vote on a chunk of the code of order r in m variables.
 * Place p of the word that is read, which has two bytes, or of the chunk, is the bit worth 2^p of `bits`; the mark to which a tram is
 * the nearest is `bits` itself.
 */
struct trial {
    int which;
    size_t card_bytes;
    int32_t offset;
    uint32_t r, m;
    uint64_t bits;
    uint32_t status;                          /* what is answered where the count is the call's */
    uint32_t expected[DUNNAVISH_CARD_VALUES]; /* and the values where that is 0 */
};

/* Order 1 in 3 variables has rows FF, AA, CC, F0, D 4 and t 1: AB is one bit from AA, number 3; 03 is two bits from 00. */
static const struct trial trials[] = {
    {CHECK, 512, 0, 0, 0, 0, 0, {3, 1, 14, 3, 1, 15, 15}},
    {CHECK, 511, 0, 0, 0, 0, 1, {0}},
    {READ, 512, 0, 0, 0, 0x007F, 0, {7, 0, 2, DUNNAVISH_NOT_READ, 0}},
    {READ, 511, 0, 0, 0, 0x007F, 1, {0}},
    {START, 512, 0, 0, 0, 0, 0, {15}},
    {START, 511, 0, 0, 0, 0, 1, {0}},
    /* with an offset the answers are the same; outside its range it is refused, unless a reason before it holds */
    {CHECK, 512, -20000, 0, 0, 0, 0, {3, 1, 14, 3, 1, 15, 15}},
    {CHECK, 512, 20001, 0, 0, 0, 14, {0}},
    {CHECK, 511, 20001, 0, 0, 0, 1, {0}},
    {READ, 512, -20000, 0, 0, 0x007F, 0, {7, 0, 2, DUNNAVISH_NOT_READ, 0}},
    {READ, 512, -20001, 0, 0, 0x007F, 14, {0}},
    {START, 512, 20000, 0, 0, 0, 0, {15}},
    {START, 512, INT32_MIN, 0, 0, 0, 14, {0}},
    /*
     * Rule 1: 111 111 111 111 100, place 0 leftmost, position 13, and with place 4 damaged, in chunk 1. Rule 2: position 7 with
     * place 9 damaged, in chunk 2. Rule 3: position 0, and with place 3 damaged, in chunk 1, place 10, in chunk 2, and both.
     */
    {READ, 512, 0, 0, 0, 0x1FFF, 0, {13, 0, 1, 0, DUNNAVISH_NOT_READ}},
    {READ, 512, 0, 0, 0, 0x1FEF, 0, {13, 1, 1, 1, DUNNAVISH_NOT_READ}},
    {READ, 512, 0, 0, 0, 0x027F, 0, {7, 1, 2, DUNNAVISH_NOT_READ, 1}},
    {READ, 512, 0, 0, 0, 0x0000, 0, {0, 0, 3, 0, 0}},
    {READ, 512, 0, 0, 0, 0x0008, 0, {0, 1, 3, 1, 0}},
    {READ, 512, 0, 0, 0, 0x0400, 0, {0, 1, 3, 0, 1}},
    {READ, 512, 0, 0, 0, 0x0408, 0, {0, 2, 3, 1, 1}},
    /*
     * Positions 7 and 5 with their divided chunk damaged in every bit: 111 111 011 000 000 is read as 9, and 111 001 000 000 000, with
     * one bit damaged in each other chunk besides, 011 001 100 100 100, as 3.
     */
    {READ, 512, 0, 0, 0, 0x01BF, 0, {9, 1, 1, 0, DUNNAVISH_NOT_READ}},
    {READ, 512, 0, 0, 0, 0x1266, 0, {3, 5, 2, DUNNAVISH_NOT_READ, 1}},
    /* refused after the chunks that the rule names have been read, and before */
    {READ, 512, 0, 0, 0, 0x0E38, 17, {0}},
    {READ, 512, 0, 0, 0, 0x01C7, 12, {0}},
    {READ, 512, 0, 0, 0, 0x7000, 12, {0}},
    {READ, 512, 0, 0, 0, 0x0E00, 11, {0}},
    {READ, 512, 0, 0, 0, 0x01C0, 9, {0}},
    {READ, 512, 0, 0, 0, 0x8000, 8, {0}},
    /* both trams cross 12, and the first has the smaller low */
    {NEAREST, 512, 0, 0, 0, 12, 0, {0}},
    {NEAREST, 512, -20000, 0, 0, 13, 0, {1}},
    {NEAREST, 512, 0, 0, 0, 16, 19, {0}},
    {NEAREST, 511, 0, 0, 0, 16, 1, {0}},
    {NEAREST, 512, 20001, 0, 0, 16, 14, {0}},
    {VOTE, 0, 0, 1, 3, 0xAA, 0, {3, 0}},
    {VOTE, 0, 0, 1, 3, 0xAB, 0, {3, 1}},
    {VOTE, 0, 0, 1, 3, 0x03, 10, {0}},
    /* a bit at n or above: with a chunk that is read without it, and with one that is not */
    {VOTE, 0, 0, 1, 3, 0x1AA, 8, {0}},
    {VOTE, 0, 0, 1, 3, 0x103, 8, {0}},
    {VOTE, 0, 0, 1, 3, 0x80000000000000AA, 8, {0}},
    {VOTE, 0, 0, 0, 6, UINT64_MAX, 0, {1, 0}},
    /* m 0 and 7, r above m, k 15, and numbers that no shift may meet; with a chunk that has every bit set, too */
    {VOTE, 0, 0, 0, 0, 0, 13, {0}},
    {VOTE, 0, 0, 1, 7, 0, 13, {0}},
    {VOTE, 0, 0, 4, 3, 0xAA, 13, {0}},
    {VOTE, 0, 0, 3, 4, UINT64_MAX, 13, {0}},
    {VOTE, 0, 0, 1, 64, UINT64_MAX, 13, {0}},
    {VOTE, 0, 0, UINT32_MAX, UINT32_MAX, UINT64_MAX, 13, {0}},
};

/* Makes the card: card B with an offset, which is in bytes 100 to 103, two's complement, high byte first; and its check. */
static void make_card_b(int32_t offset)
{
    static const uint32_t others = 1 * 3 + 2 * 1 + 4 * 14 + 12 * 7;
    uint32_t bytes = (uint32_t)offset, check = others, i;

    memset(card, 0, sizeof card);
    card[0] = 3;
    card[1] = 1;
    card[3] = 14;
    card[11] = 7;
    for (i = 0; i < 4; i++) {
        card[100 + i] = (uint8_t)(bytes >> (24 - 8 * i));
        check += (101 + i) * card[100 + i];
    }
    check %= 65521;
    card[510] = (uint8_t)(check / 256);
    card[511] = (uint8_t)(check % 256);
}

/* One call on marked numbers, of which `count` are lent. */
static uint32_t call(const struct trial *trial, size_t count)
{
    const uint8_t word[2] = {(uint8_t)(trial->bits & 255), (uint8_t)(trial->bits >> 8)};
    size_t i;

    make_card_b(trial->offset);
    for (i = 0; i < LENT; i++)
        values[i] = MARK;
    switch (trial->which) {
    case CHECK:
        return dunnavish_check_card(card, trial->card_bytes, values, count);
    case READ:
        return dunnavish_read_word(card, trial->card_bytes, word, sizeof word, values, count);
    case START:
        return dunnavish_block_start(card, trial->card_bytes, 1, values, count);
    case NEAREST:
        return dunnavish_nearest_tram(card, trial->card_bytes, lows, 2, highs, 2, (uint32_t)trial->bits, values, count);
    default:
        return dunnavish_vote_chunk(trial->r, trial->m, trial->bits, values, count);
    }
}

/* How many numbers stand up to the last one that has changed. */
static size_t unmarked(void)
{
    size_t i, changed = 0;

    for (i = 0; i < LENT; i++)
        if (values[i] != MARK)
            changed = i + 1;
    return changed;
}

static void numbers(void)
{
    size_t i, count;

    for (i = 0; i < COUNT_OF(trials); i++)
        for (count = 0; count < 10; count++) {
            const struct trial *trial = &trials[i];
            uint32_t expected = count == counts[trial->which] ? trial->status : 100;
            uint32_t status = call(trial, count);
            size_t changed = unmarked();

            if (status != expected || changed != (expected == 0 ? count : 0) ||
                (expected == 0 && memcmp(values, trial->expected, count * sizeof *values) != 0)) {
                printf("lent_numbers: trial %zu, count %zu: status %u, %zu changed\n", i, count, (unsigned)status, changed);
                failed = 1;
            }
        }
}

/* The distance of a position on card B with an offset, `card_bytes` of it lent. */
static const struct distance {
    int32_t offset;
    size_t card_bytes;
    uint32_t position;
    uint32_t status;  /* what is answered where one number is lent */
    int32_t expected; /* and the distance where that is 0 */
} distances[] = {
    {0, 512, 7, 0, 350},
    {0, 511, 7, 1, 0},
    {-20000, 512, 0, 0, -20000},
    {-20000, 512, 15, 0, -19250},
    {-351, 512, 7, 0, -1},
    {-350, 512, 7, 0, 0},
    {-1, 512, 0, 0, -1},
    {1, 512, 0, 0, 1},
    {20000, 512, 15, 0, 20750},
    {-20000, 512, 16, 7, 0},
    {20000, 512, UINT32_MAX, 7, 0},
    {-20001, 512, 0, 14, 0},
    {20001, 512, 16, 14, 0},
    {INT32_MIN, 512, 0, 14, 0},
    {INT32_MAX, 512, 0, 14, 0},
    {INT32_MIN, 511, 0, 1, 0},
};

/* Asks for a distance in `count` of some marked numbers: the first is to be the distance or stay, the others stay. */
static void distance_in(const struct distance *trial, size_t count)
{
    uint32_t expected = count == DUNNAVISH_NUMBER_VALUES ? trial->status : 100, status;
    int32_t lent[LENT], left[LENT];
    size_t i;

    for (i = 0; i < LENT; i++)
        lent[i] = left[i] = SIGNED_MARK;
    if (expected == 0)
        left[0] = trial->expected;
    make_card_b(trial->offset);
    status = dunnavish_millimetres(card, trial->card_bytes, trial->position, lent, count);
    if (status != expected || memcmp(lent, left, sizeof lent) != 0) {
        printf("lent_numbers: offset %d, position %u, count %zu: status %u, first number %d\n", (int)trial->offset,
               (unsigned)trial->position, count, (unsigned)status, (int)lent[0]);
        failed = 1;
    }
}

static void signed_numbers(void)
{
    size_t i, count;

    for (i = 0; i < COUNT_OF(distances); i++)
        for (count = 0; count < 10; count++)
            distance_in(&distances[i], count);
}

/* Makes the card of a code for track 270 in `count` lent bytes: the status is to be `expected`, and what they hold `left`. */
static void make(uint32_t r, uint32_t m, size_t count, uint32_t expected, const uint8_t *left)
{
    static uint8_t lent[LENT_BYTES];
    uint32_t status;

    memset(lent, MARKED_BYTE, sizeof lent);
    status = dunnavish_make_card(270, r, m, lent, count);
    if (status != expected || memcmp(lent, left, sizeof lent) != 0) {
        printf("lent_numbers: card of r %u, m %u in %zu bytes: status %u\n", (unsigned)r, (unsigned)m, count, (unsigned)status);
        failed = 1;
    }
}

/*
 * Order 1 in 2 variables has rows 15, 10 and 12, and the check is 1 * 4 + 2 * 3 + 3 * 1 + 4 * 14 + 12 * 15 + 20 * 10 + 28 * 12 =
 * 785 = 3 * 256 + 17.
 */
static void cards(void)
{
    static const size_t lengths[] = {0, 1, 2, 3, 511, 512, 513, LENT_BYTES};
    /* r and m */
    static const uint32_t refused[][2] = {{0, 0}, {1, 0}, {0, 7}, {2, 1}, {7, 6}, {3, 4}, {2, 5}, {2, 6}, {6, 6}, {1, 32},
                                          {0, 64}, {1, 258}, {UINT32_MAX, 2}, {1, UINT32_MAX}};
    static uint8_t unchanged[LENT_BYTES], made[LENT_BYTES];
    size_t i, j;

    memset(unchanged, MARKED_BYTE, sizeof unchanged);
    memset(made, MARKED_BYTE, sizeof made);
    memset(made, 0, DUNNAVISH_CARD_BYTES);
    made[0] = 4;
    made[1] = 3;
    made[2] = 1;
    made[3] = 14;
    made[11] = 15;
    made[19] = 10;
    made[27] = 12;
    made[510] = 3;
    made[511] = 17;
    for (i = 0; i < COUNT_OF(lengths); i++) {
        int whole = lengths[i] == DUNNAVISH_CARD_BYTES;

        make(1, 2, lengths[i], whole ? 0 : 100, whole ? made : unchanged);
        for (j = 0; j < COUNT_OF(refused); j++)
            make(refused[j][0], refused[j][1], lengths[i], whole ? 13 : 100, unchanged);
    }
}

int main(void)
{
    numbers();
    signed_numbers();
    cards();
    return failed;
}
