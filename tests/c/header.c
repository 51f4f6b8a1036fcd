/*
 * What the header itself defines: the version, the text of a status, the bytes of a word, the indices of values, of a strength and of a
 * yard, what stands for a chunk that is not read and for no tram, and that an array of no elements may be NULL. Compiled as C99, as C11
 * and as C++; calls on a card, of which one is on levels and three on trams, the two that are given none, and the two on a yard show that
 * it links in each.
 */
#include <stdio.h>
#include <string.h>

#include "dunnavish.h"

#define KNOWN 21
#define YARD_KNOWN 25

static int failed = 0;

static void expect(int holds, const char *what, unsigned long number)
{
    if (!holds) {
        printf("header: %s %lu\n", what, number);
        failed = 1;
    }
}

/* Every status has a text of its own, and every other number the same one, which is none of them. */
static void status_texts(void)
{
    static const uint32_t known[KNOWN] = {0, 1, 2, 3, 4, 5, 6, 7, 8, 9, 10, 11, 12, 13, 14, 15, 16, 17, 18, 19, 100};
    const char *unknown = dunnavish_status_text(UINT32_MAX);
    uint32_t status;
    int i, j;

    for (i = 0; i < KNOWN; i++) {
        const char *text = dunnavish_status_text(known[i]);

        expect(text != NULL && strlen(text) > 3 && strcmp(text, unknown) != 0, "no text for status", known[i]);
        for (j = 0; j < i; j++)
            expect(strcmp(text, dunnavish_status_text(known[j])) != 0, "the text of another for status", known[i]);
    }
    for (status = 20; status < 100000; status++)
        if (status != 100)
            expect(strcmp(dunnavish_status_text(status), unknown) == 0, "a text for the unknown status", status);
}

/* The same of the calls on a yard, which have four statuses more. */
static void yard_status_texts(void)
{
    static const uint32_t known[YARD_KNOWN] = {0,  1,  2,  3,  4,  5,  6,  7,  8,  9,  10, 11, 12,
                                               13, 14, 15, 16, 17, 18, 19, 20, 21, 22, 26, 100};
    const char *unknown = dunnavish_status_text(UINT32_MAX);
    uint32_t status;
    int i, j;

    for (i = 0; i < YARD_KNOWN; i++) {
        const char *text = dunnavish_yard_status_text(known[i]);

        expect(strcmp(text, unknown) != 0, "no text at a yard for status", known[i]);
        for (j = 0; j < i; j++)
            expect(strcmp(text, dunnavish_yard_status_text(known[j])) != 0, "the text of another at a yard for status", known[i]);
    }
    for (status = 23; status < 100000; status++)
        if (status != 26 && status != 100)
            expect(strcmp(dunnavish_yard_status_text(status), unknown) == 0, "a text at a yard for the unknown status", status);
}

/* Reads a card's file. Answers whether that went well. */
static int read_card(const char *path, uint8_t card[DUNNAVISH_CARD_BYTES])
{
    FILE *file = fopen(path, "rb");
    size_t got = file == NULL ? 0 : fread(card, 1, DUNNAVISH_CARD_BYTES, file);

    if (file != NULL)
        fclose(file);
    if (got != DUNNAVISH_CARD_BYTES)
        printf("header: %s cannot be read\n", path);
    return got == DUNNAVISH_CARD_BYTES;
}

/* Card B's words have 15 bits in two bytes, as the library says of its card. */
static void bytes_of_words(const uint8_t card[DUNNAVISH_CARD_BYTES])
{
    uint32_t values[DUNNAVISH_CARD_VALUES];

    expect(dunnavish_check_card(card, DUNNAVISH_CARD_BYTES, values, DUNNAVISH_CARD_VALUES) == DUNNAVISH_OK, "card B refused", 0);
    expect(values[DUNNAVISH_CARD_BITS] == 15 && dunnavish_word_bytes(values[DUNNAVISH_CARD_BITS]) == 2, "card B's bytes", 2);
    expect(dunnavish_word_bytes(0) == 0, "bytes of bits", 0);
    expect(dunnavish_word_bytes(1) == 1, "bytes of bits", 1);
    expect(dunnavish_word_bytes(8) == 1, "bytes of bits", 8);
    expect(dunnavish_word_bytes(9) == 2, "bytes of bits", 9);
    expect(dunnavish_word_bytes(320) == DUNNAVISH_WIDEST_WORD_BYTES, "bytes of bits", 320);
    expect(dunnavish_word_bytes(UINT32_MAX) == 536870912, "bytes of bits", UINT32_MAX);
}

/* The indices of a read's values are these numbers, in this order, and what stands for a chunk that is not read is this one. */
#if DUNNAVISH_NOT_READ != 4294967295u
#error "DUNNAVISH_NOT_READ is another number"
#endif
static void read_indices(void)
{
    const uint32_t not_read = DUNNAVISH_NOT_READ;

    expect(not_read == UINT32_MAX, "the number of a chunk not read is", not_read);
    expect(DUNNAVISH_READ_POSITION == 0, "the index of the position is", DUNNAVISH_READ_POSITION);
    expect(DUNNAVISH_READ_RESIDUAL == 1, "the index of the residual is", DUNNAVISH_READ_RESIDUAL);
    expect(DUNNAVISH_READ_RULE == 2, "the index of the rule is", DUNNAVISH_READ_RULE);
    expect(DUNNAVISH_READ_CHUNK1_BITS == 3, "the index of chunk 1 is", DUNNAVISH_READ_CHUNK1_BITS);
    expect(DUNNAVISH_READ_CHUNK2_BITS == 4, "the index of chunk 2 is", DUNNAVISH_READ_CHUNK2_BITS);
    expect(DUNNAVISH_READ_VALUES == 5, "the count of a read's values is", DUNNAVISH_READ_VALUES);
}

/* Reads a word of card B, and expects a position, a rule and the bits of both chunks. */
static void read_as(const uint8_t card[DUNNAVISH_CARD_BYTES], uint8_t low, uint8_t high, uint32_t position, uint32_t rule,
                    uint32_t chunk1_bits, uint32_t chunk2_bits)
{
    uint8_t word[2];
    uint32_t values[DUNNAVISH_READ_VALUES], status;

    word[0] = low;
    word[1] = high;
    status = dunnavish_read_word(card, DUNNAVISH_CARD_BYTES, word, sizeof word, values, DUNNAVISH_READ_VALUES);
    expect(status == DUNNAVISH_OK, "a word of card B refused", status);
    expect(values[DUNNAVISH_READ_POSITION] == position, "not read as position", position);
    expect(values[DUNNAVISH_READ_RESIDUAL] == 1, "not the residual of position", position);
    expect(values[DUNNAVISH_READ_RULE] == rule, "not read by rule", rule);
    expect(values[DUNNAVISH_READ_CHUNK1_BITS] == chunk1_bits, "not the bits of chunk 1 by rule", rule);
    expect(values[DUNNAVISH_READ_CHUNK2_BITS] == chunk2_bits, "not the bits of chunk 2 by rule", rule);
}

/*
 * Words of card B, place 0 leftmost, with one bit damaged in a code chunk: by rule 1 111 101 111 111 100, position 13 with place
 * 4; by rule 2 111 111 100 100 000, position 7 with place 9; by rule 3 000 100 000 000 000 and 000 000 000 010 000, position 0
 * with place 3 or place 10. Each differs in one bit there, and in more at every other position that is allowed.
 */
static void read_values(const uint8_t card[DUNNAVISH_CARD_BYTES])
{
    read_as(card, 0xEF, 0x1F, 13, 1, 1, DUNNAVISH_NOT_READ);
    read_as(card, 0x7F, 0x02, 7, 2, DUNNAVISH_NOT_READ, 1);
    read_as(card, 0x08, 0x00, 0, 3, 1, 0);
    read_as(card, 0x00, 0x04, 0, 3, 0, 1);
}

/*
 * Both code chunks of card B hold codeword 1, and the separators 0: 000 111 000 111 000 is refused, as bits and as levels. With the
 * separators 110, and codeword 0 in chunk 1, there is no block before it, which is tested first.
 */
static void contradicted(const uint8_t card[DUNNAVISH_CARD_BYTES])
{
    static const uint8_t words[2][2] = {{0x38, 0x0E}, {0xC7, 0x01}};
    static const float levels[15] = {1, 1, 1, -1, -1, -1, 1, 1, 1, -1, -1, -1, 1, 1, 1};
    uint32_t values[DUNNAVISH_READ_VALUES];
    float strength[DUNNAVISH_STRENGTH_VALUES];

    expect(dunnavish_read_word(card, DUNNAVISH_CARD_BYTES, words[0], 2, values, DUNNAVISH_READ_VALUES) == DUNNAVISH_PARITY_DIFFERS,
           "a word not refused by", DUNNAVISH_PARITY_DIFFERS);
    expect(dunnavish_read_word(card, DUNNAVISH_CARD_BYTES, words[1], 2, values, DUNNAVISH_READ_VALUES) == DUNNAVISH_NO_BLOCK,
           "a word not refused by", DUNNAVISH_NO_BLOCK);
    expect(dunnavish_read_levels(card, DUNNAVISH_CARD_BYTES, levels, 15, values, DUNNAVISH_READ_VALUES, strength,
                                 DUNNAVISH_STRENGTH_VALUES) == DUNNAVISH_PARITY_DIFFERS,
           "levels not refused by", DUNNAVISH_PARITY_DIFFERS);
}

/*
 * The word of position m on card B has ones in its first m places, three a chunk. So the chunk of place m - 1 is divided where m is
 * no multiple of 3. With this chunk damaged in every way the word is read, off by at most the bits damaged and the residual, and by
 * at most twice the bits damaged; so the error bar for that many bits holds m.
 */
static void divided_arbitrarily(const uint8_t card[DUNNAVISH_CARD_BYTES])
{
    uint32_t m, way;

    for (m = 1; m < 15; m++)
        for (way = 0; way < 8 && m % 3 != 0; way++) {
            uint32_t word = ((1u << m) - 1) ^ (way << (m / 3 * 3)), damaged = way % 2 + way / 2 % 2 + way / 4;
            uint8_t bytes[2] = {(uint8_t)(word % 256), (uint8_t)(word / 256)};
            uint32_t values[DUNNAVISH_READ_VALUES] = {0}, off;

            expect(dunnavish_read_word(card, DUNNAVISH_CARD_BYTES, bytes, 2, values, DUNNAVISH_READ_VALUES) == DUNNAVISH_OK,
                   "a word whose divided chunk is damaged is refused, of position", m);
            off = values[DUNNAVISH_READ_POSITION] < m ? m - values[DUNNAVISH_READ_POSITION] : values[DUNNAVISH_READ_POSITION] - m;
            expect(off <= damaged + values[DUNNAVISH_READ_RESIDUAL] && off <= 2 * damaged, "further off than promised, of position", m);
        }
}

/*
 * The word of position 10 on card B as levels, 111 111 111 100 000, with place 4 erased, in code chunk 1, and place 5 damaged there or
 * not; the last level is 2.5. Chunk 1 with one bit erased is read, and with one damaged besides, 2 * 1 + 1 = 3 = D, it is not.
 */
static void levels_read(const uint8_t card[DUNNAVISH_CARD_BYTES])
{
    float levels[15] = {-1, -1, -1, -1, 0, -1, -1, -1, -1, -1, 1, 1, 1, 1, 2.5f};
    uint32_t values[DUNNAVISH_READ_VALUES] = {0};
    float strength[DUNNAVISH_STRENGTH_VALUES] = {0};
    uint32_t status = dunnavish_read_levels(card, DUNNAVISH_CARD_BYTES, levels, 15, values, DUNNAVISH_READ_VALUES, strength,
                                            DUNNAVISH_STRENGTH_VALUES);

    expect(status == DUNNAVISH_OK, "levels of card B refused", status);
    expect(values[DUNNAVISH_READ_POSITION] == 10, "levels not read as position", 10);
    expect(values[DUNNAVISH_READ_RESIDUAL] == 0, "not the residual of levels", values[DUNNAVISH_READ_RESIDUAL]);
    expect(values[DUNNAVISH_READ_RULE] == 1, "levels not read by rule", 1);
    expect(values[DUNNAVISH_READ_CHUNK1_BITS] == 0, "not the bits of chunk 1 of levels", values[DUNNAVISH_READ_CHUNK1_BITS]);
    expect(values[DUNNAVISH_READ_CHUNK2_BITS] == DUNNAVISH_NOT_READ, "bits of chunk 2 of levels by rule", 1);
    expect(strength[DUNNAVISH_STRENGTH_SUM] == 15.5f, "not the sum of the magnitudes of levels", 15);
    expect(strength[DUNNAVISH_STRENGTH_GREATEST] == 2.5f, "not the greatest magnitude of levels", 2);
    expect(DUNNAVISH_STRENGTH_VALUES == 2, "the count of a strength is", DUNNAVISH_STRENGTH_VALUES);
}

/* The levels of position 10 on card B, with another one at a place: `count` of them, and so many numbers and floats, are lent. */
static void levels_refused(const uint8_t card[DUNNAVISH_CARD_BYTES], size_t place, float level, size_t count, size_t numbers,
                           size_t floats, uint32_t expected)
{
    float levels[16] = {-1, -1, -1, -1, 0, -1, -1, -1, -1, -1, 1, 1, 1, 1, 1, 1};
    uint32_t values[DUNNAVISH_READ_VALUES] = {7, 7, 7, 7, 7}, status, i;
    float strength[DUNNAVISH_STRENGTH_VALUES] = {7, 7};

    levels[place] = level;
    status = dunnavish_read_levels(card, DUNNAVISH_CARD_BYTES, levels, count, values, numbers, strength, floats);
    expect(status == expected, "levels not refused by", expected);
    for (i = 0; i < DUNNAVISH_READ_VALUES; i++)
        expect(values[i] == 7, "a number changed by refusal", expected);
    expect(strength[0] == 7 && strength[1] == 7, "a float changed by refusal", expected);
}

static void levels_statuses(const uint8_t card[DUNNAVISH_CARD_BYTES])
{
    levels_refused(card, 0, -1, 14, 5, 2, DUNNAVISH_LEVEL_COUNT);
    levels_refused(card, 0, -1, 16, 5, 2, DUNNAVISH_LEVEL_COUNT);
    levels_refused(card, 14, 1000000.0625f, 15, 5, 2, DUNNAVISH_LEVEL_LIMITS);
    levels_refused(card, 5, 1, 15, 5, 2, DUNNAVISH_CHUNK_UNREADABLE);
    levels_refused(card, 5, 1, 15, 4, 2, DUNNAVISH_VALUE_COUNT);
    levels_refused(card, 5, 1, 15, 5, 1, DUNNAVISH_VALUE_COUNT);
    levels_refused(card, 0, -1, 14, 5, 0, DUNNAVISH_VALUE_COUNT);
}

/* What stands for no tram is this number, and no place in a list. */
#if DUNNAVISH_NO_TRAM != 4294967295u || DUNNAVISH_MOST_TRAMS != 64
#error "DUNNAVISH_NO_TRAM or DUNNAVISH_MOST_TRAMS is another number"
#endif

/* Two trams on card B, at 0 to 2 and 13 to 15, widened by 10 at both ends and cut: 0 to 12 and 3 to 15. Expects what is told of them. */
static void trams_told(const uint8_t card[DUNNAVISH_CARD_BYTES], uint32_t mark, uint32_t second, const uint8_t crossing[2],
                       const uint8_t within[2], uint32_t nearest)
{
    static const uint32_t lows[2] = {0, 13}, highs[2] = {2, 15};
    const size_t bytes = DUNNAVISH_CARD_BYTES;
    uint8_t yes[2] = {7, 7};
    uint32_t values[DUNNAVISH_NUMBER_VALUES] = {7};

    expect(dunnavish_trams_crossing(card, bytes, lows, 2, highs, 2, mark, yes, 2) == DUNNAVISH_OK, "no trams reported as crossing", mark);
    expect(memcmp(yes, crossing, 2) == 0, "not the trams that cross", mark);
    expect(dunnavish_trams_within(card, bytes, lows, 2, highs, 2, mark, second, yes, 2) == DUNNAVISH_OK, "no trams reported as within", mark);
    expect(memcmp(yes, within, 2) == 0, "not the trams within two marks, the first", mark);
    expect(dunnavish_nearest_tram(card, bytes, lows, 2, highs, 2, mark, values, DUNNAVISH_NUMBER_VALUES) == DUNNAVISH_OK,
           "no tram nearest to", mark);
    expect(values[0] == nearest, "not the tram nearest to", mark);
}

/* Expects that the three calls refuse `count` trams, all from one low to one high, and change nothing. */
static void trams_refused(const uint8_t card[DUNNAVISH_CARD_BYTES], uint32_t low, uint32_t high, size_t count, uint32_t mark,
                          uint32_t expected)
{
    const size_t bytes = DUNNAVISH_CARD_BYTES;
    uint32_t lows[DUNNAVISH_MOST_TRAMS + 1], highs[DUNNAVISH_MOST_TRAMS + 1], values[DUNNAVISH_NUMBER_VALUES] = {7};
    uint8_t yes[DUNNAVISH_MOST_TRAMS + 1];
    size_t i;

    for (i = 0; i <= DUNNAVISH_MOST_TRAMS; i++) {
        lows[i] = low;
        highs[i] = high;
        yes[i] = 7;
    }
    expect(dunnavish_trams_crossing(card, bytes, lows, count, highs, count, mark, yes, count) == expected, "crossing not", expected);
    expect(dunnavish_trams_within(card, bytes, lows, count, highs, count, mark, mark, yes, count) == expected, "within not", expected);
    expect(dunnavish_nearest_tram(card, bytes, lows, count, highs, count, mark, values, 1) == expected, "nearest not", expected);
    for (i = 0; i <= DUNNAVISH_MOST_TRAMS; i++)
        expect(yes[i] == 7, "an answer changed by refusal", expected);
    expect(values[0] == 7, "a place changed by refusal", expected);
}

static void trams(const uint8_t card[DUNNAVISH_CARD_BYTES])
{
    static const uint8_t none[2] = {0, 0}, first[2] = {1, 0}, second[2] = {0, 1}, both[2] = {1, 1};

    trams_told(card, 0, 12, first, first, 0);
    trams_told(card, 0, 15, first, both, 0);
    trams_told(card, 3, 15, both, second, 0);
    trams_told(card, 12, 12, both, none, 0);
    trams_told(card, 13, 15, second, none, 1);
    trams_refused(card, 0, 15, DUNNAVISH_MOST_TRAMS + 1, 0, DUNNAVISH_TRAM_COUNT);
    trams_refused(card, 6, 5, DUNNAVISH_MOST_TRAMS + 1, 0, DUNNAVISH_TRAM_COUNT);
    trams_refused(card, 6, 5, DUNNAVISH_MOST_TRAMS, 0, DUNNAVISH_STRETCH_LIMITS);
    trams_refused(card, 0, 16, 1, 0, DUNNAVISH_STRETCH_LIMITS);
    trams_refused(card, 0, 15, 1, 16, DUNNAVISH_STRETCH_LIMITS);
    trams_refused(card, 0, 15, 0, 16, DUNNAVISH_STRETCH_LIMITS);
}

/* The sizes of a yard, the indices of its numbers, and the answers to a request and a release are these numbers. */
#if DUNNAVISH_TRACKS != 16 || DUNNAVISH_MOST_WAITING != 32
#error "DUNNAVISH_TRACKS or DUNNAVISH_MOST_WAITING is another number"
#endif
static void yard_names(void)
{
    expect(DUNNAVISH_YARD_HELD == 0, "the index of the flags is", DUNNAVISH_YARD_HELD);
    expect(DUNNAVISH_YARD_HOLDERS == 16, "the index of the holders is", DUNNAVISH_YARD_HOLDERS);
    expect(DUNNAVISH_YARD_COUNT == 32, "the index of the count is", DUNNAVISH_YARD_COUNT);
    expect(DUNNAVISH_YARD_TRAMS == 33, "the index of the trams that wait is", DUNNAVISH_YARD_TRAMS);
    expect(DUNNAVISH_YARD_TRACKS == 65, "the index of the tracks waited for is", DUNNAVISH_YARD_TRACKS);
    expect(DUNNAVISH_YARD_NUMBERS == 97, "the count of a yard's numbers is", DUNNAVISH_YARD_NUMBERS);
    expect(DUNNAVISH_HOLDS == 0 && DUNNAVISH_WAITS == 1, "the answers to a request, the first is", DUNNAVISH_HOLDS);
    expect(DUNNAVISH_NOT_CLEAR == 0 && DUNNAVISH_FREED == 1 && DUNNAVISH_HANDED_ON == 2, "the answers to a release, the first is",
           DUNNAVISH_NOT_CLEAR);
    expect(DUNNAVISH_NO_SUCH_TRACK == 20 && DUNNAVISH_WRONG_TRAM == 21, "the number of no such track is", DUNNAVISH_NO_SUCH_TRACK);
    expect(DUNNAVISH_WAITING_FULL == 22 && DUNNAVISH_YARD_UNSOUND == 26, "the number of too many that wait is", DUNNAVISH_WAITING_FULL);
}

/* Requests a track of the yard, and expects a status, and where that is 0 an answer. */
static void request(uint16_t *yard, uint16_t tram, uint32_t track, uint32_t status, uint32_t answer)
{
    uint32_t values[DUNNAVISH_NUMBER_VALUES] = {7};

    expect(dunnavish_request(yard, DUNNAVISH_YARD_NUMBERS, tram, track, values, DUNNAVISH_NUMBER_VALUES) == status,
           "another status of a request by tram", tram);
    expect(values[0] == (status == DUNNAVISH_OK ? answer : 7), "another answer to a request by tram", tram);
}

/* The same of a release, from the last position of card B, 15: less 10 it is above the mark 4, and not above 5. */
static void release(uint16_t *yard, const uint8_t card[DUNNAVISH_CARD_BYTES], uint16_t tram, uint32_t mark, uint32_t status,
                    uint32_t answer)
{
    static const uint8_t word[2] = {0xFF, 0x7F};
    uint32_t values[DUNNAVISH_NUMBER_VALUES] = {7};

    expect(dunnavish_release(yard, DUNNAVISH_YARD_NUMBERS, tram, word, sizeof word, mark, card, DUNNAVISH_CARD_BYTES, values,
                             DUNNAVISH_NUMBER_VALUES) == status,
           "another status of a release by tram", tram);
    expect(values[0] == (status == DUNNAVISH_OK ? answer : 7), "another answer to a release by tram", tram);
}

/* A day on track 14, that of card B, from the empty yard, and to it. */
static void yard_day(const uint8_t card[DUNNAVISH_CARD_BYTES])
{
    uint16_t yard[DUNNAVISH_YARD_NUMBERS] = {0};
    size_t i;

    request(yard, 7, 14, DUNNAVISH_OK, DUNNAVISH_HOLDS);
    request(yard, 8, 14, DUNNAVISH_OK, DUNNAVISH_WAITS);
    request(yard, 9, 14, DUNNAVISH_OK, DUNNAVISH_WAITS);
    request(yard, 10, 16, DUNNAVISH_NO_SUCH_TRACK, 0);
    request(yard, 9, 3, DUNNAVISH_WRONG_TRAM, 0);
    expect(yard[DUNNAVISH_YARD_HELD + 14] == 1 && yard[DUNNAVISH_YARD_HOLDERS + 14] == 7, "not held by tram", 7);
    expect(yard[DUNNAVISH_YARD_COUNT] == 2, "another count of trams that wait", yard[DUNNAVISH_YARD_COUNT]);
    expect(yard[DUNNAVISH_YARD_TRAMS] == 8 && yard[DUNNAVISH_YARD_TRACKS] == 14, "not the first that waits, tram", 8);
    expect(yard[DUNNAVISH_YARD_TRAMS + 1] == 9 && yard[DUNNAVISH_YARD_TRACKS + 1] == 14, "not the last that waits, tram", 9);
    release(yard, card, 8, 4, DUNNAVISH_WRONG_TRAM, 0);
    release(yard, card, 7, 5, DUNNAVISH_OK, DUNNAVISH_NOT_CLEAR);
    release(yard, card, 7, 4, DUNNAVISH_OK, DUNNAVISH_HANDED_ON);
    expect(yard[DUNNAVISH_YARD_HOLDERS + 14] == 8, "not handed on to tram", 8);
    release(yard, card, 8, 4, DUNNAVISH_OK, DUNNAVISH_HANDED_ON);
    release(yard, card, 9, 4, DUNNAVISH_OK, DUNNAVISH_FREED);
    for (i = 0; i < DUNNAVISH_YARD_NUMBERS; i++)
        expect(yard[i] == 0, "not empty in the evening, number", i);
    yard[DUNNAVISH_YARD_COUNT] = DUNNAVISH_MOST_WAITING + 1;
    request(yard, 7, 16, DUNNAVISH_YARD_UNSOUND, 0);
    release(yard, card, 7, 4, DUNNAVISH_YARD_UNSOUND, 0);
}

/* The code of order 0 in 2 variables has one row, 15: n 4, k 1, D 4, t 1. 7 is one bit from c(1), and 3 two bits from each. */
static void made_card(void)
{
    uint8_t card[DUNNAVISH_CARD_BYTES];
    uint32_t values[DUNNAVISH_CARD_VALUES], vote[DUNNAVISH_VOTE_VALUES];

    expect(dunnavish_make_card(14, 0, 2, card, sizeof card) == DUNNAVISH_OK, "no card of order", 0);
    expect(dunnavish_check_card(card, sizeof card, values, DUNNAVISH_CARD_VALUES) == DUNNAVISH_OK, "made card refused", 0);
    expect(values[DUNNAVISH_CARD_N] == 4 && values[DUNNAVISH_CARD_K] == 1, "made card's n and k", 4);
    expect(values[DUNNAVISH_CARD_TRACK] == 14, "made card's track", 14);
    expect(values[DUNNAVISH_CARD_DISTANCE] == 4 && values[DUNNAVISH_CARD_RADIUS] == 1, "made card's D and t", 4);
    expect(dunnavish_vote_chunk(0, 2, 0x7, vote, DUNNAVISH_VOTE_VALUES) == DUNNAVISH_OK, "chunk refused", 0x7);
    expect(vote[DUNNAVISH_VOTE_NUMBER] == 1 && vote[DUNNAVISH_VOTE_BITS] == 1, "vote on chunk", 0x7);
    expect(dunnavish_vote_chunk(0, 2, 0x3, vote, DUNNAVISH_VOTE_VALUES) == DUNNAVISH_CHUNK_UNREADABLE, "vote on chunk", 0x3);
    expect(dunnavish_vote_chunk(0, 2, 0x10, vote, DUNNAVISH_VOTE_VALUES) == DUNNAVISH_SPARE_BIT, "vote on chunk", 0x10);
    expect(dunnavish_vote_chunk(3, 2, 0, vote, DUNNAVISH_VOTE_VALUES) == DUNNAVISH_CODE_LIMITS, "vote of order", 3);
    expect(dunnavish_make_card(14, 3, 2, card, sizeof card) == DUNNAVISH_CODE_LIMITS, "card of order", 3);
    expect(dunnavish_make_card(14, 0, 2, card, 511) == DUNNAVISH_VALUE_COUNT, "card of bytes", 511);
}

/*
 * The card of order 0 in 2 variables for track 14 has offset 0, and check 1 * 4 + 2 * 1 + 4 * 14 + 12 * 15 = 242. Offset -1 is
 * four bytes of 255: check 242 + 255 * (101 + 102 + 103 + 104) - 65521 = 39271 = 153 * 256 + 103. With 127 for the first of them
 * it is 2147483647: check 39271 - 128 * 101 = 26343 = 102 * 256 + 231.
 */
static void offsets(void)
{
    uint8_t card[DUNNAVISH_CARD_BYTES];
    int32_t mm[DUNNAVISH_NUMBER_VALUES] = {0};

    expect(dunnavish_make_card(14, 0, 2, card, sizeof card) == DUNNAVISH_OK, "no card of order", 0);
    expect(card[510] == 0 && card[511] == 242, "made card's check", 242);
    expect(dunnavish_millimetres(card, sizeof card, 1, mm, DUNNAVISH_NUMBER_VALUES) == DUNNAVISH_OK, "no distance of", 1);
    expect(mm[0] == 50, "distance of", 1);
    memset(card + 100, 255, 4);
    card[510] = 153;
    card[511] = 103;
    expect(dunnavish_millimetres(card, sizeof card, 0, mm, DUNNAVISH_NUMBER_VALUES) == DUNNAVISH_OK, "no distance of", 0);
    expect(mm[0] == -1, "distance of", 0);
    card[100] = 127;
    card[510] = 102;
    card[511] = 231;
    expect(dunnavish_millimetres(card, sizeof card, 0, mm, DUNNAVISH_NUMBER_VALUES) == DUNNAVISH_CARD_OFFSET, "no refusal", 14);
    expect(mm[0] == -1, "a number changed by refusal", 14);
}

/* An array of no elements may be NULL, in the place of each array of the calls on a yard. Track 14, that of card B, is held by tram 7. */
static void no_yard_at_null(const uint8_t card[DUNNAVISH_CARD_BYTES])
{
    static const uint8_t word[2] = {0, 0};
    uint16_t yard[DUNNAVISH_YARD_NUMBERS] = {0};
    uint32_t numbers[DUNNAVISH_NUMBER_VALUES];
    const size_t bytes = DUNNAVISH_CARD_BYTES;

    yard[DUNNAVISH_YARD_HELD + 14] = 1;
    yard[DUNNAVISH_YARD_HOLDERS + 14] = 7;
    expect(dunnavish_request(NULL, 0, 7, 14, numbers, 1) == DUNNAVISH_VALUE_COUNT, "request of no yard, not", DUNNAVISH_VALUE_COUNT);
    expect(dunnavish_request(yard, 97, 7, 14, NULL, 0) == DUNNAVISH_VALUE_COUNT, "request into none, not", DUNNAVISH_VALUE_COUNT);
    expect(dunnavish_release(NULL, 0, 7, word, 2, 0, card, bytes, numbers, 1) == DUNNAVISH_VALUE_COUNT, "release in no yard, not",
           DUNNAVISH_VALUE_COUNT);
    expect(dunnavish_release(yard, 97, 7, NULL, 0, 0, card, bytes, numbers, 1) == DUNNAVISH_WORD_LENGTH, "release by no word, not",
           DUNNAVISH_WORD_LENGTH);
    expect(dunnavish_release(yard, 97, 7, word, 2, 0, NULL, 0, numbers, 1) == DUNNAVISH_CARD_LENGTH, "release by no card, not",
           DUNNAVISH_CARD_LENGTH);
    expect(dunnavish_release(yard, 97, 7, word, 2, 0, card, bytes, NULL, 0) == DUNNAVISH_VALUE_COUNT, "release into none, not",
           DUNNAVISH_VALUE_COUNT);
}

/*
 * An array of no elements may be NULL, in the place of each array of each other call: it is refused as one of a wrong count, but no trams
 * are served.
 */
static void nothing_at_null(const uint8_t card[DUNNAVISH_CARD_BYTES])
{
    static const float levels[15] = {1, 1, 1, 1, 1, 1, 1, 1, 1, 1, 1, 1, 1, 1, 1};
    static const uint8_t word[2] = {0, 0};
    static const uint32_t low[1] = {0}, high[1] = {15};
    uint8_t lent[2];
    uint32_t numbers[DUNNAVISH_CARD_VALUES];
    int32_t distance[DUNNAVISH_NUMBER_VALUES];
    float floats[DUNNAVISH_STRENGTH_VALUES];
    const size_t bytes = DUNNAVISH_CARD_BYTES;

    expect(dunnavish_check_card(NULL, 0, numbers, 7) == DUNNAVISH_CARD_LENGTH, "no card checked, not", DUNNAVISH_CARD_LENGTH);
    expect(dunnavish_check_card(card, bytes, NULL, 0) == DUNNAVISH_VALUE_COUNT, "check into none, not", DUNNAVISH_VALUE_COUNT);
    expect(dunnavish_write_word(NULL, 0, 0, lent, 2) == DUNNAVISH_CARD_LENGTH, "write by no card, not", DUNNAVISH_CARD_LENGTH);
    expect(dunnavish_write_word(card, bytes, 0, NULL, 0) == DUNNAVISH_WORD_LENGTH, "write into none, not", DUNNAVISH_WORD_LENGTH);
    expect(dunnavish_read_word(NULL, 0, word, 2, numbers, 5) == DUNNAVISH_CARD_LENGTH, "read by no card, not", DUNNAVISH_CARD_LENGTH);
    expect(dunnavish_read_word(card, bytes, NULL, 0, numbers, 5) == DUNNAVISH_WORD_LENGTH, "no word read, not", DUNNAVISH_WORD_LENGTH);
    expect(dunnavish_read_word(card, bytes, word, 2, NULL, 0) == DUNNAVISH_VALUE_COUNT, "read into none, not", DUNNAVISH_VALUE_COUNT);
    expect(dunnavish_read_levels(NULL, 0, levels, 15, numbers, 5, floats, 2) == DUNNAVISH_CARD_LENGTH, "levels by no card, not",
           DUNNAVISH_CARD_LENGTH);
    expect(dunnavish_read_levels(card, bytes, NULL, 0, numbers, 5, floats, 2) == DUNNAVISH_LEVEL_COUNT, "no levels read, not",
           DUNNAVISH_LEVEL_COUNT);
    expect(dunnavish_read_levels(card, bytes, levels, 15, NULL, 0, floats, 2) == DUNNAVISH_VALUE_COUNT, "levels into none, not",
           DUNNAVISH_VALUE_COUNT);
    expect(dunnavish_read_levels(card, bytes, levels, 15, numbers, 5, NULL, 0) == DUNNAVISH_VALUE_COUNT, "strength into none, not",
           DUNNAVISH_VALUE_COUNT);
    expect(dunnavish_block_start(NULL, 0, 0, numbers, 1) == DUNNAVISH_CARD_LENGTH, "start by no card, not", DUNNAVISH_CARD_LENGTH);
    expect(dunnavish_block_start(card, bytes, 0, NULL, 0) == DUNNAVISH_VALUE_COUNT, "start into none, not", DUNNAVISH_VALUE_COUNT);
    expect(dunnavish_millimetres(NULL, 0, 0, distance, 1) == DUNNAVISH_CARD_LENGTH, "distance by no card, not", DUNNAVISH_CARD_LENGTH);
    expect(dunnavish_millimetres(card, bytes, 0, NULL, 0) == DUNNAVISH_VALUE_COUNT, "distance into none, not", DUNNAVISH_VALUE_COUNT);
    expect(dunnavish_trams_crossing(card, bytes, NULL, 0, NULL, 0, 15, NULL, 0) == DUNNAVISH_OK, "no trams crossing, not", DUNNAVISH_OK);
    expect(dunnavish_trams_crossing(NULL, 0, NULL, 0, NULL, 0, 15, NULL, 0) == DUNNAVISH_CARD_LENGTH, "crossing by no card, not",
           DUNNAVISH_CARD_LENGTH);
    expect(dunnavish_trams_crossing(card, bytes, NULL, 0, high, 1, 15, lent, 1) == DUNNAVISH_VALUE_COUNT, "crossing by no lows, not",
           DUNNAVISH_VALUE_COUNT);
    expect(dunnavish_trams_crossing(card, bytes, low, 1, NULL, 0, 15, lent, 1) == DUNNAVISH_VALUE_COUNT, "crossing by no highs, not",
           DUNNAVISH_VALUE_COUNT);
    expect(dunnavish_trams_crossing(card, bytes, low, 1, high, 1, 15, NULL, 0) == DUNNAVISH_VALUE_COUNT, "crossing into none, not",
           DUNNAVISH_VALUE_COUNT);
    expect(dunnavish_trams_within(card, bytes, NULL, 0, NULL, 0, 0, 15, NULL, 0) == DUNNAVISH_OK, "no trams within, not", DUNNAVISH_OK);
    expect(dunnavish_trams_within(NULL, 0, NULL, 0, NULL, 0, 0, 15, NULL, 0) == DUNNAVISH_CARD_LENGTH, "within by no card, not",
           DUNNAVISH_CARD_LENGTH);
    expect(dunnavish_trams_within(card, bytes, NULL, 0, high, 1, 0, 15, lent, 1) == DUNNAVISH_VALUE_COUNT, "within by no lows, not",
           DUNNAVISH_VALUE_COUNT);
    expect(dunnavish_trams_within(card, bytes, low, 1, NULL, 0, 0, 15, lent, 1) == DUNNAVISH_VALUE_COUNT, "within by no highs, not",
           DUNNAVISH_VALUE_COUNT);
    expect(dunnavish_trams_within(card, bytes, low, 1, high, 1, 0, 15, NULL, 0) == DUNNAVISH_VALUE_COUNT, "within into none, not",
           DUNNAVISH_VALUE_COUNT);
    numbers[0] = 0;
    expect(dunnavish_nearest_tram(card, bytes, NULL, 0, NULL, 0, 15, numbers, 1) == DUNNAVISH_OK, "no tram nearest, not", DUNNAVISH_OK);
    expect(numbers[0] == DUNNAVISH_NO_TRAM, "of no trams the nearest is", numbers[0]);
    expect(dunnavish_nearest_tram(NULL, 0, NULL, 0, NULL, 0, 15, numbers, 1) == DUNNAVISH_CARD_LENGTH, "nearest by no card, not",
           DUNNAVISH_CARD_LENGTH);
    expect(dunnavish_nearest_tram(card, bytes, NULL, 0, high, 1, 15, numbers, 1) == DUNNAVISH_VALUE_COUNT, "nearest by no lows, not",
           DUNNAVISH_VALUE_COUNT);
    expect(dunnavish_nearest_tram(card, bytes, low, 1, NULL, 0, 15, numbers, 1) == DUNNAVISH_VALUE_COUNT, "nearest by no highs, not",
           DUNNAVISH_VALUE_COUNT);
    expect(dunnavish_nearest_tram(card, bytes, low, 1, high, 1, 15, NULL, 0) == DUNNAVISH_VALUE_COUNT, "nearest into none, not",
           DUNNAVISH_VALUE_COUNT);
    expect(dunnavish_make_card(14, 0, 2, NULL, 0) == DUNNAVISH_VALUE_COUNT, "card into none, not", DUNNAVISH_VALUE_COUNT);
    expect(dunnavish_vote_chunk(0, 2, 0x7, NULL, 0) == DUNNAVISH_VALUE_COUNT, "vote into none, not", DUNNAVISH_VALUE_COUNT);
}

int main(int argc, char **argv)
{
    char version[32];
    uint8_t card_b[DUNNAVISH_CARD_BYTES];

    snprintf(version, sizeof version, "%d.%d.%d", DUNNAVISH_VERSION_MAJOR, DUNNAVISH_VERSION_MINOR, DUNNAVISH_VERSION_PATCH);
    expect(strcmp(version, DUNNAVISH_VERSION) == 0, "the version's string is not its numbers", 0);
    status_texts();
    yard_status_texts();
    read_indices();
    if (!read_card(argc > 1 ? argv[1] : "examples/cardB", card_b))
        return 1;
    bytes_of_words(card_b);
    read_values(card_b);
    contradicted(card_b);
    divided_arbitrarily(card_b);
    levels_read(card_b);
    levels_statuses(card_b);
    trams(card_b);
    yard_names();
    yard_day(card_b);
    made_card();
    offsets();
    no_yard_at_null(card_b);
    nothing_at_null(card_b);
    return failed;
}
