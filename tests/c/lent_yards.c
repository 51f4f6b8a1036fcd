/*
 * Lends the two calls on a yard yards and values of many counts. Not 97 numbers of a yard, or not one value, are answered 100 before
 * anything else is looked at. Where a call is served, the yard is what it should be, and the value; where it is refused, or a release is
 * not clear, every number of the yard stays, flags other than 0 and 1 too. Nothing is ever written around the yard or past the value, nor
 * into the card and the word.
 */
#include <stdio.h>
#include <string.h>

#include "dunnavish.h"

#define GUARD 8
#define GUARDED (GUARD + DUNNAVISH_YARD_NUMBERS + GUARD)
#define MARKED_NUMBER 0xA5A5u
#define MOST_VALUES 4
#define MARK 0xA5A5A5A5u
#define COUNT_OF(list) (sizeof(list) / sizeof *(list))

/* The counts of numbers that are lent; all are there. */
static const size_t counts[] = {0, 1, 16, 32, 96, 97, 98, GUARD + DUNNAVISH_YARD_NUMBERS};

/* Card B: n 3, k 1, track 14, row 7, check 3 + 2 * 1 + 4 * 14 + 12 * 7 = 145. t 1, and the last position is 15. */
static uint8_t card[DUNNAVISH_CARD_BYTES];
/* The yard that is lent, between guards, and what all of it should be afterwards. */
static uint16_t lent[GUARDED], left[GUARDED];
static int failed = 0;

/* Who stands in a yard: track 14 with its flag and holder, and how many wait. Track 3 is held by tram 5, with flag 256. */
struct stand {
    uint16_t flag, holder, count;
};

/*
 * A call, in a yard: a request for `number`, or a release by the mark `number` and the word of position 15, of which `bytes` are lent. Then
 * the status and the value where all counts are the call's, and who stands in the yard then, unless it stays.
 */
struct trial {
    int release;
    struct stand before;
    uint16_t tram;
    uint32_t number;
    size_t bytes;
    uint32_t status, value;
    int stays;
    struct stand after;
};

/*
 * The tram in place p waits for track 14, and its number is 100 + p; where a tram is taken out, all move up by one. 15, less 10, is above the
 * mark 4 and not above 5.
 */
static const struct trial trials[] = {
    {0, {0, 9, 0}, 7, 14, 0, DUNNAVISH_OK, DUNNAVISH_HOLDS, 0, {1, 7, 0}},
    {0, {2, 9, 0}, 7, 14, 0, DUNNAVISH_OK, DUNNAVISH_WAITS, 0, {1, 9, 1}},
    {0, {1, 9, 31}, 7, 14, 0, DUNNAVISH_OK, DUNNAVISH_WAITS, 0, {1, 9, 32}},
    {0, {2, 9, 32}, 7, 14, 0, DUNNAVISH_WAITING_FULL, 0, 1, {0, 0, 0}},
    {0, {2, 9, 33}, 7, 14, 0, DUNNAVISH_YARD_UNSOUND, 0, 1, {0, 0, 0}},
    {0, {0, 9, 1}, 7, 14, 0, DUNNAVISH_YARD_UNSOUND, 0, 1, {0, 0, 0}},
    {0, {2, 9, 3}, 7, 16, 0, DUNNAVISH_NO_SUCH_TRACK, 0, 1, {0, 0, 0}},
    {0, {2, 9, 3}, 9, 0, 0, DUNNAVISH_WRONG_TRAM, 0, 1, {0, 0, 0}},
    {0, {2, 9, 3}, 102, 0, 0, DUNNAVISH_WRONG_TRAM, 0, 1, {0, 0, 0}},
    {1, {2, 9, 0}, 9, 4, 2, DUNNAVISH_OK, DUNNAVISH_FREED, 0, {0, 0, 0}},
    {1, {65535, 9, 1}, 9, 4, 2, DUNNAVISH_OK, DUNNAVISH_HANDED_ON, 0, {1, 100, 0}},
    {1, {1, 9, 32}, 9, 4, 2, DUNNAVISH_OK, DUNNAVISH_HANDED_ON, 0, {1, 100, 31}},
    {1, {2, 9, 3}, 9, 5, 2, DUNNAVISH_OK, DUNNAVISH_NOT_CLEAR, 1, {0, 0, 0}},
    {1, {2, 9, 3}, 9, UINT32_MAX, 2, DUNNAVISH_OK, DUNNAVISH_NOT_CLEAR, 1, {0, 0, 0}},
    {1, {2, 9, 3}, 9, 4, 1, DUNNAVISH_WORD_LENGTH, 0, 1, {0, 0, 0}},
    {1, {2, 9, 3}, 9, 4, 0, DUNNAVISH_WORD_LENGTH, 0, 1, {0, 0, 0}},
    {1, {2, 9, 3}, 100, 4, 2, DUNNAVISH_WRONG_TRAM, 0, 1, {0, 0, 0}},
    {1, {0, 9, 0}, 9, 4, 2, DUNNAVISH_WRONG_TRAM, 0, 1, {0, 0, 0}},
    {1, {2, 100, 3}, 100, 4, 2, DUNNAVISH_YARD_UNSOUND, 0, 1, {0, 0, 0}},
    {1, {2, 9, 33}, 9, 4, 2, DUNNAVISH_YARD_UNSOUND, 0, 1, {0, 0, 0}},
};

/*
 * Puts a yard between guards. The places past the count hold the same trams as if they waited, and a free track, 0, has a holder's number.
 * Of a yard that a release has left, where one has moved up, the last place is empty, and the trams are those of the places behind.
 */
static void put_yard(uint16_t *guarded, const struct stand *stand, uint16_t other_flag, int moved)
{
    uint16_t *yard = guarded + GUARD;
    uint16_t p;

    for (p = 0; p < GUARDED; p++)
        guarded[p] = MARKED_NUMBER;
    memset(yard, 0, DUNNAVISH_YARD_NUMBERS * sizeof *yard);
    yard[DUNNAVISH_YARD_HOLDERS] = 9;
    yard[DUNNAVISH_YARD_HELD + 3] = other_flag;
    yard[DUNNAVISH_YARD_HOLDERS + 3] = 5;
    yard[DUNNAVISH_YARD_HELD + 14] = stand->flag;
    yard[DUNNAVISH_YARD_HOLDERS + 14] = stand->holder;
    yard[DUNNAVISH_YARD_COUNT] = stand->count;
    for (p = 0; p + moved < DUNNAVISH_MOST_WAITING; p++) {
        yard[DUNNAVISH_YARD_TRAMS + p] = (uint16_t)(100 + p + moved);
        yard[DUNNAVISH_YARD_TRACKS + p] = 14;
    }
}

/* Puts what a trial that is served leaves: the flags are 1, and a tram that joins stands where the count was. */
static void put_left(const struct trial *trial)
{
    put_yard(left, &trial->after, 1, trial->release && trial->value == DUNNAVISH_HANDED_ON);
    if (!trial->release && trial->value == DUNNAVISH_WAITS)
        left[GUARD + DUNNAVISH_YARD_TRAMS + trial->before.count] = trial->tram;
}

static uint32_t call(const struct trial *trial, size_t card_bytes, size_t count, uint32_t *values, size_t values_count)
{
    static const uint8_t word[2] = {0xFF, 0x7F};
    uint16_t *yard = lent + GUARD;

    if (trial->release)
        return dunnavish_release(yard, count, trial->tram, word, trial->bytes, trial->number, card, card_bytes, values, values_count);
    return dunnavish_request(yard, count, trial->tram, trial->number, values, values_count);
}

/* One call on so many numbers of the yard and so many marked values, and of the card, if it takes one, so many bytes. */
static void lend(size_t which, size_t card_bytes, size_t count, size_t values_count)
{
    const struct trial *trial = &trials[which];
    int own = count == DUNNAVISH_YARD_NUMBERS && values_count == DUNNAVISH_NUMBER_VALUES;
    int card_refused = trial->release && card_bytes != DUNNAVISH_CARD_BYTES;
    uint32_t expected = !own ? DUNNAVISH_VALUE_COUNT : card_refused ? DUNNAVISH_CARD_LENGTH : trial->status, status;
    uint32_t values[MOST_VALUES] = {MARK, MARK, MARK, MARK}, values_left[MOST_VALUES] = {MARK, MARK, MARK, MARK};

    put_yard(lent, &trial->before, 256, 0);
    memcpy(left, lent, sizeof left);
    if (expected == DUNNAVISH_OK) {
        values_left[0] = trial->value;
        if (!trial->stays)
            put_left(trial);
    }
    status = call(trial, card_bytes, count, values, values_count);
    if (status != expected || memcmp(values, values_left, sizeof values) != 0 || memcmp(lent, left, sizeof lent) != 0) {
        printf("lent_yards: trial %zu, %zu numbers, %zu values, %zu bytes of a card: status %u, expected %u\n", which, count, values_count,
               card_bytes, (unsigned)status, (unsigned)expected);
        failed = 1;
    }
}

/* A yard of no numbers, and no values, at NULL: 100, even where the card and the word are there too. */
static void nothing_at_null(void)
{
    uint32_t value = MARK;

    put_yard(lent, &trials[0].before, 256, 0);
    memcpy(left, lent, sizeof left);
    if (dunnavish_request(NULL, 0, 7, 14, &value, 1) != DUNNAVISH_VALUE_COUNT ||
        dunnavish_request(lent + GUARD, DUNNAVISH_YARD_NUMBERS, 7, 14, NULL, 0) != DUNNAVISH_VALUE_COUNT ||
        dunnavish_request(NULL, 0, 7, 14, NULL, 0) != DUNNAVISH_VALUE_COUNT ||
        dunnavish_release(NULL, 0, 9, NULL, 0, 4, card, sizeof card, &value, 1) != DUNNAVISH_VALUE_COUNT ||
        dunnavish_release(lent + GUARD, DUNNAVISH_YARD_NUMBERS, 9, NULL, 0, 4, card, sizeof card, NULL, 0) != DUNNAVISH_VALUE_COUNT ||
        dunnavish_release(NULL, 0, 9, NULL, 0, 4, NULL, 0, NULL, 0) != DUNNAVISH_VALUE_COUNT ||
        dunnavish_release(lent + GUARD, DUNNAVISH_YARD_NUMBERS, 9, NULL, 0, 4, NULL, 0, &value, 1) != DUNNAVISH_CARD_LENGTH) {
        printf("lent_yards: NULL with the count 0 is not answered as another wrong count\n");
        failed = 1;
    }
    if (value != MARK || memcmp(lent, left, sizeof lent) != 0) {
        printf("lent_yards: something changed where nothing was served\n");
        failed = 1;
    }
}

int main(void)
{
    static uint8_t card_left[DUNNAVISH_CARD_BYTES];
    size_t i, j, k;

    card[0] = 3;
    card[1] = 1;
    card[3] = 14;
    card[11] = 7;
    card[511] = 145;
    memcpy(card_left, card, sizeof card);
    for (i = 0; i < COUNT_OF(trials); i++)
        for (j = 0; j < COUNT_OF(counts); j++)
            for (k = 0; k < MOST_VALUES; k++) {
                lend(i, DUNNAVISH_CARD_BYTES, counts[j], k);
                lend(i, DUNNAVISH_CARD_BYTES - 1, counts[j], k);
                lend(i, 0, counts[j], k);
            }
    nothing_at_null();
    if (memcmp(card_left, card, sizeof card) != 0) {
        printf("lent_yards: the card changed\n");
        failed = 1;
    }
    return failed;
}
