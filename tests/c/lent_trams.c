/*
 * Lends the three calls on trams lows, highs and answers of many counts, unlike ones too, and dunnavish_nearest_tram numbers of every
 * count from 0 to 3. Unlike counts, or not one number, are answered 100 before anything else is looked at. Where a call is served, the
 * answers are as many as the trams; otherwise nothing is written, and never past the answers or into the trams.
 */
#include <stdio.h>
#include <string.h>

#include "dunnavish.h"

#define LENT 128
#define MARKED_BYTE 0xA5
#define MOST_NUMBERS 4
#define COUNT_OF(list) (sizeof(list) / sizeof *(list))

enum { CROSSING, WITHIN };
/* What is wrong with what is lent: nothing; in the last tram low above high; the first tram past the last position; a mark. */
enum { SOUND, LOW_ABOVE_HIGH, PAST_THE_LAST, MARK, FAULTS };

/* The counts that are lent: no tram, some, the most that a track holds, and more. */
static const size_t counts[] = {0, 1, 2, 6, 63, 64, 65, 66, LENT};

/* Card B: n 3, k 1, track 14, row 7, check 3 + 2 * 1 + 4 * 14 + 12 * 7 = 145. t 1, and the last position is 15. */
static uint8_t card[DUNNAVISH_CARD_BYTES];
static uint32_t lows[LENT], highs[LENT];
static int failed = 0;

/* Card B with its check or another, `card_bytes` of it lent, and by which number the card itself is refused, if not 0. */
static const struct lent_card {
    size_t card_bytes;
    uint8_t check;
    uint32_t refusal;
} lent_cards[] = {{512, 145, 0}, {511, 145, 1}, {0, 145, 1}, {512, 146, 2}};

/*
 * Tram i stands from 15, 14, 13 and so on, down to 0 and then again from 15, up to the last position, 15. Widened by 10 and cut it is
 * from 5, 4, 3, 2, 1 and then 11 times 0, and to 15. So it crosses 0 from place 5 of each 16 on, and before that it is within 1 and 15.
 */
static void put_trams(size_t count, int fault)
{
    uint32_t i;

    for (i = 0; i < LENT; i++) {
        lows[i] = 15 - i % 16;
        highs[i] = 15;
    }
    if (fault == LOW_ABOVE_HIGH && count > 0) {
        lows[count - 1] = 6;
        highs[count - 1] = 5;
    }
    if (fault == PAST_THE_LAST)
        highs[0] = 16;
}

static uint8_t told(int which, size_t place)
{
    int crosses = place % 16 >= 5;

    return (uint8_t)(which == CROSSING ? crosses : !crosses);
}

/* What is answered of so many trams where all counts are the call's. */
static uint32_t status_of(const struct lent_card *of, int fault, size_t count)
{
    if (of->refusal != 0)
        return of->refusal;
    if (count > DUNNAVISH_MOST_TRAMS)
        return DUNNAVISH_TRAM_COUNT;
    return fault == MARK || (fault != SOUND && count > 0) ? DUNNAVISH_STRETCH_LIMITS : DUNNAVISH_OK;
}

/* Whether the trams are as they were put. */
static int trams_stay(size_t count, int fault)
{
    static uint32_t lows_left[LENT], highs_left[LENT];

    memcpy(lows_left, lows, sizeof lows);
    memcpy(highs_left, highs, sizeof highs);
    put_trams(count, fault);
    return memcmp(lows_left, lows, sizeof lows) == 0 && memcmp(highs_left, highs, sizeof highs) == 0;
}

/* One call that tells of each tram, into marked answers: with the marks 0, or 1 and 15, or with one past the last position. */
static void tell(const struct lent_card *of, int which, int fault, size_t lows_count, size_t highs_count, size_t yes_count)
{
    int alike = lows_count == highs_count && highs_count == yes_count;
    uint32_t expected = alike ? status_of(of, fault, lows_count) : DUNNAVISH_VALUE_COUNT, status;
    uint8_t yes[LENT + 1], left[LENT + 1];
    size_t i;

    put_trams(lows_count, fault);
    memset(yes, MARKED_BYTE, sizeof yes);
    memset(left, MARKED_BYTE, sizeof left);
    for (i = 0; expected == DUNNAVISH_OK && i < yes_count; i++)
        left[i] = told(which, i);
    if (which == CROSSING)
        status = dunnavish_trams_crossing(card, of->card_bytes, lows, lows_count, highs, highs_count, fault == MARK ? 16 : 0, yes,
                                          yes_count);
    else
        status = dunnavish_trams_within(card, of->card_bytes, lows, lows_count, highs, highs_count, 1, fault == MARK ? 0 : 15, yes,
                                        yes_count);
    if (status != expected || memcmp(yes, left, sizeof yes) != 0 || !trams_stay(lows_count, fault)) {
        printf("lent_trams: call %d, fault %d, %zu lows, %zu highs, %zu answers: status %u, expected %u\n", which, fault, lows_count,
               highs_count, yes_count, (unsigned)status, (unsigned)expected);
        failed = 1;
    }
}

/* The nearest tram to 0, in marked numbers, of which so many are lent: the sixth, or the last where there are fewer. */
static void find_nearest(const struct lent_card *of, int fault, size_t lows_count, size_t highs_count, size_t values_count)
{
    int own = lows_count == highs_count && values_count == DUNNAVISH_NUMBER_VALUES;
    uint32_t expected = own ? status_of(of, fault, lows_count) : DUNNAVISH_VALUE_COUNT, status;
    uint32_t values[MOST_NUMBERS], left[MOST_NUMBERS];

    put_trams(lows_count, fault);
    memset(values, MARKED_BYTE, sizeof values);
    memset(left, MARKED_BYTE, sizeof left);
    if (expected == DUNNAVISH_OK)
        left[0] = lows_count == 0 ? DUNNAVISH_NO_TRAM : lows_count < 6 ? (uint32_t)lows_count - 1 : 5;
    status = dunnavish_nearest_tram(card, of->card_bytes, lows, lows_count, highs, highs_count, fault == MARK ? UINT32_MAX : 0, values,
                                    values_count);
    if (status != expected || memcmp(values, left, sizeof values) != 0 || !trams_stay(lows_count, fault)) {
        printf("lent_trams: nearest, fault %d, %zu lows, %zu highs, %zu numbers: status %u, expected %u\n", fault, lows_count,
               highs_count, values_count, (unsigned)status, (unsigned)expected);
        failed = 1;
    }
}

/* Every call with these counts of lows and highs. */
static void lend(const struct lent_card *of, int fault, size_t lows_count, size_t highs_count)
{
    size_t i;

    for (i = 0; i < COUNT_OF(counts); i++) {
        tell(of, CROSSING, fault, lows_count, highs_count, counts[i]);
        tell(of, WITHIN, fault, lows_count, highs_count, counts[i]);
    }
    for (i = 0; i < MOST_NUMBERS; i++)
        find_nearest(of, fault, lows_count, highs_count, i);
}

int main(void)
{
    size_t i, j, k;
    int fault;

    card[0] = 3;
    card[1] = 1;
    card[3] = 14;
    card[11] = 7;
    for (i = 0; i < COUNT_OF(lent_cards); i++) {
        card[511] = lent_cards[i].check;
        for (fault = SOUND; fault < FAULTS; fault++)
            for (j = 0; j < COUNT_OF(counts); j++)
                for (k = 0; k < COUNT_OF(counts); k++)
                    lend(&lent_cards[i], fault, counts[j], counts[k]);
    }
    return failed;
}
