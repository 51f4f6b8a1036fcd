/*
 * Measures the stack that a call takes, and fails if it is not below what include/dunnavish.h promises. Each call runs on a
 * thread whose stack is painted first; a thread that calls nothing is subtracted. Cards of every length n, and of the fewest and
 * the most rows, with offsets, and positions over the whole track, their words as they are and with damaged code chunks, in bits
 * and in levels; no trams, and 64; a yard with one track held and none waiting, and one with all held and 32 waiting, or 31 and a
 * request; every Reed-Muller code that has a card. Linked with -Wl,-z,now, so that memcpy and memset are bound before the calls.
 */
#include <pthread.h>
#include <stdio.h>
#include <stdlib.h>
#include <string.h>

#include "dunnavish.h"

/* What the header promises of every call but a release, which reads a word while it has a yard, and of that. */
#define PROMISED 2048
#define PROMISED_OF_RELEASE 3072
#define STACK_BYTES ((size_t)1 << 18)
#define PAINT 0xA5

/* The calls on a card, and from MAKE on those that are given none. */
enum { NOTHING, CHECK, WRITE, READ, LEVELS, START, MILLIMETRES, CROSSING, WITHIN, NEAREST, RELEASE, MAKE, VOTE, REQUEST, CALLS };
static const char *const names[CALLS] = {"nothing",      "check_card",  "write_word",     "read_word",    "read_levels",
                                         "block_start",  "millimetres", "trams_crossing", "trams_within", "nearest_tram",
                                         "release",      "make_card",   "vote_chunk",     "request"};

/* The greatest order of a Reed-Muller code with at most 12 rows, by the number of variables, 1 to 6. */
static const uint32_t greatest_order[7] = {0, 1, 2, 3, 2, 1, 1};

static uint8_t card[DUNNAVISH_CARD_BYTES];
static uint8_t word[DUNNAVISH_WIDEST_WORD_BYTES];
static size_t word_bytes, word_bits;
static float levels[8 * DUNNAVISH_WIDEST_WORD_BYTES], strength[DUNNAVISH_STRENGTH_VALUES];
static uint32_t values[DUNNAVISH_CARD_VALUES];
static int32_t distance[DUNNAVISH_NUMBER_VALUES];
static uint32_t lows[DUNNAVISH_MOST_TRAMS], highs[DUNNAVISH_MOST_TRAMS];
static uint8_t yes[DUNNAVISH_MOST_TRAMS];
static size_t trams;
static uint16_t yard[DUNNAVISH_YARD_NUMBERS];
static uint32_t position, r, m, status;
static uint64_t chunk;
static unsigned char *stack;
static uint64_t random_state = 88172645463325252u;

static uint64_t next_random(void)
{
    random_state ^= random_state << 13;
    random_state ^= random_state >> 7;
    random_state ^= random_state << 17;
    return random_state;
}

/* One call on the yard: tram 100 releases the card's track, or tram 7 requests one. */
static uint32_t call_on_yard(int which)
{
    if (which == REQUEST)
        return dunnavish_request(yard, DUNNAVISH_YARD_NUMBERS, 7, position, values, DUNNAVISH_NUMBER_VALUES);
    return dunnavish_release(yard, DUNNAVISH_YARD_NUMBERS, 100, word, word_bytes, 0, card, sizeof card, values, DUNNAVISH_NUMBER_VALUES);
}

/* What a thread does: one call, or nothing. */
static void *called(void *which)
{
    switch (*(int *)which) {
    case CHECK:
        status = dunnavish_check_card(card, sizeof card, values, DUNNAVISH_CARD_VALUES);
        break;
    case WRITE:
        status = dunnavish_write_word(card, sizeof card, position, word, word_bytes);
        break;
    case READ:
        status = dunnavish_read_word(card, sizeof card, word, word_bytes, values, DUNNAVISH_READ_VALUES);
        break;
    case LEVELS:
        status = dunnavish_read_levels(card, sizeof card, levels, word_bits, values, DUNNAVISH_READ_VALUES, strength,
                                       DUNNAVISH_STRENGTH_VALUES);
        break;
    case START:
        status = dunnavish_block_start(card, sizeof card, 1, values, DUNNAVISH_NUMBER_VALUES);
        break;
    case MILLIMETRES:
        status = dunnavish_millimetres(card, sizeof card, position, distance, DUNNAVISH_NUMBER_VALUES);
        break;
    case CROSSING:
        status = dunnavish_trams_crossing(card, sizeof card, lows, trams, highs, trams, position, yes, trams);
        break;
    case WITHIN:
        status = dunnavish_trams_within(card, sizeof card, lows, trams, highs, trams, 0, position, yes, trams);
        break;
    case NEAREST:
        status = dunnavish_nearest_tram(card, sizeof card, lows, trams, highs, trams, position, values, DUNNAVISH_NUMBER_VALUES);
        break;
    case RELEASE:
    case REQUEST:
        status = call_on_yard(*(int *)which);
        break;
    case MAKE:
        status = dunnavish_make_card(14, r, m, card, sizeof card);
        break;
    case VOTE:
        status = dunnavish_vote_chunk(r, m, chunk, values, DUNNAVISH_VOTE_VALUES);
        break;
    default:
        status = 0;
    }
    return NULL;
}

/* The bytes of its stack that a thread with this call has written to. */
static size_t stack_of(int which)
{
    pthread_attr_t attributes;
    pthread_t thread;
    size_t untouched = 0;

    memset(stack, PAINT, STACK_BYTES);
    if (pthread_attr_init(&attributes) || pthread_attr_setstack(&attributes, stack, STACK_BYTES) ||
        pthread_create(&thread, &attributes, called, &which) || pthread_join(thread, NULL)) {
        fprintf(stderr, "stack_use: no thread\n");
        exit(2);
    }
    if (status != DUNNAVISH_OK) {
        fprintf(stderr, "stack_use: %s refused %u\n", names[which], (unsigned)status);
        exit(1);
    }
    while (untouched < STACK_BYTES && stack[untouched] == PAINT)
        untouched++;
    return STACK_BYTES - untouched;
}

/* The most stack of each call so far. */
static size_t most[CALLS];

static void measure(int which)
{
    size_t used = stack_of(which);

    if (used > most[which])
        most[which] = used;
}

/* A card of independent rows: row z has bit z set, and of the bits below k no other. The offset is any within its range. */
static void make_card(int n, int k)
{
    uint32_t offset = (uint32_t)(next_random() % 40001) - 20000;
    unsigned sum = 0;
    int z, i;

    memset(card, 0, sizeof card);
    card[0] = (uint8_t)n;
    card[1] = (uint8_t)k;
    for (z = 0; z < k; z++) {
        uint64_t row = next_random();
        if (n < 64)
            row &= ((uint64_t)1 << n) - 1;
        row = (row >> k << k) | (uint64_t)1 << z;
        for (i = 0; i < 8; i++)
            card[4 + 8 * z + i] = (uint8_t)(row >> (56 - 8 * i));
    }
    for (i = 0; i < 4; i++)
        card[100 + i] = (uint8_t)(offset >> (24 - 8 * i));
    for (i = 0; i < 510; i++)
        sum = (sum + (unsigned)(i + 1) * card[i]) % 65521;
    card[510] = (uint8_t)(sum / 256);
    card[511] = (uint8_t)(sum % 256);
}

/* Damages the first t places of both code chunks of the word, whose card's values are at hand. It is read all the same. */
static void damage_chunks(void)
{
    uint32_t n = values[DUNNAVISH_CARD_N], width = values[DUNNAVISH_CARD_DISTANCE], p;

    for (p = width; p < width + values[DUNNAVISH_CARD_RADIUS]; p++) {
        uint32_t other = p + width + n;

        word[p / 8] = (uint8_t)(word[p / 8] ^ (1u << (p % 8)));
        word[other / 8] = (uint8_t)(word[other / 8] ^ (1u << (other % 8)));
    }
}

/* The word as levels: 1 and -1, but 0 for the first t places of both code chunks if these are erased. It is read all the same. */
static void make_levels(int erased)
{
    uint32_t n = values[DUNNAVISH_CARD_N], width = values[DUNNAVISH_CARD_DISTANCE], p;

    for (p = 0; p < word_bits; p++)
        levels[p] = word[p / 8] >> (p % 8) & 1 ? -1.0f : 1.0f;
    for (p = width; erased && p < width + values[DUNNAVISH_CARD_RADIUS]; p++)
        levels[p] = levels[p + width + n] = 0.0f;
}

/* Trams on a track: none, or as many as it holds. */
static void make_trams(int some, uint32_t last)
{
    uint32_t i;

    trams = some ? DUNNAVISH_MOST_TRAMS : 0;
    for (i = 0; i < trams; i++) {
        lows[i] = (uint32_t)(next_random() % (last + 1));
        highs[i] = lows[i] + (uint32_t)(next_random() % (last - lows[i] + 1));
    }
}

/* A yard: so many tracks held, track 0 by tram 100 and so on, and so many trams waiting for them in turn, tram 200 first. */
static void make_yard(uint16_t tracks, uint16_t waiting)
{
    uint16_t i;

    memset(yard, 0, sizeof yard);
    for (i = 0; i < tracks; i++) {
        yard[DUNNAVISH_YARD_HELD + i] = 1;
        yard[DUNNAVISH_YARD_HOLDERS + i] = (uint16_t)(100 + i);
    }
    yard[DUNNAVISH_YARD_COUNT] = waiting;
    for (i = 0; i < waiting; i++) {
        yard[DUNNAVISH_YARD_TRAMS + i] = (uint16_t)(200 + i);
        yard[DUNNAVISH_YARD_TRACKS + i] = (uint16_t)(i % tracks);
    }
}

/*
 * One call on the card that was made, for track 0, at a position that the round chooses. In every second round words are damaged, trams
 * there, and the yard full.
 */
static void call_on_card(int which, int round)
{
    uint32_t last;

    position = 0;
    stack_of(CHECK);
    last = values[DUNNAVISH_CARD_LAST];
    word_bits = values[DUNNAVISH_CARD_BITS];
    word_bytes = dunnavish_word_bytes(values[DUNNAVISH_CARD_BITS]);
    position = round == 0 ? 0 : round == 1 ? last : (uint32_t)(next_random() % (last + 1));
    if (which == READ || which == LEVELS || which == RELEASE)
        stack_of(WRITE);
    if ((which == READ || which == RELEASE) && round % 2 == 1)
        damage_chunks();
    if (which == LEVELS)
        make_levels(round % 2 == 1);
    make_trams(round % 2 == 1, last);
    make_yard(round % 2 == 1 ? DUNNAVISH_TRACKS : 1, round % 2 == 1 ? DUNNAVISH_MOST_WAITING : 0);
    measure(which);
}

static void calls_on_cards(void)
{
    int n, k, which, round;

    for (n = 1; n <= 64; n++)
        for (k = 1; k <= 12 && k <= n; k += 11) {
            make_card(n, k);
            for (which = CHECK; which < MAKE; which++)
                for (round = 0; round < 4; round++)
                    call_on_card(which, round);
        }
}

/* Votes are on codeword 0, undamaged and with the first t places damaged. */
static void calls_on_codes(void)
{
    for (m = 1; m <= 6; m++)
        for (r = 0; r <= greatest_order[m]; r++) {
            uint32_t radius = (((uint32_t)1 << (m - r)) - 1) / 2;

            measure(MAKE);
            chunk = 0;
            measure(VOTE);
            chunk = ((uint64_t)1 << radius) - 1;
            measure(VOTE);
        }
}

/* Requests for each track, in a yard with one held and in one with all held and 31 waiting. */
static void calls_on_yards(void)
{
    for (position = 0; position < DUNNAVISH_TRACKS; position++) {
        make_yard(1, 0);
        measure(REQUEST);
        make_yard(DUNNAVISH_TRACKS, DUNNAVISH_MOST_WAITING - 1);
        measure(REQUEST);
    }
}

int main(void)
{
    int which, failed = 0;

    stack = aligned_alloc(4096, STACK_BYTES);
    if (stack == NULL)
        return 2;
    measure(NOTHING);
    calls_on_cards();
    calls_on_codes();
    calls_on_yards();
    for (which = CHECK; which < CALLS; which++) {
        size_t used = most[which] - most[NOTHING];

        printf("%s %zu bytes of stack\n", names[which], used);
        failed |= used >= (which == RELEASE ? PROMISED_OF_RELEASE : PROMISED);
    }
    free(stack);
    return failed;
}
