/*
 * Makes inputs of tramread and the text that each should print; see tracks.h.
 */
#include "tracks.h"

#include <stdarg.h>
#include <stdio.h>
#include <stdlib.h>
#include <string.h>

#include "feed.h"

unsigned long rules_met[4], refusals_met[18], counts_met[COUNT_KINDS];

uint64_t next_number(void)
{
    static uint64_t state = 0x2545F4914F6CDD1Du;

    state ^= state << 13;
    state ^= state >> 7;
    state ^= state << 17;
    return state >> 8;
}

uint64_t below(uint64_t limit)
{
    return next_number() % limit;
}

/* Bytes 510 to 511: the sum over places 0 to 509 of (place + 1) x byte, modulo 65,521, high byte first. */
void set_check(uint8_t *card)
{
    uint32_t sum = 0;
    uint32_t place;

    for (place = 0; place < 510; place++)
        sum += (place + 1) * card[place];
    sum %= 65521;
    card[510] = (uint8_t)(sum >> 8);
    card[511] = (uint8_t)(sum & 255);
}

/* Bytes 100 to 103, in two's complement, high byte first. */
void set_offset(uint8_t *card, int32_t offset)
{
    uint32_t bytes = (uint32_t)offset;
    unsigned i;

    for (i = 0; i < 4; i++)
        card[100 + i] = (uint8_t)(bytes >> (24 - 8 * i));
    set_check(card);
}

void card_of(const struct fields *f, uint8_t *card)
{
    unsigned z, j;

    memset(card, 0, CARD_BYTES);
    card[0] = (uint8_t)f->n;
    card[1] = (uint8_t)f->k;
    card[2] = (uint8_t)(f->track >> 8);
    card[3] = (uint8_t)(f->track & 255);
    for (z = 0; z < MOST_ROWS; z++)
        for (j = 0; j < 8; j++)
            card[4 + 8 * z + j] = (uint8_t)(f->rows[z] >> (56 - 8 * j));
    set_check(card);
}

struct track track_of(const uint8_t *card, size_t words)
{
    struct track t = {NULL, 0, 0, {0}, 1, words, NULL};

    t.refusal = second_check_card(card, CARD_BYTES, t.card, CARD_VALUES);
    if (t.refusal == 0)
        t.width = (t.card[BITS] + 7) / 8;
    t.count = CARD_BYTES + words * t.width;
    t.bytes = calloc(t.count, 1);
    t.answers = calloc(words + 1, sizeof *t.answers);
    if (t.bytes == NULL || t.answers == NULL)
        give_up("memory for a track");
    memcpy(t.bytes, card, CARD_BYTES);
    return t;
}

void drop(struct track *t)
{
    free(t->bytes);
    free(t->answers);
}

uint8_t *word_of(const struct track *t, size_t number)
{
    return t->bytes + CARD_BYTES + number * t->width;
}

static void turn_bit(uint8_t *word, uint64_t place)
{
    word[place / 8] = (uint8_t)(word[place / 8] ^ (1u << (place % 8)));
}

/* Row z, or the sum of the rows that `set` names. */
static uint64_t sum_of_rows(const struct track *t, uint64_t set)
{
    uint64_t sum = 0, row;
    unsigned z, j;

    for (z = 0; z < t->card[K]; z++) {
        for (row = 0, j = 0; j < 8; j++)
            row = row << 8 | t->bytes[4 + 8 * z + j];
        if (set >> z & 1)
            sum ^= row;
    }
    return sum;
}

/* Puts a number's lowest `count` bits, all of which were zero, into a word from a place on. */
static void put_bits(uint8_t *word, uint64_t place, uint64_t bits, uint64_t count)
{
    uint64_t p;

    for (p = 0; p < count; p++)
        if (bits >> p & 1)
            turn_bit(word, place + p);
}

/*
 * Five chunks that need not be a position's: separators that read as they like, and in the code chunks two codewords, often the
 * same, the first and the last more often than others. Gray(0) = 0, and Gray(2^k - 1) = 2^(k-1).
 */
static void put_chunks(const struct track *t, uint8_t *word)
{
    uint64_t n = t->card[N], distance = t->card[DISTANCE], k = t->card[K];
    uint64_t separators = below(8), sets[2], i;

    for (i = 0; i < 2; i++)
        sets[i] = below(3) == 0 ? below(2) << (k - 1) : below(1u << k);
    if (below(2) == 0)
        sets[1] = sets[0];
    for (i = 0; i < 3; i++)
        if (separators >> i & 1)
            put_bits(word, i * (distance + n), UINT64_MAX, distance);
    for (i = 0; i < 2; i++)
        put_bits(word, distance + i * (distance + n), sum_of_rows(t, sets[i]), n);
}

/* Damages up to t + 1 places, which follow each other, of each code chunk of a word; t of them about every second time. */
static void damage_chunks(const struct track *t, uint8_t *word)
{
    uint64_t n = t->card[N], distance = t->card[DISTANCE], radius = t->card[RADIUS];
    uint64_t chunk, from, damaged, i;

    for (chunk = 0; chunk < 2; chunk++) {
        damaged = below(2) == 0 ? radius : below(radius + 2u);
        from = below(n);
        for (i = 0; i < damaged; i++)
            turn_bit(word, distance + chunk * (distance + n) + (from + i) % n);
    }
}

static void make_word(const struct track *t, uint8_t *word)
{
    uint64_t kind = below(10), damaged, i;

    if (kind == 0) {
        for (i = 0; i < t->width; i++)
            word[i] = (uint8_t)below(256);
        return;
    }
    if (kind < 6) {
        if (second_write_word(t->bytes, CARD_BYTES, (uint32_t)below(t->card[LAST] + 1u), word, t->width) != 0)
            give_up("the second reader refused to write a word");
    } else {
        put_chunks(t, word);
    }
    damaged = kind % 2 == 0 ? 0 : below(t->card[RADIUS] + 3u);
    for (i = 0; i < damaged; i++)
        turn_bit(word, below(t->card[BITS]));
    if (kind % 2 == 0 && below(2) == 0)
        damage_chunks(t, word);
    if (below(16) == 0)
        turn_bit(word, below(8 * t->width));
}

void make_words(struct track *t)
{
    size_t i;

    for (i = 0; i < t->words; i++)
        make_word(t, word_of(t, i));
}

/* Whether the chunks that the rule names, 1 chunk 1, 2 chunk 2, 3 both, have at most t bits, and the other one has NOT_READ. */
static int counts_as_named(const uint32_t *values, uint32_t radius)
{
    int first = values[RULE] != 2, second = values[RULE] != 1;

    return (first ? values[CHUNK1_BITS] <= radius : values[CHUNK1_BITS] == NOT_READ) &&
           (second ? values[CHUNK2_BITS] <= radius : values[CHUNK2_BITS] == NOT_READ);
}

/* Notes the rule and the counts of a word that is read. */
static void note_reading(const uint32_t *values, uint32_t radius)
{
    unsigned i;

    rules_met[values[RULE]]++;
    for (i = CHUNK1_BITS; i <= CHUNK2_BITS; i++)
        if (values[i] != NOT_READ) {
            counts_met[NO_BITS] += values[i] == 0;
            counts_met[ALL_BITS] += values[i] != 0 && values[i] == radius;
            counts_met[TWO_DIGITS] += values[i] >= 10;
        }
    counts_met[UNLIKE] += values[RULE] == 3 && values[CHUNK1_BITS] != values[CHUNK2_BITS];
}

void answer_words(struct track *t)
{
    uint32_t radius = t->card[RADIUS];
    size_t i;

    for (i = 0; t->refusal == 0 && i < t->words; i++) {
        struct answer *a = &t->answers[i];

        a->refusal = second_read_word(t->bytes, CARD_BYTES, word_of(t, i), t->width, a->values, READ_VALUES);
        if ((a->refusal > 12 && a->refusal != 17) || (a->refusal == 0 && (a->values[RULE] < 1 || a->values[RULE] > 3)))
            give_up("the second reader's answer is none");
        if (a->refusal == 0 && !counts_as_named(a->values, radius))
            give_up("the second reader's counts are of other chunks");
        if (a->refusal != 0)
            refusals_met[a->refusal]++;
        else
            note_reading(a->values, radius);
    }
}

/* A text that grows. */
struct text {
    char *at;
    size_t used, room;
};

static void add(struct text *x, const char *form, ...)
{
    va_list values;
    int wrote;

    if (x->room - x->used < 100) {
        x->room = 2 * x->room + 1000;
        x->at = realloc(x->at, x->room);
        if (x->at == NULL)
            give_up("memory for a text");
    }
    va_start(values, form);
    wrote = vsnprintf(x->at + x->used, x->room - x->used, form, values);
    va_end(values);
    if (wrote < 0 || wrote >= 100)
        give_up("a line of the expected text");
    x->used += (size_t)wrote;
}

/* The line of a word that is read. */
static void add_reading(struct text *x, size_t number, const uint32_t *values)
{
    add(x, "%zu at %u residual %u rule %u", number, values[POSITION], values[RESIDUAL], values[RULE]);
    if (values[CHUNK1_BITS] != NOT_READ)
        add(x, " %u", values[CHUNK1_BITS]);
    if (values[CHUNK2_BITS] != NOT_READ)
        add(x, " %u", values[CHUNK2_BITS]);
    add(x, "\n");
}

/* The card's line and the lines of so many words. Answers how many of them are read, not refused. */
static size_t add_lines(struct text *x, const struct track *t, size_t words)
{
    size_t i, read = 0;

    add(x, "track %u last %u radius %u\n", t->card[TRACK], t->card[LAST], t->card[RADIUS]);
    for (i = 0; i < words; i++) {
        const struct answer *a = &t->answers[i];

        if (a->refusal != 0) {
            add(x, "%zu refused %u\n", i + 1, a->refusal);
        } else {
            add_reading(x, i + 1, a->values);
            read++;
        }
    }
    return read;
}

static char *text_up_to(const struct track *t, size_t count, int at_end)
{
    struct text x = {NULL, 0, 0};
    size_t words, read;

    add(&x, "%s", "");
    if (count < CARD_BYTES) {
        if (at_end)
            add(&x, "card refused 1\n");
        return x.at;
    }
    if (t->refusal != 0) {
        add(&x, "card refused %u\n", t->refusal);
        return x.at;
    }
    words = (count - CARD_BYTES) / t->width;
    read = add_lines(&x, t, words);
    if (at_end && (count - CARD_BYTES) % t->width != 0)
        add(&x, "short %zu\n", (count - CARD_BYTES) % t->width);
    if (at_end)
        add(&x, "words %zu read %zu\n", words, read);
    return x.at;
}

char *text_of(const struct track *t, size_t count)
{
    return text_up_to(t, count, 1);
}

char *text_so_far(const struct track *t, size_t count)
{
    return text_up_to(t, count, 0);
}
