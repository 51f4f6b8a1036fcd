/*
 * Inputs of tramread, a card and words, and the text that each should print. What a card and a word are answered comes from the
 * second reader (tests/second_reader); the form of the lines is that of document 01, 'The program tramread', with the counts of
 * the code chunks, of request P3, at the end of a line of a word that is read.
 */
#ifndef TRACKS_H
#define TRACKS_H

#include <stddef.h>
#include <stdint.h>

#define CARD_BYTES 512
#define WIDEST_WORD 40
#define MOST_ROWS 12

/* The calls of tests/second_reader/src/c_calls.rs: 0 or a refusal's number. */
uint32_t second_check_card(const uint8_t *card, size_t card_bytes, uint32_t *values, size_t values_count);
uint32_t second_write_word(const uint8_t *card, size_t card_bytes, uint32_t position, uint8_t *word, size_t word_bytes);
uint32_t second_read_word(const uint8_t *card, size_t card_bytes, const uint8_t *word, size_t word_bytes, uint32_t *values,
                          size_t values_count);
uint32_t second_make_card(uint16_t track, uint32_t r, uint32_t m, uint8_t *card, size_t card_bytes);

/* What second_check_card puts into its seven values. */
enum { N, K, TRACK, DISTANCE, RADIUS, BITS, LAST, CARD_VALUES };

/* What second_read_word puts into its five values, and the bits of a code chunk that the rule does not name. */
enum { POSITION, RESIDUAL, RULE, CHUNK1_BITS, CHUNK2_BITS, READ_VALUES };
#define NOT_READ 4294967295u

/* What the second reader says of a word. */
struct answer {
    uint32_t refusal;
    uint32_t values[READ_VALUES];
};

/* A card and `words` words after it, each with its answer. Of a refused card `width` is 1 and there are no answers. */
struct track {
    uint8_t *bytes;
    size_t count; /* bytes in all */
    uint32_t refusal;
    uint32_t card[CARD_VALUES];
    size_t width, words;
    struct answer *answers;
};

/*
 * How often each rule and each refusal of a word was an answer, over all tracks that were answered; and of the counts of chunks
 * how often 0, t where that is not 0, one of two digits, and by rule 3 two that differ.
 */
extern unsigned long rules_met[4], refusals_met[18];
enum { NO_BITS, ALL_BITS, TWO_DIGITS, UNLIKE, COUNT_KINDS };
extern unsigned long counts_met[COUNT_KINDS];

/* The fields of a card, and the card's bytes with its check added. */
struct fields {
    unsigned n, k, track;
    uint64_t rows[MOST_ROWS];
};
void card_of(const struct fields *f, uint8_t *card);
void set_check(uint8_t *card);

/* Puts an offset in millimetres on a card (card_of makes it 0), and sets the check again. */
void set_offset(uint8_t *card, int32_t offset);

/* Numbers that look random and are the same in each run. */
uint64_t next_number(void);
uint64_t below(uint64_t limit);

/* A track of a card, with `words` words that are still zero, or, of a refused card, that many bytes. */
struct track track_of(const uint8_t *card, size_t words);
void drop(struct track *t);

/* The word of this number, from 0. */
uint8_t *word_of(const struct track *t, size_t number);

/*
 * Makes every word: of random bits, a position's, a position's a little damaged, and chunks put together with no position; of
 * these some with up to t + 1 bits damaged in each code chunk.
 */
void make_words(struct track *t);

/* Asks the second reader for the answer of every word. */
void answer_words(struct track *t);

/* The text that the first `count` bytes of a track should print, from malloc. */
char *text_of(const struct track *t, size_t count);

/* The same without the lines that only the end of the input gives (`short`, `words`, and `card refused 1`). */
char *text_so_far(const struct track *t, size_t count);

#endif
