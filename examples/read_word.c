/*
 * Reads one received word of a track.
 *
 *     read_word CARD BYTE...      CARD is a card's file, each BYTE a byte of the word in hexadecimal
 *
 * Prints   position P residual R rule N   and on the same line, for each code chunk that was read,   chunk C bits B   with the
 * number of bits in which it differs from its codeword; or   refused N: why   . Its exit status is 0 if the word was read, 1 if
 * it was refused, and 2 if the arguments or the file are of no use. Built in the repository's root, after
 * `tools/build dunnavish`, by
 *
 *     cc -Iinclude -o target/read_word examples/read_word.c -Ltarget/staticlib -ldunnavish
 */
#include <errno.h>
#include <stdio.h>
#include <stdlib.h>
#include <string.h>

#include "dunnavish.h"

/* One byte more than the widest word: a word that is too long is refused by the library, as one too short is. */
#define MOST_WORD_BYTES (DUNNAVISH_WIDEST_WORD_BYTES + 1)

/* The bytes of the file, at most one more than a card has: a longer file is refused by the library too. */
static size_t read_card(const char *path, uint8_t card[DUNNAVISH_CARD_BYTES + 1])
{
    FILE *file = fopen(path, "rb");
    size_t got;

    if (file == NULL) {
        fprintf(stderr, "read_word: %s: %s\n", path, strerror(errno));
        exit(2);
    }
    got = fread(card, 1, DUNNAVISH_CARD_BYTES + 1, file);
    if (ferror(file)) {
        fprintf(stderr, "read_word: %s: cannot be read\n", path);
        exit(2);
    }
    fclose(file);
    return got;
}

static uint8_t byte_of(const char *text)
{
    char *end;
    unsigned long value = strtoul(text, &end, 16);

    if (*text == '\0' || *end != '\0' || value > 255) {
        fprintf(stderr, "read_word: '%s' is no byte in hexadecimal\n", text);
        exit(2);
    }
    return (uint8_t)value;
}

/* The values of a word that was read, on one line. */
static void print_reading(const uint32_t values[DUNNAVISH_READ_VALUES])
{
    uint32_t chunk1_bits = values[DUNNAVISH_READ_CHUNK1_BITS], chunk2_bits = values[DUNNAVISH_READ_CHUNK2_BITS];

    printf("position %u residual %u rule %u", (unsigned)values[DUNNAVISH_READ_POSITION],
           (unsigned)values[DUNNAVISH_READ_RESIDUAL], (unsigned)values[DUNNAVISH_READ_RULE]);
    if (chunk1_bits != DUNNAVISH_NOT_READ)
        printf(" chunk 1 bits %u", (unsigned)chunk1_bits);
    if (chunk2_bits != DUNNAVISH_NOT_READ)
        printf(" chunk 2 bits %u", (unsigned)chunk2_bits);
    printf("\n");
}

int main(int argc, char **argv)
{
    uint8_t card[DUNNAVISH_CARD_BYTES + 1];
    uint8_t word[MOST_WORD_BYTES];
    uint32_t values[DUNNAVISH_READ_VALUES];
    size_t card_bytes, word_bytes, i;
    uint32_t status;

    if (argc < 2 || argc - 2 > MOST_WORD_BYTES) {
        fprintf(stderr, "usage: read_word CARD BYTE...\n");
        return 2;
    }
    card_bytes = read_card(argv[1], card);
    word_bytes = (size_t)argc - 2;
    for (i = 0; i < word_bytes; i++)
        word[i] = byte_of(argv[i + 2]);

    status = dunnavish_read_word(card, card_bytes, word, word_bytes, values, DUNNAVISH_READ_VALUES);
    if (status != DUNNAVISH_OK) {
        printf("refused %u: %s\n", (unsigned)status, dunnavish_status_text(status));
        return 1;
    }
    print_reading(values);
    return 0;
}
