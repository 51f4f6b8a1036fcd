/*
 * What tramread prints, byte for byte, on inputs that arrive in one piece and in many: no input; inputs that end inside the card;
 * a card alone; every refused card, with and without bytes after it; every count of bytes short of a word; more words than any
 * buffer holds; cards of many shapes with words of all kinds; cards with offsets; words with damage in their code chunks.
 *
 * The expected text is document 01's: its example as it stands there, what it says of single words, its numbers of refused
 * cards, with P2's 14, and its form of the lines, with P3's counts of the code chunks at the end of those of words that are read.
 * What a card and a word are answered otherwise comes from the second reader (tracks.h), and with an offset it is what they are
 * answered without. Nothing is taken from the program itself. That every rule, every refusal of a word and the counts at their
 * borders have been met is counted.
 *
 *     text PROGRAM [MOST]     stops after MOST differences (20)
 *
 * Exit status 0: no difference; 1: some; 2: the test could not be made.
 */
#include <stdio.h>
#include <stdlib.h>
#include <string.h>

#include "feed.h"
#include "tracks.h"

static const char *program;
static unsigned long runs, differences, most = 20;

/* All ways in which an input arrives; those for a large one, without the pieces of one byte; and those for the largest. */
static const size_t every_way[] = {IN_ONE_PIECE, AS_A_FILE, 1, 7, 100, CARD_BYTES};
static const size_t large_ways[] = {IN_ONE_PIECE, AS_A_FILE, 7, 100};
static const size_t quick_ways[] = {IN_ONE_PIECE, AS_A_FILE, 100};
#define WAYS(ways) ways, sizeof(ways) / sizeof *(ways)

static size_t line_length(const char *line)
{
    return strcspn(line, "\n");
}

/* Prints the first line in which two texts differ. */
static void show_difference(const char *expected, const char *got)
{
    size_t at = 0, start = 0;

    while (expected[at] != 0 && expected[at] == got[at]) {
        if (expected[at] == '\n')
            start = at + 1;
        at++;
    }
    printf("    expected '%.*s'\n    got      '%.*s'\n", (int)line_length(expected + start), expected + start,
           (int)line_length(got + start), got + start);
}

/* Runs the program on an input that arrives in one way, and compares. */
static void hold_to(const char *name, const uint8_t *bytes, size_t count, size_t piece, const char *expected)
{
    static const struct streams plain = {MADE, MADE, MADE, NULL, NULL};
    struct outcome o = run_on(program, &plain, bytes, count, piece);
    int alike = o.output_bytes == strlen(expected) && memcmp(o.output, expected, o.output_bytes) == 0;

    runs++;
    if (!alike || o.errors_bytes != 0 || o.status != 0) {
        printf("tests/program: %s, %zu bytes, ", name, count);
        if (piece == AS_A_FILE)
            printf("as a file:\n");
        else if (piece == IN_ONE_PIECE)
            printf("in one piece:\n");
        else
            printf("in pieces of %zu:\n", piece);
        if (!alike)
            show_difference(expected, o.output);
        if (o.errors_bytes != 0)
            printf("    on standard error: %s\n", o.errors);
        if (o.status != 0)
            printf("    %s %d\n", o.status == -1 ? "did not end," : "ended with status", o.status);
        differences++;
    }
    forget(&o);
    if (differences >= most) {
        printf("tests/program: stopped after %lu differences in %lu runs\n", differences, runs);
        exit(1);
    }
}

/* The first `count` bytes of a track, in each of some ways. */
static void hold(const char *name, const struct track *t, size_t count, const size_t *ways, size_t way_count)
{
    char *expected = text_of(t, count);
    size_t i;

    for (i = 0; i < way_count; i++)
        hold_to(name, t->bytes, count, ways[i], expected);
    free(expected);
}

/* Card B; and the card of the widest words, forty bytes: n 64, D 64, k 1, a row of 64 ones. */
static const struct fields card_b = {3, 1, 14, {7}};
static const struct fields widest = {64, 1, 65535, {UINT64_MAX}};

/* A sound card with words of all kinds and their answers. */
static struct track answered(const struct fields *f, size_t words)
{
    uint8_t card[CARD_BYTES];
    struct track t;

    card_of(f, card);
    t = track_of(card, words);
    if (t.refusal != 0) {
        printf("tests/program: the second reader refuses a card that should be sound: %u\n", t.refusal);
        exit(2);
    }
    make_words(&t);
    answer_words(&t);
    return t;
}

/* A card and words, with the text as document 01 and request P3 give it. */
static void hold_document(const struct fields *f, const uint8_t *words, size_t word_bytes, const char *expected)
{
    uint8_t input[CARD_BYTES + WIDEST_WORD];
    size_t i;

    card_of(f, input);
    memcpy(input + CARD_BYTES, words, word_bytes);
    for (i = 0; i < sizeof every_way / sizeof *every_way; i++)
        hold_to("words with a text by hand", input, CARD_BYTES + word_bytes, every_way[i], expected);
}

/*
 * The document's example of the program; then what it says of reading words of cards B and A, under 'Two cards to try'. To the line
 * of a word that is read P3 adds counts, here 0: each chunk that is read in these words is a codeword as it came.
 */
static void document_cases(void)
{
    static const struct fields card_a = {3, 2, 0, {3, 6}};
    static const uint8_t example[] = {0x7F, 0x00, 0x5F, 0x00, 0xC0, 0x01, 0x00, 0x80};
    static const uint8_t refused_b[] = {0x00, 0x70, 0x00, 0x0E, 0x38, 0x0E, 0xC7, 0x01}; /* the last two of request P6 */
    static const uint8_t words_a[] = {0x2F, 0x00, 0xEF, 0x05, 0x04, 0x00}; /* of 5, of 9, and 00 100 00 000 00 */

    hold_document(&card_b, example, sizeof example,
                  "track 14 last 15 radius 1\n"
                  "1 at 7 residual 0 rule 2 0\n"
                  "2 at 5 residual 1 rule 2 0\n"
                  "3 refused 9\n"
                  "4 refused 8\n"
                  "words 4 read 2\n");
    hold_document(&card_b, refused_b, sizeof refused_b,
                  "track 14 last 15 radius 1\n"
                  "1 refused 12\n"
                  "2 refused 11\n"
                  "3 refused 17\n"
                  "4 refused 12\n"
                  "words 4 read 0\n");
    hold_document(&card_a, words_a, sizeof words_a,
                  "track 0 last 30 radius 0\n"
                  "1 at 5 residual 0 rule 2 0\n"
                  "2 at 9 residual 0 rule 1 0\n"
                  "3 refused 10\n"
                  "words 3 read 2\n");
}

/*
 * Words with damage in their code chunks, worked by hand; place 0 stands leftmost. On card B t is 1, the code chunks are places 3
 * to 5 and 9 to 11, c(0) is 000 and c(1) 111, and position m has ones in its first m places. Rule 1 is that of position 13,
 * 111 111 111 111 100: with place 4 damaged, with place 10, which is in the other chunk, and with both. Rule 2 is that of position
 * 7 with place 9 damaged, rule 3 that of position 0 with place 3, with place 10, and with both. The widest card has chunks of eight
 * bytes, and t is 31: position 0 with 31 bits of code chunk 1 and ten of code chunk 2 damaged.
 */
static void damaged_chunks(void)
{
    static const uint8_t words_b[] = {0xEF, 0x1F, 0xFF, 0x1B, 0xEF, 0x1B, 0x7F, 0x02, 0x08, 0x00, 0x00, 0x04, 0x08, 0x04};
    static const uint8_t wide[WIDEST_WORD] = {[8] = 0xFF, [9] = 0xFF, [10] = 0xFF, [11] = 0x7F, [24] = 0xFF, [25] = 0x03};

    hold_document(&card_b, words_b, sizeof words_b,
                  "track 14 last 15 radius 1\n"
                  "1 at 13 residual 1 rule 1 1\n"
                  "2 at 13 residual 1 rule 1 0\n"
                  "3 at 13 residual 2 rule 1 1\n"
                  "4 at 7 residual 1 rule 2 1\n"
                  "5 at 0 residual 1 rule 3 1 0\n"
                  "6 at 0 residual 1 rule 3 0 1\n"
                  "7 at 0 residual 2 rule 3 1 1\n"
                  "words 7 read 7\n");
    hold_document(&widest, wide, sizeof wide,
                  "track 65535 last 320 radius 31\n"
                  "1 at 0 residual 41 rule 3 31 10\n"
                  "words 1 read 1\n");
}

/* Card B's check is the document's, so that cards made here are cards. */
static void check_is_right(void)
{
    uint8_t card[CARD_BYTES];

    card_of(&card_b, card);
    if (card[510] != 0 || card[511] != 145) {
        printf("tests/program: card B's check is made wrong\n");
        exit(2);
    }
}

/* No input, inputs that end inside the card, and a card alone. */
static void short_inputs(const struct track *t)
{
    static const size_t counts[] = {0, 1, 2, 3, 4, 5, 11, 12, 99, 100, 101, 255, 256, 257, 509, 510, 511, CARD_BYTES};
    size_t i;

    for (i = 0; i < sizeof counts / sizeof *counts; i++)
        hold(counts[i] < CARD_BYTES ? "an input that ends inside the card" : "a card alone", t, counts[i], WAYS(every_way));
}

/* Every count of bytes short of a word, after no word and after three. */
static void tails(const struct track *t)
{
    static const size_t words[] = {0, 3};
    size_t i, tail;

    for (i = 0; i < 2; i++)
        for (tail = 0; tail < t->width; tail++)
            hold("a tail", t, CARD_BYTES + words[i] * t->width + tail, WAYS(every_way));
}

/* A refused card, alone and followed by bytes; `number` is the number that document 01 or P2 gives it. */
static void refused_card(const uint8_t *card, uint32_t number)
{
    static const size_t after[] = {0, 2, 600};
    char name[40];
    struct track t = track_of(card, 150000);
    size_t i;

    snprintf(name, sizeof name, "a card refused %u", number);
    if (t.refusal != number) {
        printf("tests/program: %s: the second reader answers %u\n", name, t.refusal);
        exit(2);
    }
    for (i = CARD_BYTES; i < t.count; i++)
        t.bytes[i] = (uint8_t)below(256);
    for (i = 0; i < sizeof after / sizeof *after; i++)
        hold(name, &t, CARD_BYTES + after[i], WAYS(every_way));
    hold(name, &t, t.count, WAYS(quick_ways));
    drop(&t);
}

static void refused_fields(struct fields f, uint32_t number)
{
    uint8_t card[CARD_BYTES];

    card_of(&f, card);
    refused_card(card, number);
}

/* A byte of card B changed, with its check set again if asked for. */
static void refused_byte(size_t place, uint8_t byte, int check_again, uint32_t number)
{
    uint8_t card[CARD_BYTES];

    card_of(&card_b, card);
    card[place] = byte;
    if (check_again)
        set_check(card);
    refused_card(card, number);
}

/* A card of these fields with an offset. */
static void refused_offset(const struct fields *f, int32_t offset, uint32_t number)
{
    uint8_t card[CARD_BYTES];

    card_of(f, card);
    set_offset(card, offset);
    refused_card(card, number);
}

/* Refusals 2 to 5, and of two reasons the first. Refusal 1 is an input that ends inside the card; 14 has cards of its own. */
static void refused_cards(void)
{
    uint8_t card[CARD_BYTES];

    refused_byte(511, 144, 0, 2);
    refused_byte(510, 1, 0, 2);
    refused_byte(3, 15, 0, 2);
    refused_byte(0, 65, 0, 2);
    card_of(&(struct fields){1, 1, 0, {0}}, card);
    card[510] = 0xFF; /* 65,524 for 3: the same modulo 65,521, and another number */
    card[511] = 0xF4;
    refused_card(card, 2);
    refused_fields((struct fields){0, 0, 0, {0}}, 3);
    refused_fields((struct fields){0, 1, 14, {7}}, 3);
    refused_fields((struct fields){65, 1, 14, {7}}, 3);
    refused_fields((struct fields){3, 0, 14, {0}}, 3);
    refused_fields((struct fields){16, 13, 14, {7}}, 3);
    refused_fields((struct fields){2, 3, 14, {1, 2, 1}}, 3);
    refused_fields((struct fields){3, 1, 14, {8}}, 4);
    refused_fields((struct fields){3, 1, 14, {7, 1}}, 4);
    refused_fields((struct fields){3, 2, 14, {3, 3, 0, 0, 0, 0, 0, 0, 0, 0, 0, 1}}, 4);
    refused_byte(104, 1, 1, 4);
    refused_byte(509, 255, 1, 4);
    refused_fields((struct fields){3, 1, 14, {0}}, 5);
    refused_fields((struct fields){3, 2, 14, {3, 3}}, 5);
    refused_fields((struct fields){3, 3, 14, {3, 5, 6}}, 5);
}

/* A track, whose card has offset 0, with other offsets: the text is the same. */
static void hold_with_offsets(const char *name, const struct track *t, size_t count)
{
    static const int32_t within[] = {-20000, -19999, -256, -1, 1, 255, 256, 19999, 20000};
    size_t i;

    for (i = 0; i < sizeof within / sizeof *within; i++) {
        set_offset(t->bytes, within[i]);
        hold(name, t, count, WAYS(quick_ways));
    }
    set_offset(t->bytes, 0);
}

static void sound_offsets(const struct track *few)
{
    struct track wide = answered(&widest, 30);

    hold_with_offsets("card B with an offset", few, CARD_BYTES + 40 * few->width + 1);
    hold_with_offsets("the widest words with an offset", &wide, wide.count);
    drop(&wide);
}

/*
 * Refusal 14, and of it and another reason the first: 14 comes after 4 and before 5. The offsets outside are the first past
 * either end of the range, the furthest, and three whose lower two bytes are those of one within.
 */
static void refused_offsets(void)
{
    static const struct fields limits = {65, 1, 14, {7}}, stray = {3, 1, 14, {8}}, dependent = {3, 2, 14, {3, 3}};
    static const int32_t outside[] = {-20001, 20001, INT32_MIN, INT32_MAX, 65536, 65536 - 20000, 20000 - 65536};
    uint8_t card[CARD_BYTES];
    size_t i;

    for (i = 0; i < sizeof outside / sizeof *outside; i++)
        refused_offset(&card_b, outside[i], 14);
    for (i = 100; i < 103; i++)
        refused_byte(i, 128, 1, 14);
    for (i = 0; i < 2; i++) {
        refused_offset(&limits, outside[i], 3);
        refused_offset(&stray, outside[i], 4);
        refused_offset(&dependent, outside[i], 14);
    }
    refused_offset(&dependent, -20000, 5);
    refused_offset(&dependent, 20000, 5);
    card_of(&card_b, card);
    card[104] = 1;
    set_offset(card, 20001);
    refused_card(card, 4);
    card[511] ^= 1;
    refused_card(card, 2);
}

/* More than 1,600 of the widest words, and inputs that end at, before and after the sizes that buffers have. */
static void many_wide_words(const struct track *t)
{
    static const size_t sizes[] = {4096, 8192, 16384, 32768, 64000, 65536, 131072};
    size_t i, off;

    hold("1,700 words of forty bytes", t, CARD_BYTES + 1700 * t->width, WAYS(large_ways));
    hold("many words of forty bytes and a tail", t, t->count - 1, WAYS(large_ways));
    for (i = 0; i < sizeof sizes / sizeof *sizes; i++)
        for (off = 0; off < 3; off++) {
            hold("a buffer's size", t, sizes[i] + off - 1, WAYS(quick_ways));
            hold("a card and a buffer's size", t, CARD_BYTES + sizes[i] + off - 1, WAYS(quick_ways));
        }
}

/* Random rows of n bits, drawn again until no nonempty set of them sums to zero. */
static void draw_rows(struct fields *f)
{
    uint8_t card[CARD_BYTES];
    uint32_t values[CARD_VALUES];
    unsigned z;

    do {
        for (z = 0; z < f->k; z++) {
            f->rows[z] = next_number() << 32 ^ next_number();
            if (f->n < 64)
                f->rows[z] &= (UINT64_C(1) << f->n) - 1;
        }
        card_of(f, card);
    } while (second_check_card(card, CARD_BYTES, values, CARD_VALUES) == 5);
}

/* A card of n and k with random rows, and words of all kinds; then the same with an offset, and its last bytes cut off. */
static void random_card(unsigned n, unsigned k, size_t words)
{
    struct fields f = {n, k, (unsigned)below(65536), {0}};
    struct track t;
    char name[60];

    draw_rows(&f);
    t = answered(&f, words);
    snprintf(name, sizeof name, "a card of n %u, k %u, D %u", n, k, t.card[DISTANCE]);
    hold(name, &t, t.count, WAYS(large_ways));
    set_offset(t.bytes, (int32_t)below(40001) - 20000);
    if (k == 1)
        hold(name, &t, t.count - below(t.width + 1), WAYS(every_way));
    else
        hold(name, &t, t.count - below(t.width + 1), WAYS(quick_ways));
    drop(&t);
}

static void random_cards(void)
{
    static const unsigned lengths[] = {1, 2, 3, 4, 5, 7, 8, 11, 16, 23, 24, 31, 32, 33, 40, 48, 56, 63, 64};
    size_t i;
    unsigned k;

    for (i = 0; i < sizeof lengths / sizeof *lengths; i++)
        for (k = 1; k <= 5 && k <= lengths[i]; k++)
            random_card(lengths[i], k, 40);
    random_card(20, 8, 20);
    random_card(64, 9, 10);
    random_card(24, 12, 6);
    random_card(64, 12, 4);
}

/* Every rule and every refusal of a received word was an answer. */
static void all_were_met(void)
{
    static const unsigned refusals[] = {8, 9, 10, 11, 12, 17};
    unsigned i;

    printf("tests/program: the words' answers:");
    for (i = 1; i <= 3; i++)
        printf(" rule %u %lu,", i, rules_met[i]);
    for (i = 0; i < 6; i++)
        printf(" refused %u %lu%s", refusals[i], refusals_met[refusals[i]], i < 5 ? "," : "\n");
    for (i = 1; i <= 3; i++)
        if (rules_met[i] == 0) {
            printf("tests/program: no word was read by rule %u\n", i);
            exit(2);
        }
    for (i = 0; i < 6; i++)
        if (refusals_met[refusals[i]] == 0) {
            printf("tests/program: no word was refused %u\n", refusals[i]);
            exit(2);
        }
}

/* And so was every kind of count. */
static void all_counts_were_met(void)
{
    static const char *const kinds[COUNT_KINDS] = {"0", "t above 0", "two digits", "two that differ"};
    unsigned i;

    printf("tests/program: the chunks' counts:");
    for (i = 0; i < COUNT_KINDS; i++)
        printf(" %s %lu%s", kinds[i], counts_met[i], i + 1 < COUNT_KINDS ? "," : "\n");
    for (i = 0; i < COUNT_KINDS; i++)
        if (counts_met[i] == 0) {
            printf("tests/program: no count was met that is %s\n", kinds[i]);
            exit(2);
        }
}

int main(int count, char **words)
{
    struct track few, narrow, wide;

    if (count < 2) {
        fprintf(stderr, "usage: text PROGRAM [MOST]\n");
        return 2;
    }
    program = words[1];
    if (count > 2)
        most = strtoul(words[2], NULL, 10);
    check_is_right();
    document_cases();
    damaged_chunks();
    few = answered(&card_b, 1700);
    short_inputs(&few);
    tails(&few);
    hold("1,700 words of two bytes", &few, few.count, WAYS(every_way));
    refused_cards();
    sound_offsets(&few);
    refused_offsets();
    narrow = answered(&card_b, 70000);
    hold("70,000 words of two bytes", &narrow, narrow.count, WAYS(large_ways));
    wide = answered(&widest, 3500);
    many_wide_words(&wide);
    tails(&wide);
    random_cards();
    all_were_met();
    all_counts_were_met();
    drop(&few);
    drop(&narrow);
    drop(&wide);
    printf("tests/program: %lu runs, %lu differences\n", runs, differences);
    return differences != 0;
}
