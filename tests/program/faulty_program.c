/*
 * A tramread of its own over the second reader, with one fault that the variable FAULT of its environment names: the script run
 * lists them, and the test of the program must find each. Without FAULT it has none that is known, and the test must pass.
 *
 * It is no model of the program: it is here to show that the test can fail, and fails for the fault alone.
 */
#include <errno.h>
#include <stdarg.h>
#include <stdio.h>
#include <stdlib.h>
#include <string.h>
#include <unistd.h>

#include "tracks.h"

static const char *fault = "";
static uint8_t held[65536];
static char text[65536];
static size_t held_bytes, text_bytes, words, words_read;
static uint32_t card_values[CARD_VALUES];
static int read_error, write_error;

static int has(const char *name)
{
    return strcmp(fault, name) == 0;
}

static void tell(const char *what, int error)
{
    fprintf(stderr, "tramread: %s: %s\n", has("an error line that names nothing") ? "error" : what, strerror(error));
}

/* Writes the lines that are kept. After a write that failed nothing more is written. */
static void flush(void)
{
    size_t done = 0;

    while (done < text_bytes && write_error == 0) {
        ssize_t went = write(STDOUT_FILENO, text + done, text_bytes - done);

        if (went >= 0)
            done += has("a short write is taken for a whole one") ? text_bytes - done : (size_t)went;
        else if (errno != EINTR || has("an interrupted write is given up"))
            write_error = errno;
    }
    if (write_error != 0 && has("a line for each failed write")) {
        tell("standard output", write_error);
        write_error = 0;
    }
    text_bytes = 0;
}

static void line(const char *form, ...)
{
    va_list values;

    if (sizeof text - text_bytes < 100)
        flush();
    va_start(values, form);
    text_bytes += (size_t)vsnprintf(text + text_bytes, 100, form, values);
    va_end(values);
}

/* Reads once more. Answers how many bytes came; 0 at the end. */
static size_t more(void)
{
    size_t room = sizeof held - held_bytes;
    ssize_t came = read(STDIN_FILENO, held + held_bytes, room);

    while (came < 0 && errno == EINTR && !has("an interrupted read is the end"))
        came = read(STDIN_FILENO, held + held_bytes, room);
    if (came < 0) {
        read_error = errno;
        if (has("the error before the lines"))
            tell("standard input", read_error);
        return 0;
    }
    held_bytes += (size_t)came;
    return (size_t)came;
}

/* Whether the input was cut off by a failed read, so that what only its end gives is not printed. */
static int cut_off(void)
{
    return read_error != 0 && !has("the end after a failed read");
}

/* The offset of a card: bytes 100 to 103, in two's complement, high byte first. */
static int32_t offset_of(const uint8_t *card)
{
    return (int32_t)((uint32_t)card[100] << 24 | (uint32_t)card[101] << 16 | (uint32_t)card[102] << 8 | card[103]);
}

/* What the second reader answers for a card, or what a fault makes of its offset. */
static uint32_t check_card(uint8_t *card, size_t count)
{
    uint32_t refusal = second_check_card(card, count, card_values, CARD_VALUES);
    int32_t offset = count == CARD_BYTES ? offset_of(card) : 0;

    if (offset == 0 || refusal == 2 || refusal == 3)
        return refusal;
    if (has("an offset is refused 4"))
        return 4;
    if ((has("20,000 is outside the range") && offset == 20000) || (has("-20,000 is outside the range") && offset == -20000))
        return 14;
    if (has("14 before 4") && (offset < -20000 || offset > 20000))
        return 14;
    if (refusal == 14 && (has("14 after 5") || has("no refusal 14"))) {
        set_offset(card, 0);
        refusal = second_check_card(card, count, card_values, CARD_VALUES);
        return refusal == 0 && has("14 after 5") ? 14 : refusal;
    }
    return refusal;
}

/* Reads the card and prints its line. Answers 0 where it is refused. */
static int card_line(void)
{
    uint32_t refusal;

    while (held_bytes < CARD_BYTES && more() != 0)
        if (has("the card is one read"))
            break;
    if (cut_off() || (held_bytes == 0 && has("no line for no input")))
        return 0;
    if (has("a card of any length"))
        held_bytes = held_bytes < CARD_BYTES ? CARD_BYTES : held_bytes;
    refusal = check_card(held, held_bytes < CARD_BYTES ? held_bytes : CARD_BYTES);
    if (refusal != 0) {
        line("card refused %u\n", has("every card is refused 2") ? 2 : refusal);
        if (has("a last line after a refused card"))
            line("words 0 read 0\n");
        return 0;
    }
    line("track %u last %u radius %u\n", card_values[TRACK], card_values[LAST],
         card_values[has("D for the radius") ? DISTANCE : RADIUS]);
    return 1;
}

/* What a fault makes of the counts of the code chunks. */
static void spoil_counts(uint32_t *v)
{
    uint32_t first = v[CHUNK1_BITS];
    unsigned i;

    if (has("the counts exchanged")) {
        v[CHUNK1_BITS] = v[CHUNK2_BITS];
        v[CHUNK2_BITS] = first;
    }
    if (has("no count of chunk 2 by rule 3") && v[RULE] == 3)
        v[CHUNK2_BITS] = NOT_READ;
    for (i = CHUNK1_BITS; i <= CHUNK2_BITS; i++) {
        if (v[i] == NOT_READ && has("a count of a chunk that is not named"))
            v[i] = 0;
        else if (v[i] != NOT_READ && has("the residual for a count"))
            v[i] = v[RESIDUAL];
        else if (v[i] == 0 && has("a count of 0 is left out"))
            v[i] = NOT_READ;
        else if (v[i] != NOT_READ && has("counts of one digit"))
            v[i] %= 10;
    }
}

/* The line of a word that is read. */
static void read_line(size_t number, const uint32_t *v)
{
    line("%zu at %u residual %u rule %u", number, v[POSITION], has("no residual") ? 0 : v[RESIDUAL],
         has("rule 1 as 2") && v[RULE] == 1 ? 2 : v[RULE]);
    if (v[CHUNK1_BITS] != NOT_READ)
        line(" %u", v[CHUNK1_BITS]);
    if (v[CHUNK2_BITS] != NOT_READ)
        line(" %u", v[CHUNK2_BITS]);
    line("%s\n", has("a space after the counts") ? " " : "");
}

static void word_line(const uint8_t *card, const uint8_t *word, size_t width)
{
    uint32_t v[READ_VALUES], refusal = second_read_word(card, CARD_BYTES, word, width, v, READ_VALUES);
    size_t number = words + 1;

    if (has("numbers from 1 after 1,600 words"))
        number = words % 1600 + 1;
    if (has("numbers of 16 bits"))
        number = (words + 1) % 65536;
    words++;
    if ((refusal == 11 && has("refused 11 as 10")) || (refusal == 17 && has("refused 17 as 12")))
        refusal = refusal == 11 ? 10 : 12;
    if (refusal != 0) {
        line("%zu refused %u\n", number, refusal);
        words_read += has("refused words count as read") ? 1 : 0;
        return;
    }
    words_read++;
    if (has("the offset moves positions"))
        v[POSITION] += (uint32_t)(offset_of(card) / 50);
    spoil_counts(v);
    read_line(number, v);
}

/* Prints the lines of the whole words that are held, and keeps what is short of a word. */
static void word_lines(const uint8_t *card, size_t width)
{
    size_t at;

    for (at = 0; held_bytes - at >= width; at += width)
        word_line(card, held + at, width);
    held_bytes -= at;
    memmove(held, held + at, held_bytes);
    if (has("a read's tail is dropped"))
        held_bytes = 0;
}

static void all_lines(void)
{
    uint8_t card[CARD_BYTES];
    size_t width = (card_values[BITS] + 7) / 8, taken = CARD_BYTES;

    memcpy(card, held, CARD_BYTES);
    held_bytes -= CARD_BYTES;
    memmove(held, held + CARD_BYTES, held_bytes);
    do {
        taken += held_bytes;
        word_lines(card, width);
        if (has("the end after a buffer") && taken >= sizeof held)
            break;
        if (has("a tail is the end") && held_bytes != 0)
            break;
    } while (more() != 0);
    if (cut_off())
        return;
    if ((held_bytes != 0 && !has("no line for a tail")) || has("a line for no tail"))
        line("short %zu\n", held_bytes);
    if (!has("no last line"))
        line("words %zu read %zu%s", words, words_read, has("no end of the last line") ? "" : "\n");
}

int main(int count, char **given)
{
    (void)given;
    if (getenv("FAULT") != NULL)
        fault = getenv("FAULT");
    if (count > 1 && !has("arguments are passed over")) {
        if (has("input is read before arguments are seen"))
            more();
        fprintf(stderr, "usage: tramread, with a card and words on standard input\n");
        return 0;
    }
    if (card_line())
        all_lines();
    if (read_error == 0 || !has("a failed read loses lines"))
        flush();
    if (read_error != 0 && !has("no word of a failed read") && !has("the error before the lines"))
        tell("standard input", has("every reason is EIO") ? EIO : read_error);
    if (write_error != 0 && !has("no word of a failed write"))
        tell("standard output", write_error);
    if (has("a word on standard error"))
        fprintf(stderr, "done\n");
    return has("exit status 1") || (has("exit status 1 after an error") && (read_error != 0 || write_error != 0));
}
