/*
 * A tramcard of its own over the second reader, with one fault that the variable FAULT of its environment names: the script run
 * lists them, and made_cards.c must find each. Without FAULT it has none that is known, and the test must pass.
 */
#include <errno.h>
#include <stdio.h>
#include <stdlib.h>
#include <string.h>
#include <unistd.h>

#include "tracks.h"

static const char *fault = "";

static int has(const char *name)
{
    return strcmp(fault, name) == 0;
}

/* The number in a text, at most `largest`; -1 where there is none. */
static long long number_in(const char *text, unsigned long long largest)
{
    unsigned long long number = 0;
    int wraps = has("numbers wrap at 2^32") || has("numbers wrap at 2^64");

    if (has("a sign is passed over") && *text == '+')
        text++;
    if (*text == 0)
        return has("an empty text is 0") ? 0 : -1;
    if (has("leading zeros are octal"))
        return (long long)strtoul(text, NULL, 0);
    for (; *text != 0; text++) {
        if (*text < '0' || *text > (has("a colon is a digit") ? ':' : '9'))
            return has("what follows the digits is passed over") && number != 0 ? (long long)number : -1;
        number = 10 * number + (unsigned)(*text - '0');
        if (has("numbers wrap at 2^32"))
            number %= 4294967296;
        if (number > largest && !wraps)
            return -1;
    }
    return number > largest ? -1 : (long long)number;
}

static void put(const uint8_t *card, size_t count)
{
    size_t done = 0;

    while (done < count) {
        ssize_t went = write(STDOUT_FILENO, card + done, count - done);

        if (went >= 0)
            done += has("a short write is taken for a whole one") ? count - done : (size_t)went;
        else if (errno != EINTR || has("an interrupted write is given up")) {
            if (!has("no word of a failed write"))
                fprintf(stderr, "tramcard: writing standard output: %s\n", strerror(errno));
            return;
        }
    }
}

/* Says which argument is no number, and answers whether one is. */
static int told_of(const long long *numbers)
{
    static const char *const names[] = {"TRACK", "R", "M"}, *const limits[] = {"65535", "4294967295", "4294967295"};
    int i, at, wrong = -1;

    for (i = 0; i < 3; i++) {
        at = has("the last wrong argument is told") ? i : 2 - i;
        if (numbers[at] < 0)
            wrong = at;
    }
    if (wrong >= 0)
        fprintf(stderr, "tramcard: %s is not a number from 0 to %s\n", names[wrong], limits[wrong]);
    return wrong >= 0;
}

int main(int count, char **words)
{
    uint8_t card[CARD_BYTES + 1] = {0};
    long long numbers[3];
    uint32_t refusal;
    int exchanged;

    if (getenv("FAULT") != NULL)
        fault = getenv("FAULT");
    exchanged = has("R and M exchanged");
    if (count < 4 || (count > 4 && !has("a fourth argument is passed over"))) {
        fprintf(stderr, "usage: tramcard TRACK R M > CARD   (three numbers in decimal; a card of 512 bytes)\n");
        return 0;
    }
    if (has("standard input is read") && read(STDIN_FILENO, card, 1) == 1)
        card[0] = 0;
    numbers[0] = number_in(words[1], has("65536 is a track") ? 65536 : 65535);
    numbers[1] = number_in(words[2], 4294967295);
    numbers[2] = number_in(words[3], 4294967295);
    if (told_of(numbers))
        return 0;
    refusal = second_make_card((uint16_t)numbers[0], (uint32_t)numbers[exchanged ? 2 : 1], (uint32_t)numbers[exchanged ? 1 : 2], card, CARD_BYTES);
    if (refusal != 0 && !has("no word of refusal 13"))
        fprintf(stderr, "tramcard: refused 13: M is not 1 to 6, R is above M, or k is above 12\n");
    if (has("the track is low byte first") && refusal == 0) {
        card[2] = (uint8_t)numbers[0];
        card[3] = (uint8_t)(numbers[0] / 256);
        set_check(card);
    }
    if (has("an offset of 1") && refusal == 0)
        set_offset(card, 1);
    card[CARD_BYTES] = '\n';
    if (refusal == 0 || has("zeros for a refused card"))
        put(card, has("a line feed after the card") ? CARD_BYTES + 1 : CARD_BYTES);
    return refusal != 0 && has("exit status 1 after a refusal");
}
