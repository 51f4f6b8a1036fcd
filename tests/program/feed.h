/*
 * Starts the program under test, hands it an input in pieces, and keeps what it writes. For every test of this folder; it knows
 * nothing of cards and words.
 */
#ifndef FEED_H
#define FEED_H

#include <stddef.h>
#include <stdint.h>
#include <sys/types.h>

/* What the program is started with. A stream that is -1 is closed in the program. */
struct streams {
    int input, output, errors;
    const char *const *arguments; /* after the program's own name, up to NULL; or NULL: none */
    const char *preload;          /* a shared object that is loaded before all others, or NULL */
};

/* What the program left behind: both texts are from malloc and end in a zero byte that is not counted. */
struct outcome {
    char *output, *errors;
    size_t output_bytes, errors_bytes;
    size_t untaken; /* bytes of the input that it has left in the pipe or that were never put there */
    int status;     /* as waitpid gives it; -1: it was ended, since it did not end by itself in time */
};

/* How an input is handed over: in pieces of so many bytes through a pipe, or in one of these ways. */
#define IN_ONE_PIECE 0     /* one write to the pipe; what the pipe can't hold waits until the program has taken some */
#define AS_A_FILE SIZE_MAX /* a regular file, from which a read gets all that it asks for */

/*
 * Runs the program on an input. A stream that is MADE is made for this run: an input that has the bytes, an output or errors that
 * the outcome has. Any other stays the caller's, and the outcome has an empty text for it.
 */
#define MADE (-2)
struct outcome run_on(const char *program, const struct streams *with, const uint8_t *bytes, size_t count, size_t piece);
void forget(struct outcome *o);

/* A file that has no name; and all that was written to one, from malloc, with a zero byte after it. Closes the file. */
int unnamed_file(void);
char *contents(int file, size_t *count);

/* Ends the test with exit status 2: something other than the program under test failed. */
_Noreturn void give_up(const char *what);

#endif
