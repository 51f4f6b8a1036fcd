/*
 * Starts the program under test and hands it an input. A piece is written only when the pipe is empty, so no read of the program
 * gets bytes of two pieces: the read end stays open here too, and FIONREAD says what is left in it. Output and errors go to
 * files without a name, so that the program never waits for somebody to read them.
 */
#define _GNU_SOURCE
#include "feed.h"

#include <errno.h>
#include <fcntl.h>
#include <sched.h>
#include <signal.h>
#include <stdio.h>
#include <stdlib.h>
#include <string.h>
#include <sys/ioctl.h>
#include <sys/mman.h>
#include <sys/wait.h>
#include <time.h>
#include <unistd.h>

/* A program that neither takes its input nor ends for so long is ended. */
#define PATIENCE_SECONDS 20

_Noreturn void give_up(const char *what)
{
    fprintf(stderr, "tests/program: %s: %s\n", what, strerror(errno));
    exit(2);
}

int unnamed_file(void)
{
    int made = memfd_create("tests-program", MFD_CLOEXEC);

    if (made < 0)
        give_up("a file for a stream");
    return made;
}

/* In the child: stream `number` becomes `given`, or is closed. */
static void place_stream(int number, int given)
{
    if (given < 0)
        close(number);
    else if (dup2(given, number) < 0)
        _exit(127);
}

static pid_t start(const char *program, const struct streams *s)
{
    const char *words[8] = {program};
    size_t i;
    pid_t child = fork();

    if (child != 0)
        return child;
    for (i = 0; s->arguments != NULL && s->arguments[i] != NULL && i < 6; i++)
        words[i + 1] = s->arguments[i];
    if (s->preload != NULL)
        setenv("LD_PRELOAD", s->preload, 1);
    place_stream(STDIN_FILENO, s->input);
    place_stream(STDOUT_FILENO, s->output);
    place_stream(STDERR_FILENO, s->errors);
    execv(program, (char *const *)words);
    _exit(127);
}

static size_t left_in(int pipe_end)
{
    int count = 0;

    if (ioctl(pipe_end, FIONREAD, &count) != 0)
        give_up("FIONREAD");
    return (size_t)count;
}

static int has_ended(pid_t child)
{
    siginfo_t told;

    told.si_pid = 0;
    if (waitid(P_PID, (id_t)child, &told, WEXITED | WNOHANG | WNOWAIT) != 0)
        give_up("waitid");
    return told.si_pid == child;
}

/* Lets the program run for a while: the longer, the more often it was asked before. Answers 0 once patience is at its end. */
static int wait_a_little(unsigned long asked, time_t since)
{
    static const struct timespec short_while = {0, 50000};

    if (asked < 200) {
        sched_yield();
        return 1;
    }
    nanosleep(&short_while, NULL);
    return time(NULL) - since < PATIENCE_SECONDS;
}

/* Waits until the pipe is empty. Answers 0 where the program has ended, or has not taken what is there in time. */
static int taken(pid_t child, int read_end)
{
    time_t since = time(NULL);
    unsigned long asked;

    for (asked = 0; left_in(read_end) != 0; asked++)
        if ((asked % 32 == 31 && has_ended(child)) || !wait_a_little(asked, since))
            return 0;
    return 1;
}

/* Writes one piece, which may be larger than what a pipe holds. Answers how much of it went into the pipe. */
static size_t put(pid_t child, int write_end, const uint8_t *bytes, size_t count)
{
    time_t since = time(NULL);
    unsigned long asked = 0;
    size_t done = 0;

    while (done < count) {
        ssize_t wrote = write(write_end, bytes + done, count - done);

        if (wrote > 0) {
            done += (size_t)wrote;
            since = time(NULL);
            asked = 0;
        } else if (wrote < 0 && errno != EAGAIN && errno != EINTR) {
            give_up("writing to the program");
        } else if ((asked % 32 == 31 && has_ended(child)) || !wait_a_little(asked, since)) {
            break;
        } else {
            asked++;
        }
    }
    return done;
}

/* Hands over an input by a pipe. Answers how many bytes the program has left. */
static size_t hand_over(pid_t child, const int ends[2], const uint8_t *bytes, size_t count, size_t piece)
{
    size_t done = 0;

    if (fcntl(ends[1], F_SETFL, O_NONBLOCK) != 0)
        give_up("a pipe that doesn't wait");
    while (done < count) {
        size_t now = piece == IN_ONE_PIECE || count - done < piece ? count - done : piece;
        size_t went = put(child, ends[1], bytes + done, now);

        done += went;
        if (went < now || !taken(child, ends[0]))
            break;
    }
    return count - done;
}

/* The status of the program once it has ended; -1 where it had to be ended. */
static int end_of(pid_t child)
{
    time_t since = time(NULL);
    unsigned long asked;
    int status, in_time = 1;

    for (asked = 0; in_time && !has_ended(child); asked++)
        in_time = wait_a_little(asked, since);
    if (!in_time)
        kill(child, SIGKILL);
    if (waitpid(child, &status, 0) != child)
        give_up("waitpid");
    return in_time ? status : -1;
}

char *contents(int file, size_t *count)
{
    off_t end = lseek(file, 0, SEEK_END);
    char *text;

    if (end < 0)
        give_up("the end of a file");
    text = malloc((size_t)end + 1);
    if (text == NULL || pread(file, text, (size_t)end, 0) != end)
        give_up("what the program wrote");
    text[end] = 0;
    *count = (size_t)end;
    close(file);
    return text;
}

static int file_of(const uint8_t *bytes, size_t count)
{
    int file = unnamed_file();

    if (write(file, bytes, count) != (ssize_t)count || lseek(file, 0, SEEK_SET) != 0)
        give_up("the input's file");
    return file;
}

/* Starts the program on the streams, and hands over the input by the pipe if there is one. */
static void run_streams(const char *program, const struct streams *s, const int ends[2], const uint8_t *bytes, size_t count,
                        size_t piece, struct outcome *o)
{
    pid_t child = start(program, s);

    if (child < 0)
        give_up("fork");
    if (ends[0] >= 0) {
        o->untaken = hand_over(child, ends, bytes, count, piece);
        close(ends[1]);
    }
    o->status = end_of(child);
    if (ends[0] >= 0) {
        o->untaken += left_in(ends[0]);
        close(ends[0]);
    }
}

/* Makes the input: a file, or a pipe whose two ends are answered. */
static int made_input(const uint8_t *bytes, size_t count, size_t piece, int ends[2])
{
    if (piece == AS_A_FILE)
        return file_of(bytes, count);
    if (pipe2(ends, O_CLOEXEC) != 0)
        give_up("a pipe");
    return ends[0];
}

/* The text of a stream that was made, or an empty one. */
static char *text_in(int given, int file, size_t *count)
{
    return contents(given == MADE ? file : unnamed_file(), count);
}

struct outcome run_on(const char *program, const struct streams *with, const uint8_t *bytes, size_t count, size_t piece)
{
    struct streams s = *with;
    struct outcome o = {NULL, NULL, 0, 0, 0, 0};
    int ends[2] = {-1, -1};

    if (with->input == MADE)
        s.input = made_input(bytes, count, piece, ends);
    if (with->output == MADE)
        s.output = unnamed_file();
    if (with->errors == MADE)
        s.errors = unnamed_file();
    run_streams(program, &s, ends, bytes, count, piece, &o);
    if (with->input == MADE && ends[0] < 0)
        close(s.input);
    o.output = text_in(with->output, s.output, &o.output_bytes);
    o.errors = text_in(with->errors, s.errors, &o.errors_bytes);
    return o;
}

void forget(struct outcome *o)
{
    free(o->output);
    free(o->errors);
    o->output = o->errors = NULL;
}
