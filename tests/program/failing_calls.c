/*
 * Loaded before the C library, it stands before its read and write, so that the program under test meets errors of the system
 * that no file or pipe gives when it is wanted. Variables of the environment say which; system_errors.c sets them:
 *
 *     FAIL_READ_AFTER=N     standard input gives N bytes, then every read fails with EIO
 *     FAIL_WRITE_AFTER=N    standard output takes N bytes, then every write fails with ENOSPC
 *     INTERRUPT=1           every other read and write fails with EINTR, the first of all
 *     SHORT_WRITES=N        a write to standard output takes N bytes at most
 */
#define _GNU_SOURCE
#include <errno.h>
#include <stddef.h>
#include <stdlib.h>
#include <sys/syscall.h>
#include <unistd.h>

static size_t number_of(const char *name, size_t otherwise)
{
    const char *text = getenv(name);

    return text == NULL ? otherwise : (size_t)strtoul(text, NULL, 10);
}

static int interrupted(size_t *calls)
{
    (*calls)++;
    return getenv("INTERRUPT") != NULL && *calls % 2 == 1;
}

static ssize_t failed(int error)
{
    errno = error;
    return -1;
}

ssize_t read(int file, void *bytes, size_t count)
{
    static size_t calls, given;
    size_t limit = number_of("FAIL_READ_AFTER", (size_t)-1);
    ssize_t came;

    if (file != STDIN_FILENO)
        return syscall(SYS_read, file, bytes, count);
    if (interrupted(&calls))
        return failed(EINTR);
    if (given >= limit)
        return failed(EIO);
    came = syscall(SYS_read, file, bytes, count < limit - given ? count : limit - given);
    given += came > 0 ? (size_t)came : 0;
    return came;
}

ssize_t write(int file, const void *bytes, size_t count)
{
    static size_t calls, given;
    size_t limit = number_of("FAIL_WRITE_AFTER", (size_t)-1), part = number_of("SHORT_WRITES", (size_t)-1);
    ssize_t went;

    if (file != STDOUT_FILENO)
        return syscall(SYS_write, file, bytes, count);
    if (interrupted(&calls))
        return failed(EINTR);
    if (given >= limit)
        return failed(ENOSPC);
    if (part > limit - given)
        part = limit - given;
    went = syscall(SYS_write, file, bytes, count < part ? count : part);
    given += went > 0 ? (size_t)went : 0;
    return went;
}
