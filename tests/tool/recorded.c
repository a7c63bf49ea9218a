/* recorded.c: linked into the tool in place of pwrite, fdatasync and fsync (the linker's --wrap). Appends each call to the file
 * that the environment's RECORDED names: a byte, 'W' for a write, 'S' for a sync of a file, 'D' for one of a folder; the place
 * and the length, 8 bytes each as this machine has them; and what is written. Where RECORDED_ENDS is a number, the tool is killed
 * by that call, the first being 1: a write is half done by then, a sync not at all. Where RECORDED_ASKS is one, the tool is asked
 * to end (SIGTERM) before that call. Where RECORDED_FAILS is one or more, with blanks between them, those calls fail. */
#include <errno.h>
#include <signal.h>
#include <stdint.h>
#include <stdio.h>
#include <stdlib.h>
#include <sys/stat.h>
#include <unistd.h>

ssize_t __real_pwrite(int fd, const void *bytes, size_t len, off_t at);
int __real_fdatasync(int fd);
int __real_fsync(int fd);

static void record(char kind, const void *bytes, uint64_t len, uint64_t at)
{
    FILE *file = fopen(getenv("RECORDED"), "a");

    if (!file || fputc(kind, file) == EOF || fwrite(&at, sizeof at, 1, file) != 1 || fwrite(&len, sizeof len, 1, file) != 1 ||
        fwrite(bytes, 1, len, file) != len || fclose(file) != 0)
        abort();
}

static int calls;

/* Whether this call is one that a variable names. */
static int is_call(const char *variable, int number)
{
    const char *words = getenv(variable);
    char *rest = NULL;

    for (long named; words && (named = strtol(words, &rest, 10), rest != words); words = rest)
        if (named == number)
            return 1;
    return 0;
}

/* A call begins: whether it is to fail. */
static int fails(void)
{
    calls++;
    if (is_call("RECORDED_ASKS", calls))
        raise(SIGTERM);
    errno = EIO;
    return is_call("RECORDED_FAILS", calls);
}

ssize_t __wrap_pwrite(int fd, const void *bytes, size_t len, off_t at)
{
    if (fails())
        return -1;
    if (is_call("RECORDED_ENDS", calls)) {
        __real_pwrite(fd, bytes, len / 2, at);
        raise(SIGKILL);
    }
    record('W', bytes, len, (uint64_t)at);
    return __real_pwrite(fd, bytes, len, at);
}

static int synced(int fd, int (*real)(int))
{
    struct stat is;

    if (fails())
        return -1;
    if (is_call("RECORDED_ENDS", calls))
        raise(SIGKILL);
    record(fstat(fd, &is) == 0 && S_ISDIR(is.st_mode) ? 'D' : 'S', "", 0, 0);
    return real(fd);
}

int __wrap_fdatasync(int fd)
{
    return synced(fd, __real_fdatasync);
}

int __wrap_fsync(int fd)
{
    return synced(fd, __real_fsync);
}
