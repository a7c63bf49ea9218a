/* ended.c: linked into the tool in place of the calls that it makes of the system (the linker's --wrap). Before the call whose
 * number the environment's ENDED_AT has, the first being 1, the tool gets the signal of the number ENDED_BY; a write is half done
 * by then. */
#include <poll.h>
#include <signal.h>
#include <stdio.h>
#include <stdlib.h>
#include <sys/stat.h>
#include <sys/types.h>

/* Whether this call is the one. */
static int is_the_moment(void)
{
    static long calls;
    const char *at = getenv("ENDED_AT");

    return at && ++calls == strtol(at, NULL, 10);
}

static void end(void)
{
    raise(atoi(getenv("ENDED_BY")));
}

#define BEFORE(type, name, parameters, arguments) \
    type __real_##name parameters;                \
    type __wrap_##name parameters;                \
    type __wrap_##name parameters                 \
    {                                             \
        if (is_the_moment())                      \
            end();                                \
        return __real_##name arguments;           \
    }

BEFORE(int, open, (const char *path, int how, mode_t mode), (path, how, mode))
BEFORE(int, close, (int fd), (fd))
BEFORE(ssize_t, read, (int fd, void *bytes, size_t len), (fd, bytes, len))
BEFORE(ssize_t, pread, (int fd, void *bytes, size_t len, off_t at), (fd, bytes, len, at))
BEFORE(int, fsync, (int fd), (fd))
BEFORE(int, fdatasync, (int fd), (fd))
BEFORE(int, flock, (int fd, int how), (fd, how))
BEFORE(int, rename, (const char *old, const char *new), (old, new))
BEFORE(int, unlink, (const char *path), (path))
BEFORE(int, mkstemp, (char *path), (path))
BEFORE(int, fchmod, (int fd, mode_t mode), (fd, mode))
BEFORE(int, fchown, (int fd, uid_t owner, gid_t group), (fd, owner, group))
BEFORE(int, stat, (const char *path, struct stat *is), (path, is))
BEFORE(int, fstat, (int fd, struct stat *is), (fd, is))
BEFORE(char *, realpath, (const char *path, char *to), (path, to))
BEFORE(int, sigprocmask, (int how, const sigset_t *set, sigset_t *before), (how, set, before))
BEFORE(int, poll, (struct pollfd *fds, nfds_t count, int timeout), (fds, count, timeout))
BEFORE(int, fflush, (FILE *file), (file))

ssize_t __real_pwrite(int fd, const void *bytes, size_t len, off_t at);
ssize_t __wrap_pwrite(int fd, const void *bytes, size_t len, off_t at);
ssize_t __wrap_pwrite(int fd, const void *bytes, size_t len, off_t at)
{
    if (is_the_moment()) {
        __real_pwrite(fd, bytes, len / 2, at);
        end();
    }
    return __real_pwrite(fd, bytes, len, at);
}
