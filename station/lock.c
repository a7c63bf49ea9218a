/* lock.c: see lock.h. */
#include "lock.h"

#include <errno.h>
#include <stdio.h>
#include <sys/file.h>
#include <sys/stat.h>
#include <unistd.h>

int lock(int fd, int how, const char *name, const char *where)
{
    if (flock(fd, how | LOCK_NB) == 0)
        return 0;
    if (errno == EWOULDBLOCK && isatty(STDERR_FILENO))
        fprintf(stderr, "zikhrodan: %s: waiting for another command%s\n", name, where);
    int locked;
    do
        locked = flock(fd, how);
    while (locked != 0 && errno == EINTR);
    return locked;
}

static bool is_one(const struct stat *one, const struct stat *two)
{
    return one->st_dev == two->st_dev && one->st_ino == two->st_ino;
}

bool same_file(int fd, int other)
{
    struct stat one, two;

    return fstat(fd, &one) == 0 && fstat(other, &two) == 0 && is_one(&one, &two);
}

int leads_to(const char *name, int fd)
{
    struct stat named, opened;

    if (fstat(fd, &opened) != 0)
        return -1;
    if (stat(name, &named) != 0)
        return errno == ENOENT || errno == ENOTDIR ? 0 : -1;
    return is_one(&named, &opened);
}
