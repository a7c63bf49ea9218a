/* synced.c: loaded into the tool by LD_PRELOAD, and stands before fsync and rename: appends a line for each to the file that the
 * environment's SYNCED names. What SYNCED_FAILS names, "file" or "folder", cannot be synced. */
#define _GNU_SOURCE
#include <dlfcn.h>
#include <errno.h>
#include <stdio.h>
#include <stdlib.h>
#include <string.h>
#include <sys/stat.h>

static void tell(const char *line)
{
    FILE *file = fopen(getenv("SYNCED"), "a");

    if (!file || fprintf(file, "%s\n", line) < 0 || fclose(file) != 0)
        abort();
}

int fsync(int fd)
{
    int (*next)(int) = (int (*)(int))dlsym(RTLD_NEXT, "fsync");
    const char *fails = getenv("SYNCED_FAILS");
    struct stat is;

    if (fstat(fd, &is) != 0)
        abort();
    const char *what = S_ISDIR(is.st_mode) ? "folder" : "file";
    tell(what);
    if (fails && strcmp(fails, what) == 0) {
        errno = EIO;
        return -1;
    }
    return next(fd);
}

int rename(const char *old, const char *new)
{
    int (*next)(const char *, const char *) = (int (*)(const char *, const char *))dlsym(RTLD_NEXT, "rename");

    tell("rename");
    return next(old, new);
}
