/* paths.c: see paths.h. */
#include "paths.h"
#include "say.h"

#include <errno.h>
#include <stdlib.h>
#include <string.h>
#include <sys/stat.h>

char *resolved(const char *name, bool may_be_missing)
{
    char *path = realpath(name, NULL), *folder, *whole = NULL;
    if (path || errno != ENOENT || !may_be_missing)
        return path;

    struct stat link;
    const char *slash = strrchr(name, '/'), *last = slash ? slash + 1 : name;
    if (*last == '\0' || lstat(name, &link) == 0) {
        errno = ENOENT;
        return NULL;
    }
    char *front = slash ? strndup(name, (size_t)(slash - name) + 1) : strdup(".");
    folder = front ? realpath(front, NULL) : NULL;
    free(front);
    if (folder && (whole = malloc(strlen(folder) + strlen(last) + 2)))
        strcat(strcat(strcpy(whole, folder), "/"), last);
    free(folder);
    return whole;
}

int regular(const char *path, const char *name, const char *what)
{
    struct stat is;

    if (stat(path, &is) == 0 && !S_ISREG(is.st_mode))
        return fail("%s: %s is a regular file", name, what);
    return 0;
}
