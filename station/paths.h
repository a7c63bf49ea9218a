/* paths.h: where a file that is to be replaced lies. */
#ifndef PATHS_H
#define PATHS_H

#include <stdbool.h>

/* A path with links resolved, to be freed; of a file that need not be there, if it may be missing. Null with errno set. */
char *resolved(const char *name, bool may_be_missing);

/* A regular file, so that a rename replaces no device or pipe; also one that is not there. Gives 0, or an exit status with the
 * error said: that `what`, such as "a state", is one. */
int regular(const char *path, const char *name, const char *what);

#endif
