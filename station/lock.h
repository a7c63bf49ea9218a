/* lock.h: locks on a file or a folder, by which commands at once take turns. */
#ifndef LOCK_H
#define LOCK_H

#include <stdbool.h>

/* Waits for a lock, LOCK_EX or LOCK_SH, and says to a person that it does, of `name`: "waiting for another command" and `where`.
 * -1 with errno set. */
int lock(int fd, int how, const char *name, const char *where);

/* Two open files are one; false also where either is none. */
bool same_file(int fd, int other);

/* A name leads to an open file: 1, or 0 where it is gone or leads to another one; -1 with errno set where that cannot be seen. */
int leads_to(const char *name, int fd);

#endif
