/* logread.h: the steps by which logfile.c opens and reads a log. Each that gives a status says the error. */
#ifndef LOGREAD_H
#define LOGREAD_H

#include "logfile.h"

/* Opens a regular file, O_RDONLY or O_RDWR. */
int open_log(struct logfile *log, int how);

/* Finds the slot that holds, where both do the later one, and whether the other one is damaged. */
int read_head(struct logfile *log);

/* Reads the used blocks, and lays the copy over its block, unless the disk is ahead of it. */
int read_blocks(struct logfile *log);

uint8_t *block_at(const struct logfile *log, uint64_t place);

/* What the library says of what was read. Says on standard error, once, that a slot is damaged, where one is. A log whose disk is
 * ahead is refused to who is `to_write`. */
int settle(struct logfile *log, bool to_write);

#endif
