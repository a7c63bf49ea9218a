/* logcalls.h: the library's calls on a log that it has found sound.
 *
 * Each call looks at every used block of what it is lent. So a change is asked of the log that begins with the last used block,
 * and a sample of its one block: of a sound log this is proved to be the same as asking of the whole. Of a sound block its number
 * and how many samples it has are read where they stand. */
#ifndef LOGCALLS_H
#define LOGCALLS_H

#include "logfile.h"

#include <stdbool.h>
#include <stddef.h>

/* Changes the log in memory; gives the refusal. */
uint32_t log_add(struct logfile *log, const uint8_t *sample, size_t len);
uint32_t log_power_up(struct logfile *log);

/* Whether so many blocks, all of them used, are a sound log: also one by itself. */
bool blocks_sound(const uint8_t *bytes, uint64_t blocks);

/* Of a sound block the number that it carries, and how many samples it has. */
uint64_t block_number(const uint8_t *block);
unsigned block_count(const uint8_t *block);

/* Of the used block at a place, counted from 0: its number, how many samples it has, and one of these. */
uint64_t log_number(const struct logfile *log, uint64_t place);
unsigned log_count(const struct logfile *log, uint64_t place);
const uint8_t *log_sample(const struct logfile *log, uint64_t place, unsigned position);

/* The library's answer which sample is the first that has a status bit. */
uint64_t log_first(const struct logfile *log, uint64_t bit);

/* "day.log: 90 of 100 blocks used", of what the file has. */
void say_used(const struct logfile *log);

#endif
