/* log.h: the log of document 02's Asks 1 and 9 in plain C, written from that paper and not from the library's code, to compare
 * the library with.
 *
 * Each call of Ask 1 takes the memory apart into a list of blocks, each a number, samples and whether there is a summary, and
 * changes the list; then all used blocks are written anew from it. Ask 9's question makes a list of all samples. Nothing is kept
 * from call to call. Arguments and answers are those of zikhrodan.h. */
#ifndef LOG_H
#define LOG_H

#include <stddef.h>
#include <stdint.h>

uint64_t plain_log_add(uint8_t *log, size_t log_len, uint64_t used, const uint8_t *sample, size_t sample_len);
uint64_t plain_log_power_up(uint8_t *log, size_t log_len, uint64_t used);
uint64_t plain_log_sample(const uint8_t *log, size_t log_len, uint64_t used, uint64_t position);
uint64_t plain_log_first(const uint8_t *log, size_t log_len, uint64_t used, uint64_t bit);

#endif
