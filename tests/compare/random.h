/* random.h: random numbers that are the same on each machine (splitmix64). C leaves open which operand, or which argument of a
 * call, comes first: no expression draws in two of them, unless they may change places. */
#ifndef RANDOM_H
#define RANDOM_H

#include <stdbool.h>
#include <stddef.h>
#include <stdint.h>

void random_seed(uint64_t seed);
uint64_t random_number(void);

/* As likely of a few bits as of many. */
uint64_t random_size(void);

/* Below `limit`, which is small and not 0. */
unsigned random_below(unsigned limit);
/* In `percent` of a hundred cases. */
bool chance(unsigned percent);
void random_fill(uint8_t *at, size_t len);

#endif
