/* lengths.h: lengths of what is lent, and numbers, that are likely to be taken wrongly. */
#ifndef LENGTHS_H
#define LENGTHS_H

#include "call.h"

/* The front of a memory of REGION bytes at each length 0 to `most` and at large ones, after no bytes at a null pointer; gives how
 * many. */
enum { MOST = 800 };
size_t each_length(struct bytes *all, const uint8_t *memory, size_t most);

/* 0 to 4, and each power of two from 2^7 on that a type might end at, minus 2 to plus 2; gives how many. */
enum { MOST_ENDS = 64 };
size_t find_ends(uint64_t *ends);

#endif
