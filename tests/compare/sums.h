/* sums.h: a sum over the first calls of a group, with all their bytes: whether a generator draws the same calls everywhere. */
#ifndef SUMS_H
#define SUMS_H

#include "call.h"

enum { SUMMED = 10000 };

/* A group begins. */
void sum_begin(void);

/* A beginning, or a call: what an output holds before a read is left out, as it goes on from group to group. */
void sum_state(struct bytes state, enum place place);
void sum_call(const struct call *call);

/* Whether so many calls were made; and their sum. */
bool sum_is_whole(void);
uint64_t sum_of_calls(void);

#endif
