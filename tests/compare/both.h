/* both.h: the library and the plain engine side by side: the same calls on both, and whether they agree. */
#ifndef BOTH_H
#define BOTH_H

#include "call.h"

#include <stdio.h>

void both_prepare(void);

/* Both begin with these bytes, a module's state or a log. With vast ones the plain engine has a log as vast, but its module
 * begins with 689 zeros, which is as little 688 bytes as that. */
void both_begin(struct bytes state, enum place place);

/* Makes a call on both. True if answer, state and output agree, no input has changed and all canary bytes stand. */
bool both_make(const struct call *call);

/* Of the last call: the answer of the library (a double's bits), and what differs, a line each that starts with #. */
uint64_t both_answer(void);
void both_print_differences(FILE *to);

/* Of the last read: the output memory that the library was lent. */
const uint8_t *both_output(void);

/* The state or the log that the plain engine has, as long as the one begun with. */
const uint8_t *both_state(void);

#endif
