/* eight.h: the eight-channel module that is lent to a case's call. See cases.h. */
#ifndef EIGHT_H
#define EIGHT_H

#include "cases.h"

extern uint8_t eight[ZIKHRODAN_DD_STATE_LEN];

bool is_eight(const struct one_call *c);

/* A module that was reset and, unless the case takes a first sample, has taken one of all FFh: so every flag is up, and pending, for
 * both ports. No mask is set. Gives what was refused, or 0. */
uint32_t set_up_eight(const struct one_call *c);

void put_back_eight(void);
uint64_t make_eight(const struct one_call *c);

/* Makes calls that a generator chooses, with every refusal among them; a number made of all answers and all bytes after each. */
uint64_t some_calls(uint64_t many);

#endif
