/* tally.h: what the calls of random histories came to. A group fails if an outcome was left out: so its generator is tested too. */
#ifndef TALLY_H
#define TALLY_H

#include "call.h"

void tally_begin(void);

/* A call that was made, and its refusal or 0. */
void tally(enum kind kind, unsigned refusal);

/* How many calls there were. */
uint64_t tallied(void);

/* Says how many of these kinds were accepted and refused, and how often each refusal came; fails if one never did. The refusals are
 * listed, the last followed by 0; `words` names them. */
void tally_say(uint64_t histories, enum kind first, enum kind last, const char *words, const uint8_t *numbers);

#endif
