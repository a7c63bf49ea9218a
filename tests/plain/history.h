/* history.h: what stands of document 01's module, worked out from its beginning and the list of its calls. */
#ifndef HISTORY_H
#define HISTORY_H

#include "calls.h"

/* The module's 688 bytes as they have to be now; false if it has another number of bytes, and then nothing is worked out. */
bool work_out(const struct plain *m, uint8_t now[STATE_LEN]);

/* Puts an accepted sample at the end of the list. */
void append_sample(struct plain *m, const uint8_t *sample);

#endif
