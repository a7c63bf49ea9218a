/* eight_history.h: what stands of Ask 6's module, worked out from its beginning and the list of its calls. */
#ifndef EIGHT_HISTORY_H
#define EIGHT_HISTORY_H

#include "calls.h"
#include "eight_rules.h"

/* The module's 98 bytes as they have to be now; false if it has another number of bytes, and then nothing is worked out. */
bool dd_work_out(const struct plain *m, uint8_t now[DD_STATE_LEN]);

#endif
