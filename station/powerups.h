/* powerups.h: where power-ups are seen in a log.
 *
 * A log has no mark of a power-up but its block: one that was opened though the block before it had room, or one that is empty. A
 * power-up that came just after a block was full, and was followed by samples, leaves no trace; nor does one before the first
 * sample that was followed by it. So these are the power-ups that there were at least. */
#ifndef POWERUPS_H
#define POWERUPS_H

#include "counts.h"

struct power_ups {
    uint64_t *at;    /* for each the position of the sample that came first after it, or would; in order; the caller frees it */
    uint64_t *place; /* for each the place of the block that it opened; freed with the positions */
    uint64_t number; /* of them */
};

/* Gives 0, or an exit status with the error said, of the log as `name`. */
int power_ups_in(struct power_ups *seen, const struct counts *counts, const char *name);

/* How many lie between the first sample and the one at a position, and the position of the last of them (0 where there is none).
 * One before the first sample changes nothing of when the others were taken. */
uint64_t power_ups_before(const struct power_ups *seen, uint64_t position, uint64_t *last);

#endif
