/* outcome.h: what a call answered, as a script has it: see script.h. */
#ifndef OUTCOME_H
#define OUTCOME_H

#include "call.h"

#include <stdio.h>

void outcome_bytes(FILE *to, const uint8_t *bytes, size_t len);
/* The same, or `all HH` where they are many and all the same. */
void outcome_many(FILE *to, const uint8_t *bytes, size_t len);

/* Each of these is told what was answered, numbers by their bits, and writes `refused N` or what was accepted. */
void outcome_report(FILE *to, uint64_t answer); /* of a reset and a sample */
void outcome_read(FILE *to, uint64_t answer, const uint8_t *out, size_t count);
void outcome_write(FILE *to, uint64_t answer);
void outcome_identity(FILE *to, uint64_t answer, struct bytes live, struct bytes factory);
void outcome_monitor(FILE *to, uint64_t kind, uint64_t value);
void outcome_limits(FILE *to, uint64_t refusal, const uint64_t limits[4]);
void outcome_limit(FILE *to, uint64_t limit);
void outcome_used(FILE *to, uint64_t answer);   /* of an add and a power-up */
void outcome_sample(FILE *to, uint64_t answer, const uint8_t *log, size_t len);
void outcome_first(FILE *to, uint64_t answer);

#endif
