/* counts.h: how many samples the used blocks of a log have. */
#ifndef COUNTS_H
#define COUNTS_H

#include "logfile.h"

struct counts {
    uint8_t *of;      /* each used block's, by its place; the caller frees it */
    uint64_t blocks;  /* how many are used */
    uint64_t samples; /* in all of them */
};

/* Of a log that the library has found sound. Gives 0, or an exit status with the error said. */
int counts_in(struct counts *counts, const struct logfile *log);

/* The place, from 0 on, of the used block that has the sample at a position. */
uint64_t place_of(const struct counts *counts, uint64_t position);

/* "day.log: 1440 samples in 90 of 100 blocks", and the end of line. */
void say_samples(const struct counts *counts, const struct logfile *log);

#endif
