/* counts.c: see counts.h. */
#include "counts.h"
#include "logcalls.h"
#include "say.h"

#include <inttypes.h>
#include <stdio.h>
#include <stdlib.h>

int counts_in(struct counts *counts, const struct logfile *log)
{
    *counts = (struct counts){.of = malloc(log->used ? log->used : 1), .blocks = log->used};
    if (!counts->of)
        return fail_errno(log->name);
    for (uint64_t place = 0; place < log->used; place++)
        counts->samples += counts->of[place] = (uint8_t)log_count(log, place);
    return DONE;
}

uint64_t place_of(const struct counts *counts, uint64_t position)
{
    uint64_t place = 0;

    while (place < counts->blocks && position >= counts->of[place])
        position -= counts->of[place++];
    return place;
}

void say_samples(const struct counts *counts, const struct logfile *log)
{
    printf("%s%s%s: %" PRIu64 " sample%s in %" PRIu64 " of %" PRIu64 " block%s\n", paint(STRONG), log->name, paint(PLAIN),
           counts->samples, plural(counts->samples), log->used, log->held.blocks, plural(log->held.blocks));
}
