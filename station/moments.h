/* moments.h: when a log's samples were taken. The log does not have it: the caller says when the first one was, and how many
 * seconds lie between two. Nothing is rounded: an hour is exact, or there is none. Leap seconds are not counted, as no clock of a
 * station does. */
#ifndef MOMENTS_H
#define MOMENTS_H

#include <stdbool.h>
#include <stdint.h>

struct moments {
    bool known;      /* where it is false, nobody has said anything, and there are no hours */
    int64_t start;   /* of the first sample, in seconds since 1970 in UTC */
    uint64_t period; /* from one sample to the next, in nanoseconds */
};

/* From the words of --period and --start; where both are null, nothing is known. A period is a number of seconds above 0, with a
 * fraction or without; a start is a time after ISO 8601, local, or with Z or an offset. False, with an error said, if one is
 * without the other, or is none, if the start is a local time that the clocks skip or have twice, or if TZ names a zone that is
 * not known. */
bool moments_in(const char *period, const char *start, struct moments *moments);

/* When the sample at a position was taken, such as "2026-11-15T13:47:00+01:00" in local time and "2026-11-15T12:47:00Z"; in both
 * a fraction of the second, if there is one. False, with an error said, if that is past the year 9999. Only where it is known. */
enum { MOMENT_ROOM = 48 };
bool moment_of(const struct moments *moments, uint64_t position, char local[MOMENT_ROOM], char utc[MOMENT_ROOM]);

#endif
