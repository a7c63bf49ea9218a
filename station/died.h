/* died.h: what `zikhrodan died` has of a log, and the forms that it is printed in. The forms only print. */
#ifndef DIED_H
#define DIED_H

#include "lines.h"
#include "moments.h"
#include "powerups.h"

/* When a sample was taken, in local time and in UTC; "" where that is not known. */
struct moment {
    char local[MOMENT_ROOM], utc[MOMENT_ROOM];
    bool or_later; /* a power-up is seen before it, since the first sample */
};

/* A line, and what the library says of it: the first sample that has its bit. The sample before has not. */
struct death {
    unsigned bit;
    bool died;                 /* there is one; else the rest is nothing */
    uint64_t position, number; /* its own, and its block's */
    uint64_t power_ups, last;  /* that are seen between the first sample and it, and where the last one is */
    bool while_off;            /* that one is just before it: nobody knows what was meanwhile */
    struct moment lit, dark;   /* of the sample before, which the log's first one has not, and of it */
};

struct died_view {
    struct logfile log;
    struct counts counts;
    struct power_ups seen;
    struct moments moments;
    struct death deaths[LINES];
    unsigned lines; /* how many of them were asked for */
};

/* The lines among them that died. */
void died_lines(const struct died_view *view, bool died[LINES]);

void died_text(const struct died_view *view);
void died_json(const struct died_view *view);

#endif
