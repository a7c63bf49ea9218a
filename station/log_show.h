/* log_show.h: what `zikhrodan log show` has of a log, and the forms that it is printed in. The forms only print. */
#ifndef LOG_SHOW_H
#define LOG_SHOW_H

#include "counts.h"
#include "lines.h"
#include "logcalls.h"

struct log_view {
    struct logfile log;
    struct counts counts; /* of its samples */
    uint64_t from, until; /* the positions shown; the second is the one after the last */
    bool all;             /* nobody has asked for fewer; where there are many, the form for people may show fewer still */
};

/* A sample, and what the library says of it. */
struct log_row {
    uint64_t position, number; /* its own, and its block's */
    const uint8_t *sample;
    enum zikhrodan_kind kinds[MONITORS];
    double values[MONITORS];
};

struct log_form {
    void (*begin)(struct log_view *view);
    void (*row)(const struct log_row *row);
    void (*end)(void); /* may be null */
};
extern const struct log_form LOG_TEXT, LOG_WIDE, LOG_JSON, LOG_CSV;

#endif
