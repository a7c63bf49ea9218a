/* feed.h: rows fed to a module whose state is in a file, to a log in a file, or to both: for sample, watch and log add. */
#ifndef FEED_H
#define FEED_H

#include "logfile.h"
#include "rows.h"
#include "state.h"

/* What the helps of these say of the option that is theirs. */
#define RAW_HELP \
    "  --raw         takes the rows whatever they look like. Without it each file is\n" \
    "                looked at before the first row of any is taken, a pipe at its first\n" \
    "                row: what is not whole rows, or is a log, a state, an image, a page,\n" \
    "                hex digits or other text is refused, and nothing is changed"

struct feed {
    const char *name;        /* the state's; null where there is a log alone */
    const struct kind *kind; /* of the module that takes the rows; a log's rows are document 01's */
    struct logfile log;      /* its name is null where there is none; else it begins as log_begin wants it */
    bool raw;                /* rows are taken whatever they look like */
    struct rows rows;
    struct state state;
    uint64_t taken;          /* rows taken */
    unsigned counts[2];      /* the operator's and the recorder's after the last */
    int (*tell)(const struct feed *feed, const struct state *before); /* after each row; gives the exit status; may be null */
};

/* Feeds the rows of these files, as rows_begin takes them. Whenever the input pauses, and at the end of a file, the log is
 * committed and then the state is saved, and others can have them. A row that is refused ends it: log and state are then those of
 * the row before. At the end it says how many rows were taken, each port's count, and how far the log is used. Gives the exit
 * status, with what went wrong said. */
int feed_all(struct feed *feed, char **names, int count);

#endif
