/* show_rows.h: the rows of a table of flags, and what stands in them. Channels that are alike share a row, but not where all
 * flags are listed. */
#ifndef SHOW_ROWS_H
#define SHOW_ROWS_H

#include "show.h"

struct row {
    struct place at;
    bool all; /* of the channels; `at` is the first one's */
};

/* The rows that show these flags, in order, and how many flags are in none of them. */
unsigned rows_of(const struct shown *shown, enum which_flags which, struct row rows[MOST_FLAGS], unsigned *others);

/* What a port has of a flag, in words. Of document 01's module pending says no more than raised, and is left out. */
const char *cell(const struct shown *shown, const struct shown_port *port, struct place at);

/* Whether a flag's condition stood in the last sample, where the module keeps that. */
bool stands(const struct shown *shown, struct place at);

#endif
