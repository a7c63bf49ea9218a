/* report.h: what `zikhrodan report` has of a log, and the parts of its page. The parts only print. */
#ifndef REPORT_H
#define REPORT_H

#include "counts.h"
#include "lines.h"
#include "moments.h"
#include "powerups.h"
#include "report_scale.h"
#include "state.h"

#include <stdio.h>

/* A light level has so many columns at most; what is shorter than one of so many parts of a picture is too short to be seen apart
 * from its neighbours; of dark stretches and of power-ups so many are listed; Rx power 1 to 4 and Tx power 1 to 4. */
enum { COLUMNS = 2000, PARTS = 500, LISTED = 300, LEVELS = 8 };

/* What is drawn of a dark stretch: from its first sample up to the one after its last. Short stretches with nothing but short
 * gaps between them are one mark; so there are two for each part at most. */
struct mark {
    uint64_t from, until;
    bool several;
};

/* One of the 24 lines. Dark is a sample in which its bit is 1; a stretch is of samples one after the other. */
struct band {
    uint64_t first;           /* the library's answer: the position of the first dark sample plus 1; 0 where there is none */
    uint64_t stretches, dark; /* how many of them, and of dark samples */
    bool open;                /* the last one goes on */
    uint64_t from;            /* where it begins */
    uint64_t listed;          /* its place in the list; it may be past the list's end */
    size_t made;
    struct mark marks[2 * PARTS + 2];
};

struct stretch {
    unsigned bit;
    uint64_t from, last;
};

/* What a column of a light level has: nothing, or from the least number to the most. */
struct column {
    bool measured, dark; /* dark: one of the numbers is 0 */
    double least, most;
};

struct level {
    struct column whole;
    double faintest; /* the least number that is not 0; 0 where there is none */
    struct column columns[COLUMNS];
};

struct report {
    struct logfile log;
    struct counts counts;
    struct power_ups power_ups;
    struct moments moments;
    struct state module;       /* that measures, and has the limits */
    const char *module_name;   /* its file's; null where it is one that is reset to the built-in factory image */
    uint64_t width;            /* how many samples a column has */
    uint64_t part;             /* how many samples are not short */
    struct band bands[LINES];
    struct stretch stretches[LISTED];
    uint64_t stretch_count;    /* of all of them, also those that are not listed */
    struct level levels[LEVELS];
};

/* Reads every sample, and asks the library when each line died. Gives 0, or an exit status with the error said. */
int report_read(struct report *report);

/* The module in an error's words. */
const char *module_words(const struct report *report);

/* The lines that died, the first one first, and of those that died together the lowest. Gives how many. */
unsigned lines_in_order(const struct report *report, unsigned order[LINES]);

/* How many lanes lost what, as lost_words has it. Gives `text`. */
char *lost_in(const struct report *report, char text[LINES_ROOM]);

/* Whether the hour of a sample is but the earliest that it can be: a power-up lies before it; and whether one is seen just before
 * it. */
bool or_later(const struct report *report, uint64_t position);
bool after_power_up(const struct report *report, uint64_t position);

/* The parts of the page, in their order. */
void put_head(FILE *page, const struct report *report);
void put_bands(FILE *page, const struct report *report);
void put_levels(FILE *page, const struct report *report);
void put_tables(FILE *page, const struct report *report);
void put_listed_power_ups(FILE *page, const struct report *report);
void put_foot(FILE *page, const struct report *report);
extern const char REPORT_STYLE[];

/* With this every page begins. */
#define PAGE_FRONT "<!DOCTYPE html>"

/* Between which two samples a line's first dark one came, with hours where they are known. */
void put_between(FILE *page, const struct report *report, unsigned bit);

/* When a sample was taken, local and in UTC; where that is known. */
void put_moment(FILE *page, const struct report *report, uint64_t position);

/* Where a position lies in a picture, in hundredths of its width. */
double across(const struct report *report, uint64_t position);

/* Parts of a picture. What is stretched to its width counts samples from left to right: lines at the axis' places and at the
 * power-ups, from one height to another. The axis itself is as high as axis_height says. */
void put_grid(FILE *page, const struct report *report, unsigned top, unsigned bottom);
void put_power_ups(FILE *page, const struct report *report, unsigned top, unsigned bottom);
void put_axis(FILE *page, const struct report *report, unsigned top);
unsigned axis_height(const struct report *report);
void put_power_up_sign(FILE *page, const struct report *report);

/* A limit of a kind of light, and the limits' order from the highest down; a table of the levels and their limits. */
double limit_of(const struct report *report, unsigned quantity, unsigned which);
extern const unsigned LIMIT_ORDER[LIMITS];
void put_ranges(FILE *page, const struct report *report);

/* A light level over the samples; and the columns in which a sample had no light at all. */
void put_curve(FILE *page, const struct report *report, const struct level *level, const struct scale *scale);
void put_zeros(FILE *page, const struct report *report, const struct level *level);

#endif
