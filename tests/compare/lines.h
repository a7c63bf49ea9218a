/* lines.h: what the lines of a script go by. Each function takes a line's words, and answers whether they could be read. */
#ifndef LINES_H
#define LINES_H

#include "words.h"

#include <stdio.h>

/* What goes from line to line. */
struct now {
    enum memory { ANY = -1, NONE, MODULE, EIGHT, LOG } memory;  /* none until a module or a log is set up */
    struct bytes begun;                                         /* how long it is, and whether at a null pointer */
    enum place place;
    uint64_t used;
    uint8_t image[REGION];
    size_t image_len;
    bool agreed;                                                /* of a line: both engines agreed in all its calls; */
    bool changed;                                               /* a byte changed that should not have */
};
extern struct now now;

/* How many bytes of the memory are looked at: of vast memory its front. */
size_t memory_seen(void);

/* Makes a call on both engines; the library's answer. */
uint64_t make(struct call call);

/* ---- calls of a module; sample, samples, read and write also of the eight-channel one */

bool line_reset(struct words *words, FILE *found);
bool line_sample(struct words *words, FILE *found);
bool line_samples(struct words *words, FILE *found);
bool line_read(struct words *words, FILE *found);
bool line_write(struct words *words, FILE *found);
bool line_identity(struct words *words, FILE *found);
bool line_monitor(struct words *words, FILE *found);
bool line_limits(struct words *words, FILE *found);
bool line_limit(struct words *words, FILE *found);

/* The eight-channel module's: it takes no image. Its other three are those of a module. */
bool line_reset_eight(struct words *words, FILE *found);

/* ---- calls of a log */

bool line_add(struct words *words, FILE *found);
bool line_adds(struct words *words, FILE *found);
bool line_power_up(struct words *words, FILE *found);
bool line_sample_at(struct words *words, FILE *found);
bool line_first(struct words *words, FILE *found);

#endif
