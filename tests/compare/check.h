/* check.h: what a group of cases is made with. A group is a function; its first mismatch ends it. */
#ifndef CHECK_H
#define CHECK_H

#include "call.h"

enum { SEED = 1 };  /* if it isn't told another one */

/* What the program was told. */
struct options {
    uint64_t seed, calls, pairs;    /* of the random groups */
    uint8_t image[640];             /* the real factory image */
};
extern struct options options;

/* Where begun states and all else that is lent lie from now on. */
void place_at(enum place place);

/* Both engines begin with these 688 bytes, or with any bytes: a log, too. */
void begin(const uint8_t *state);
void begin_with(struct bytes state);

/* Makes a call on both and compares; the answer. */
uint64_t try(struct call call);

/* The same, with the refusal that the papers give: that is then the whole answer. If it is 0 the call has to be accepted. */
void try_expecting(struct call call, unsigned refusal);

/* The group fails, with these words; a mismatch also prints the case, if it is the first of all. */
_Noreturn void fail(const char *words, ...) __attribute__((format(printf, 1, 2)));
_Noreturn void mismatch(const char *words, ...) __attribute__((format(printf, 1, 2)));

/* At a group's end: its first calls, SUMMED of them, by the seed that nobody chose and for the real image, have this sum. So the
 * order in which they are drawn is in no compiler's choice. */
void drawn_as(uint64_t sum);

/* For a group that makes its calls by itself: how many, and what prints its case. */
void count_calls(uint64_t calls);
void print_with(void (*print)(void));

/* Words for the group's line, after its number of calls. */
void say(const char *words, ...) __attribute__((format(printf, 1, 2)));

/* Sets up the engines and the answer to a crash. */
void check_prepare(void);

/* Runs a group and prints its line; whether it passed. */
bool check_run(const char *name, void (*group)(void));

/* Prints the last line; the exit status. */
int check_end(void);

#endif
