/* pair.h: two runs of one module on the library, either module, that begin with the same bytes and the same accepted reset. */
#ifndef PAIR_H
#define PAIR_H

#include "cases.h"
#include "text.h"

enum { OUTPUT_ROOM = 2048 };

/* What differs from one module to the other. */
struct module {
    size_t len, recorder_at, record_len;
    size_t untouched;                           /* so many bytes at its front no port's call changes */
    struct call (*right_reset)(void);           /* one that is accepted */
    struct call (*reset)(void);
    struct call (*sample)(const uint8_t *state);
    struct call (*read)(uint64_t port), (*write)(uint64_t port);
    bool eight;
};

struct run {
    uint8_t state[STATE_LEN], out[OUTPUT_ROOM]; /* the state has module->len bytes */
    uint64_t answer;
    struct list list;
};

extern const struct module *module;
extern struct run run_a, run_b;

/* From now on the two runs are of this module, and are printed where one differs from the other. */
void pair_of(const struct module *which);

/* Random bytes, and a reset that is accepted. */
void begin_both(void);

/* A call on one of them, or on both. */
void make_on(struct run *run, const struct call *call);
void make_on_both(const struct call *call);

#endif
