/* engines.h: one call on either engine. */
#ifndef ENGINES_H
#define ENGINES_H

#include "call.h"

#include "../plain/plain.h"

/* The memory that a call works on. The plain engine keeps a module's state itself; its log is lent, as the library's. */
struct lent {
    uint8_t *state;                 /* or the log */
    size_t state_len;
    const uint8_t *first, *second;
    uint8_t *out;
};

/* The answer, a double's bits. */
uint64_t by_library(const struct call *call, const struct lent *lent);
uint64_t by_plain(const struct call *call, const struct lent *lent, struct plain *plain);

/* Which engine is at work, for the answer to a crash. */
const char *at_work(void);

#endif
