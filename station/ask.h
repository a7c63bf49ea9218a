/* ask.h: what the library says of a state. Each question is asked on a copy, so that the state stays as it is.
 *
 * The library alone decides: a port's flags, masks and page are what it reads, what is outside its limits is found by feeding the
 * stored numbers to a copy, whether a check code is right by the identity of a page that has the other one right. All that is
 * known here is where a byte lies; of an eight-channel module zikhrodan.h names it. */
#ifndef ASK_H
#define ASK_H

#include "state.h"

#include <stdbool.h>

struct port_view {
    uint32_t refusal;                 /* of a read by this port; where it isn't 0, the rest is 0 */
    unsigned count;                   /* of what the masks let through; the interrupt stands where it isn't 0 */
    unsigned page;                    /* selected */
    uint8_t flags[MOST_FLAG_BYTES];   /* raised */
    uint8_t pending[MOST_FLAG_BYTES]; /* the bits that the count is of: of document 01's module the flags */
};
struct port_view ask_port(const struct state *state, uint64_t port);

/* A port's masks, each at its flag's place: the flags that they hold back, if they are raised or were to be. All 0 where the port
 * is refused. */
void ask_masked(const struct state *state, uint64_t port, uint8_t masked[MOST_FLAG_BYTES]);

/* Whether a mask byte has a bit for the flag at a place: one that a write sets. */
bool ask_mask(const struct kind *kind, uint64_t mask_address, struct place at);

/* The limits that the stored numbers are outside of, as bits of the flag bytes; for a monitor that has measured nothing they say
 * nothing. All 0 where the library takes no such state. */
void ask_outside(const struct state *state, uint8_t outside[MOST_FLAG_BYTES]);

/* Whether a page 00h has its first check code right (of bytes 128 to 190) and its second (192 to 222). */
struct codes_view {
    bool first, second;
};
struct codes_view ask_codes(const uint8_t page[ZIKHRODAN_PAGE_LEN]);

/* A bit of flag bytes. */
static inline bool bit_at(const uint8_t *flags, struct place at)
{
    return flags[at.byte - FLAGS_AT] >> at.bit & 1;
}

#endif
