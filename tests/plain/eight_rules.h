/* eight_rules.h: what document 02's Ask 6 says of bytes alone: a state of 98, a sample. Nothing here knows of earlier calls.
 *
 * "9.0" is bit 0 of byte 9. Flag bytes and mask bytes are named by their addresses, 3 to 16 and 102 to 115; the pending bits and
 * the conditions of the last accepted sample have none, and go by those of the flags. */
#ifndef EIGHT_RULES_H
#define EIGHT_RULES_H

#include "rules.h"

enum { DD_STATE_LEN = 98, DD_SAMPLE_LEN = 14, DD_ADDRESSES = 128 };
enum { DD_FIRST_FLAG = 3, DD_LAST_FLAG = 16, DD_FIRST_MASK = 102, DD_LAST_MASK = 115 };

/* ---- The 98 bytes: the conditions of the last accepted sample, then a record of 42 bytes for each port */

#define DD_RECORD(port) (14 + 42 * ((port) - 1))
#define DD_BEFORE(flag) ((flag) - DD_FIRST_FLAG)
#define DD_FLAGS(port, flag) (DD_RECORD(port) + (flag) - DD_FIRST_FLAG)
#define DD_MASKS(port, mask) (DD_RECORD(port) + 14 + (mask) - DD_FIRST_MASK)
#define DD_PENDING(port, flag) (DD_RECORD(port) + 28 + (flag) - DD_FIRST_FLAG)

/* The bits of a flag byte that are flags, and of a mask byte that are masks of flags. */
LINKAGE uint8_t dd_flag_bits(unsigned flag);
LINKAGE uint8_t dd_mask_bits(unsigned mask);

LINKAGE bool dd_sound(const uint8_t *state, enum port port);

/* The number of pending bits that the port's masks let through. */
LINKAGE unsigned dd_let_through(const uint8_t *state, enum port port);

/* The byte that a port finds at an address. */
LINKAGE uint8_t dd_seen(const uint8_t *before, enum port port, unsigned address);

/* ---- Refusals, from 2 on; 0 where there is none */

LINKAGE uint32_t dd_sample_refusal(const uint8_t *state, size_t sample_len);
LINKAGE uint32_t dd_read_refusal(const uint8_t *state, uint64_t port, uint64_t address, uint64_t count, size_t out_len);
LINKAGE uint32_t dd_write_refusal(const uint8_t *state, uint64_t port, uint64_t address, uint64_t count);

#endif
