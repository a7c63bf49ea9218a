/* rules.h: what document 01 says of bytes alone: a state of 688, a sample, an image, a page. Nothing here knows of earlier calls.
 * The rules stand in rules.c, ports.c, refusals.c and values.c.
 *
 * An address (0 to 255) is what a host says; a place (0 to 687) is where a byte lies in the state. */
#ifndef RULES_H
#define RULES_H

#include <stdbool.h>
#include <stddef.h>
#include <stdint.h>

/* `static` in a program that includes the sources of the rules and does not link them: bench/direct.c. */
#ifndef LINKAGE
#define LINKAGE
#endif

enum { STATE_LEN = 688, IMAGE_LEN = 640, SAMPLE_LEN = 31, PAGE_LEN = 128 };

enum port { OPERATOR = 1, RECORDER = 2 };

/* The places of a page's addresses 128 to 255, and the first of a port's record. */
#define PAGE_00(address) (address)
#define PAGE_02(address) (256 + (address))
#define PAGE_03(address) (384 + (address))
#define RECORD(port) (640 + 24 * ((port) - 1))

/* ---- The 688 bytes */

LINKAGE unsigned place_of(unsigned page, unsigned address);
LINKAGE unsigned address_of(unsigned place);

/* Whether each port has a byte of its own for this place, in its record. */
LINKAGE bool in_records(unsigned place);

/* Where the byte that a port has for this place lies: in its record, or there itself. */
LINKAGE unsigned lies_at(enum port port, unsigned place);

LINKAGE bool supported(const uint8_t *state, unsigned page);
LINKAGE bool sound(const uint8_t *state, enum port port);

/* ---- The count */

/* The number of raised flags that the port's masks let through. */
LINKAGE unsigned let_through(const uint8_t *state, enum port port);

/* ---- Reset */

/* Of a page 00h. */
LINKAGE bool check_codes_right(const uint8_t *page);

/* Makes the state before a reset into the one that it leaves. */
LINKAGE void reset_to(uint8_t *state, const uint8_t *image);

/* ---- Samples and conditions */

enum { TEMPERATURE, SUPPLY, RX_POWER, TX_BIAS, TX_POWER };

struct quantity {
    unsigned channels;
    unsigned sample_at; /* where its numbers begin in a sample, */
    unsigned stored_at; /* and in lower memory, */
    unsigned limits_at; /* and its thresholds in page 03h */
};
extern const struct quantity QUANTITIES[5];

LINKAGE bool tx_power_offered(const uint8_t *state);
LINKAGE int number(unsigned quantity, const uint8_t *two_bytes);
LINKAGE void store_numbers(uint8_t *state, const uint8_t *sample);

/* The conditions of a sample, as the bits of one of the flag bytes 3 to 14. */
LINKAGE uint8_t conditions(const uint8_t *state, const uint8_t *sample, unsigned flag);

/* ---- Reading and writing */

/* The byte that a port finds at an address. */
LINKAGE uint8_t seen(const uint8_t *before, enum port port, unsigned address);

/* What a place holds once a byte has been written over the old one. */
LINKAGE uint8_t written_over(const uint8_t *state, unsigned place, uint8_t old, uint8_t byte);

LINKAGE bool recorders_own(unsigned place);

/* ---- Refusals, from 2 on; 0 where there is none */

LINKAGE uint32_t reset_refusal(const uint8_t *image, size_t image_len);
LINKAGE uint32_t sample_refusal(const uint8_t *state, size_t sample_len);
LINKAGE uint32_t read_refusal(const uint8_t *state, uint64_t port, uint64_t address, uint64_t count, size_t out_len);
LINKAGE uint32_t write_refusal(const uint8_t *state, uint64_t port, uint64_t address, uint64_t count);

/* ---- Identity, monitors, limits. Answers are packed as in zikhrodan.h; a value that there isn't is 0.0. */

LINKAGE uint32_t identity_field(const uint8_t *live, size_t live_len, const uint8_t *factory, size_t factory_len, uint64_t field);
LINKAGE uint32_t kind_of_monitor(const uint8_t *state, uint64_t monitor);
LINKAGE double value_of_monitor(const uint8_t *state, uint64_t monitor);
LINKAGE uint32_t refusal_of_limits(uint64_t quantity);
LINKAGE double limit_of(const uint8_t *state, uint64_t quantity, uint64_t which);

#endif
