/* plain.h: a second engine, in plain C, written from document 01 and not from the library's code, to compare the library with.
 *
 * A module is the bytes that it began with and the list of the calls accepted since; it keeps no flag, no mask and no selected page:
 * what stands now is worked out from that list each time it is asked. Answers are packed as in zikhrodan.h. A module that began
 * with 98 bytes is of another kind: see eight.h. */
#ifndef PLAIN_H
#define PLAIN_H

#include <stddef.h>
#include <stdint.h>

struct plain;

/* A module without memory, or null if there is none to be had; to be given back with plain_free. */
struct plain *plain_new(void);
void plain_free(struct plain *m);

/* Begins with these bytes, any number of them; no call is in the list. */
void plain_begin(struct plain *m, const uint8_t *state, size_t len);

/* The bytes that the module's memory has to hold now: as many as it began with. */
void plain_state(const struct plain *m, uint8_t *state);

uint32_t plain_reset(struct plain *m, const uint8_t *image, size_t image_len);
uint32_t plain_sample(struct plain *m, const uint8_t *sample, size_t sample_len);
uint32_t plain_read(struct plain *m, uint64_t port, uint64_t address, uint64_t count, uint8_t *out, size_t out_len);
uint32_t plain_write(struct plain *m, uint64_t port, uint64_t address, const uint8_t *data, size_t data_len);

uint32_t plain_identity(const uint8_t *live, size_t live_len, const uint8_t *factory, size_t factory_len, uint64_t field);
uint32_t plain_monitor_kind(const struct plain *m, uint64_t number);
double plain_monitor_value(const struct plain *m, uint64_t number);
uint32_t plain_limits_refusal(const struct plain *m, uint64_t quantity);
double plain_limit(const struct plain *m, uint64_t quantity, uint64_t which);

#endif
