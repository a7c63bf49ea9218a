/* eight.h: the eight-channel module of document 02's Ask 6 in plain C, written from that paper and document 002's tables and not
 * from the library's code, to compare the library with.
 *
 * It is a module as of plain.h, one that began with 98 bytes: no flag, mask or pending bit is kept, nor the conditions before. */
#ifndef EIGHT_H
#define EIGHT_H

#include "plain.h"

uint32_t plain_dd_reset(struct plain *m);
uint32_t plain_dd_sample(struct plain *m, const uint8_t *sample, size_t sample_len);
uint32_t plain_dd_read(struct plain *m, uint64_t port, uint64_t address, uint64_t count, uint8_t *out, size_t out_len);
uint32_t plain_dd_write(struct plain *m, uint64_t port, uint64_t address, const uint8_t *data, size_t data_len);

#endif
