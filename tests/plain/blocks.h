/* blocks.h: what document 02's Asks 1 and 9 say of the bytes of one block of a log. The rules stand in blocks.c; for LINKAGE
 * see rules.h. */
#ifndef BLOCKS_H
#define BLOCKS_H

#include "rules.h"

enum { BLOCK_LEN = 512, BLOCK_SAMPLES = 16 };

/* The highest number that a block can have. */
#define LAST_NUMBER 4294967295u

/* What a block says of itself. */
LINKAGE uint32_t block_number(const uint8_t *block);
LINKAGE unsigned block_count(const uint8_t *block);

/* Where in a block a sample starts, from 0 on. */
LINKAGE unsigned sample_start(unsigned sample);

LINKAGE bool sound_block(const uint8_t *block);

/* The status bytes that a sample starts with, as one number: its bits are numbered as the question's are. */
LINKAGE uint32_t status_at(const uint8_t *three_bytes);

/* What stands in a block, sound or not, where its mark and its summary are, if it has them. */
enum { MARK = 1 };
LINKAGE unsigned block_mark(const uint8_t *block);
LINKAGE uint32_t block_summary(const uint8_t *block);

/* All 512 bytes of a block with this number and these samples, one right after the other: with a summary; without one. */
LINKAGE void write_block(uint8_t *block, uint32_t number, unsigned count, const uint8_t *samples);
LINKAGE void write_old_block(uint8_t *block, uint32_t number, unsigned count, const uint8_t *samples);

#endif
