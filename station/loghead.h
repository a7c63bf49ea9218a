/* loghead.h: the head of a log's file: two slots, of which one holds; after a commit that was not cut off both say the same.
 *
 * A slot is 2048 bytes: the magic "zikhrodan log 1\n" (16 bytes), a serial number (8 bytes, high byte first), the number of
 * blocks of the file (8), the used number (8), the place of the copied block (8), a copy of that block (512), zeros, and in the
 * last 4 bytes a CRC-32 of those before it. Of the slots that are right and fit the file's length the one with the higher serial
 * number holds, and of two with the same number, which say the same, the first. A slot that is damaged, or was torn while it was
 * written, is not right, and then the other one holds: of the same commit, or where one was cut off of that before it.
 * A slot is wiped by writing WIPED_FRONT over its first sector, which a disk does whole or not at all. */
#ifndef LOGHEAD_H
#define LOGHEAD_H

#include <stdbool.h>
#include <stddef.h>
#include <stdint.h>
#include <sys/types.h>
#include <zikhrodan.h>

enum { SLOTS = 2, SLOT_LEN = 2048, HEAD_LEN = SLOTS * SLOT_LEN };

struct slot {
    uint64_t serial, blocks, used, place;
    uint8_t copy[ZIKHRODAN_BLOCK_LEN]; /* of the block at `place`, counted from 0; of none where no block is used */
};

/* How long a file of so many blocks is. */
off_t log_length(uint64_t blocks);

void slot_write(const struct slot *slot, uint8_t bytes[SLOT_LEN]);

extern const uint8_t WIPED_FRONT[ZIKHRODAN_BLOCK_LEN];

/* Whether bytes begin as a slot does that is written, or one that is wiped; where they end before its magic does, as far as they
 * go, if that is as far as a row of either kind. */
bool begins_slot(const uint8_t *bytes, size_t len);

/* What the bytes of a slot are, from bad to good: nothing of a log's; all zero, as of a new log; wiped; damaged; right, but of a
 * file of another length; right. */
enum verdict { NO_SLOT, UNWRITTEN, WIPED, DAMAGED, MISFIT, RIGHT };
enum verdict slot_read(struct slot *slot, const uint8_t bytes[SLOT_LEN], off_t length);

#endif
