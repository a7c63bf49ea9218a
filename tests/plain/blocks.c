/* blocks.c: a block's number, count, room and ending. See blocks.h. */
#include "blocks.h"

#include <string.h>

enum { COUNT_AT = 4, ROOM_AT = 5, ENDING_AT = 501, MARK_AT = 504, SUM_AT = 510, STATUS_LEN = 3 };

uint32_t block_number(const uint8_t *block)
{
    uint32_t number = 0;

    for (unsigned i = 0; i < 4; i++)
        number = number << 8 | block[i];
    return number;
}

unsigned block_count(const uint8_t *block)
{
    return block[COUNT_AT];
}

unsigned sample_start(unsigned sample)
{
    return ROOM_AT + SAMPLE_LEN * sample;
}

/* ---- The summary */

uint32_t status_at(const uint8_t *three_bytes)
{
    uint32_t status = 0;

    for (unsigned i = 0; i < STATUS_LEN; i++)
        status |= (uint32_t)three_bytes[i] << 8 * i;
    return status;
}

unsigned block_mark(const uint8_t *block)
{
    return block[MARK_AT];
}

uint32_t block_summary(const uint8_t *block)
{
    return status_at(block + ENDING_AT);
}

/* What bytes 501 to 504 of a block with a summary have to be; they come as zeros. */
static void find_summary(const uint8_t *block, uint8_t *summary)
{
    unsigned count = block_count(block);

    for (unsigned i = 0; i < STATUS_LEN; i++)
        for (unsigned sample = 0; sample < count; sample++)
            summary[i] |= block[sample_start(sample) + i];
    summary[MARK_AT - ENDING_AT] = MARK;
}

/* ---- The ending */

static unsigned sum_of(const uint8_t *bytes, unsigned len)
{
    unsigned total = 0;

    for (unsigned i = 0; i < len; i++)
        total += bytes[i];
    return total;
}

/* What bytes 501 to 511 have to be, by those before them: the summary and its mark, or zeros for both; zeros; and the sum of all
 * that comes before the sum. */
static void find_ending(const uint8_t *block, bool with_summary, uint8_t ending[BLOCK_LEN - ENDING_AT])
{
    unsigned sum_in_it = SUM_AT - ENDING_AT;

    memset(ending, 0, sum_in_it);
    if (with_summary)
        find_summary(block, ending);
    unsigned total = sum_of(block, ENDING_AT) + sum_of(ending, sum_in_it);
    ending[sum_in_it] = (uint8_t)(total / 256 % 256);
    ending[sum_in_it + 1] = (uint8_t)(total % 256);
}

static void write_ending(uint8_t *block, bool with_summary)
{
    uint8_t ending[BLOCK_LEN - ENDING_AT];

    find_ending(block, with_summary, ending);
    memcpy(block + ENDING_AT, ending, sizeof ending);
}

static bool has_ending(const uint8_t *block, bool with_summary)
{
    uint8_t ending[BLOCK_LEN - ENDING_AT];

    find_ending(block, with_summary, ending);
    return memcmp(block + ENDING_AT, ending, sizeof ending) == 0;
}

/* ---- The block */

static bool unused_room_is_zero(const uint8_t *block)
{
    for (unsigned i = sample_start(block_count(block)); i < ENDING_AT; i++)
        if (block[i] != 0)
            return false;
    return true;
}

bool sound_block(const uint8_t *block)
{
    if (block_count(block) > BLOCK_SAMPLES || !unused_room_is_zero(block))
        return false;
    return has_ending(block, true) || has_ending(block, false);
}

/* All of a block but its ending, which is zeros. */
static void write_front(uint8_t *block, uint32_t number, unsigned count, const uint8_t *samples)
{
    memset(block, 0, BLOCK_LEN);
    for (unsigned i = 0; i < 4; i++)
        block[i] = (uint8_t)(number >> (24 - 8 * i));
    block[COUNT_AT] = (uint8_t)count;
    memcpy(block + ROOM_AT, samples, (size_t)count * SAMPLE_LEN);
}

void write_block(uint8_t *block, uint32_t number, unsigned count, const uint8_t *samples)
{
    write_front(block, number, count, samples);
    write_ending(block, true);
}

void write_old_block(uint8_t *block, uint32_t number, unsigned count, const uint8_t *samples)
{
    write_front(block, number, count, samples);
    write_ending(block, false);
}
