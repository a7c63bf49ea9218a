/* direct_log.c: the plain C engine's calls on a log: the blocks one after the other, and none written but the last. See direct.h.
 *
 * Where a block's parts lie is said in tests/plain/blocks.c, which is included as direct.c includes the other rules; a block is
 * checked, written and searched in ways of their own, below. */
#include "direct.h"
#include "../tests/plain/rules.h" /* whose functions are not used here */

#undef LINKAGE
#define LINKAGE static __attribute__((unused))
#include "../tests/plain/blocks.c"

enum { OR_AT = 501, MARKED_AT = 504, SPARE_AT = 505, BITS = 24 };

/* ---- a block */

/* Bytes 501 to 504 as they are written, the first lowest: the OR of all samples' status bytes, and the mark. */
static uint32_t or_and_mark(const uint8_t *block)
{
    uint32_t bits = (uint32_t)1 << 24;

    for (const uint8_t *s = block + ROOM_AT, *end = block + sample_start(block_count(block)); s < end; s += SAMPLE_LEN)
        bits |= (uint32_t)s[0] | (uint32_t)s[1] << 8 | (uint32_t)s[2] << 16;
    return bits;
}

/* Room that is not used is looked at once, and so are the samples, but for their status bytes where there is a summary. */
static bool sound_in_one_pass(const uint8_t *block)
{
    unsigned count = block_count(block), end = sample_start(count), sum = 0;
    uint32_t found = 0;
    uint8_t rest = 0;

    if (count > BLOCK_SAMPLES)
        return false;
    for (unsigned i = 0; i < end; i++)
        sum += block[i];
    for (unsigned i = end; i < OR_AT; i++)
        rest |= block[i];
    for (unsigned i = OR_AT; i < SPARE_AT; i++) {
        sum += block[i];
        found |= (uint32_t)block[i] << 8 * (i - OR_AT);
    }
    for (unsigned i = SPARE_AT; i < SUM_AT; i++)
        rest |= block[i];
    if (rest != 0 || block[SUM_AT] != (uint8_t)(sum >> 8) || block[SUM_AT + 1] != (uint8_t)sum)
        return false;
    return found == 0 || found == or_and_mark(block);
}

/* The summary and the sum of a block that has its number, count and samples. */
static void seal(uint8_t *block)
{
    uint32_t bits = or_and_mark(block);
    unsigned sum = 0;

    for (unsigned i = OR_AT; i < SPARE_AT; i++)
        block[i] = (uint8_t)(bits >> 8 * (i - OR_AT));
    for (unsigned i = 0; i < SUM_AT; i++)
        sum += block[i];
    block[SUM_AT] = (uint8_t)(sum >> 8);
    block[SUM_AT + 1] = (uint8_t)sum;
}

static void put_sample(uint8_t *block, const uint8_t *sample)
{
    memcpy(block + sample_start(block_count(block)), sample, SAMPLE_LEN);
    block[COUNT_AT]++;
}

/* ---- all used blocks */

static bool wrong_size(size_t log_len, uint64_t used)
{
    return log_len % BLOCK_LEN != 0 || used > log_len / BLOCK_LEN;
}

/* Refusal 15: the size, or any used block. */
static bool unsound(const uint8_t *log, size_t log_len, uint64_t used)
{
    if (wrong_size(log_len, used))
        return true;
    for (const uint8_t *block = log, *end = log + used * BLOCK_LEN; block < end; block += BLOCK_LEN) {
        if (!sound_in_one_pass(block))
            return true;
        if (block > log && block_number(block) != (uint64_t)block_number(block - BLOCK_LEN) + 1)
            return true;
    }
    return false;
}

/* Refusal 15 of a search, besides the size: the count of any block from one on. */
static bool wrong_count(const uint8_t *block, const uint8_t *end)
{
    for (; block < end; block += BLOCK_LEN)
        if (block_count(block) > BLOCK_SAMPLES)
            return true;
    return false;
}

/* Refusal 14, where a new block is needed. */
static bool none_left(const uint8_t *log, size_t log_len, uint64_t used)
{
    return used == log_len / BLOCK_LEN || (used && block_number(log + (used - 1) * BLOCK_LEN) == LAST_NUMBER);
}

/* A new block behind the used ones, with its number alone. */
static uint8_t *new_block(uint8_t *log, uint64_t used)
{
    uint8_t *block = log + used * BLOCK_LEN;
    uint32_t number = used ? block_number(block - BLOCK_LEN) + 1 : 1;

    memset(block, 0, BLOCK_LEN);
    for (unsigned i = 0; i < 4; i++)
        block[i] = (uint8_t)(number >> (24 - 8 * i));
    return block;
}

/* ---- the calls */

uint64_t direct_log_add(uint8_t *log, size_t log_len, uint64_t used, const uint8_t *sample, size_t sample_len)
{
    uint8_t *block;

    if (sample_len != SAMPLE_LEN)
        return 8;
    if (unsound(log, log_len, used))
        return 15;
    if (used && block_count(log + (used - 1) * BLOCK_LEN) < BLOCK_SAMPLES) {
        block = log + (used - 1) * BLOCK_LEN;
    } else {
        if (none_left(log, log_len, used))
            return 14;
        block = new_block(log, used++);
    }
    put_sample(block, sample);
    seal(block);
    return used << 8;
}

uint64_t direct_log_power_up(uint8_t *log, size_t log_len, uint64_t used)
{
    if (unsound(log, log_len, used))
        return 15;
    if (none_left(log, log_len, used))
        return 14;
    seal(new_block(log, used));
    return (used + 1) << 8;
}

uint64_t direct_log_sample(const uint8_t *log, size_t log_len, uint64_t used, uint64_t position)
{
    if (unsound(log, log_len, used))
        return 15;
    for (uint64_t i = 0; i < used; i++) {
        unsigned count = block_count(log + i * BLOCK_LEN);
        if (position < count)
            return (i * BLOCK_LEN + sample_start((unsigned)position)) << 8;
        position -= count;
    }
    return 17;
}

uint64_t direct_log_first(const uint8_t *log, size_t log_len, uint64_t used, uint64_t bit)
{
    if (wrong_size(log_len, used))
        return 15;
    const uint8_t *end = log + used * BLOCK_LEN;
    if (bit >= BITS)
        return wrong_count(log, end) ? 15 : 17;
    unsigned byte = (unsigned)bit / 8, mask = 1u << bit % 8;
    uint64_t position = 0;
    for (const uint8_t *block = log; block < end; block += BLOCK_LEN) {
        unsigned count = block_count(block);
        if (count > BLOCK_SAMPLES)
            return 15;
        if (block[MARKED_AT] != 1 || block[OR_AT + byte] & mask)
            for (unsigned i = 0; i < count; i++)
                if (block[sample_start(i) + byte] & mask)
                    return wrong_count(block + BLOCK_LEN, end) ? 15 : (position + i + 1) << 8;
        position += count;
    }
    return 0;
}
