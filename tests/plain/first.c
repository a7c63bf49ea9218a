/* first.c: Ask 9's question. The log is laid out as a list of all its samples, one after the other: a sample's place in the list
 * is its position. See log.h. */
#include "log.h"
#include "blocks.h"

#include <stdio.h>
#include <stdlib.h>

enum { STATUS_BITS = 24 };

/* What is seen of each sample: its status bits, and none of a sample whose block is passed over. The memory is taken again by the
 * next call, what is in it isn't. */
static uint32_t *list;
static size_t samples, room;

static void one_more(uint32_t status)
{
    if (samples == room) {
        room = 2 * room + 256;
        list = realloc(list, room * sizeof list[0]);
        if (!list) {
            fputs("plain: out of memory\n", stderr);
            exit(2);
        }
    }
    list[samples++] = status;
}

/* ---- The list */

static bool has(uint32_t status, uint64_t bit)
{
    return status >> bit & 1;
}

static bool passed_over(const uint8_t *block, uint64_t bit)
{
    return block_mark(block) == MARK && !has(block_summary(block), bit);
}

static void lay_out(const uint8_t *block, uint64_t bit)
{
    bool unseen = passed_over(block, bit);

    for (unsigned i = 0; i < block_count(block); i++)
        one_more(unseen ? 0 : status_at(block + sample_start(i)));
}

/* The least position whose sample is seen with the bit, plus 1; 0 for none. */
static uint64_t least(const uint8_t *log, uint64_t used, uint64_t bit)
{
    samples = 0;
    for (uint64_t i = 0; i < used; i++)
        lay_out(log + BLOCK_LEN * i, bit);
    for (size_t position = 0; position < samples; position++)
        if (has(list[position], bit))
            return position + 1;
    return 0;
}

/* ---- The question */

/* Refusal 15: of a used block the question asks for its count alone. */
static bool uncountable(const uint8_t *log, size_t log_len, uint64_t used)
{
    if (log_len % BLOCK_LEN != 0 || used > log_len / BLOCK_LEN)
        return true;
    for (uint64_t i = 0; i < used; i++)
        if (block_count(log + BLOCK_LEN * i) > BLOCK_SAMPLES)
            return true;
    return false;
}

uint64_t plain_log_first(const uint8_t *log, size_t log_len, uint64_t used, uint64_t bit)
{
    if (uncountable(log, log_len, used))
        return 15;
    if (bit >= STATUS_BITS)
        return 17;
    return least(log, used, bit) << 8;
}
