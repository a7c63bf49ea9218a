/* log.c: the calls on a log but the question, each on the list of its blocks. See log.h. */
#include "log.h"
#include "blocks.h"

#include <stdio.h>
#include <stdlib.h>
#include <string.h>

struct block {
    uint32_t number;
    bool summary;
    unsigned count;
    uint8_t samples[BLOCK_SAMPLES * SAMPLE_LEN];
};

/* The used blocks of the log that the call is about. The memory is taken again by the next call, what is in it isn't. */
static struct block *list;
static size_t blocks, room;

static struct block *one_more(void)
{
    if (blocks == room) {
        room = 2 * room + 16;
        list = realloc(list, room * sizeof list[0]);
        if (!list) {
            fputs("plain: out of memory\n", stderr);
            exit(2);
        }
    }
    return &list[blocks++];
}

/* ---- From bytes to the list and back */

static bool follows(uint32_t number, uint32_t before)
{
    return before < LAST_NUMBER && number == before + 1;
}

/* Fills the list; false for what is refused 15. */
static bool take_apart(const uint8_t *log, size_t log_len, uint64_t used)
{
    blocks = 0;
    if (log_len % BLOCK_LEN != 0 || used > log_len / BLOCK_LEN)
        return false;
    for (uint64_t i = 0; i < used; i++) {
        const uint8_t *bytes = log + BLOCK_LEN * i;
        if (!sound_block(bytes))
            return false;
        struct block *b = one_more();
        b->number = block_number(bytes);
        b->summary = block_mark(bytes) == MARK;
        b->count = block_count(bytes);
        memcpy(b->samples, bytes + sample_start(0), sizeof b->samples);
        if (i > 0 && !follows(b->number, b[-1].number))
            return false;
    }
    return true;
}

/* Writes all blocks of the list; the answer of an accepted call that may have made it longer. A block that the call didn't change
 * is as it was, with a summary or without. */
static uint64_t put_together(uint8_t *log)
{
    for (size_t i = 0; i < blocks; i++) {
        const struct block *b = &list[i];
        if (b->summary)
            write_block(log + BLOCK_LEN * i, b->number, b->count, b->samples);
        else
            write_old_block(log + BLOCK_LEN * i, b->number, b->count, b->samples);
    }
    return blocks << 8;
}

/* ---- New blocks */

static struct block *last_block(void)
{
    return blocks > 0 ? &list[blocks - 1] : NULL;
}

static bool no_new_block(size_t log_len)
{
    const struct block *last = last_block();

    return blocks == log_len / BLOCK_LEN || (last && last->number == LAST_NUMBER);
}

static void new_block(void)
{
    const struct block *last = last_block();
    uint32_t number = last ? last->number + 1 : 1;

    *one_more() = (struct block){.number = number, .summary = true};
}

/* Whether a sample has no room in the last block. */
static bool needs_new_block(void)
{
    const struct block *last = last_block();

    return !last || last->count == BLOCK_SAMPLES;
}

/* ---- The calls */

uint64_t plain_log_add(uint8_t *log, size_t log_len, uint64_t used, const uint8_t *sample, size_t sample_len)
{
    if (sample_len != SAMPLE_LEN)
        return 8;
    if (!take_apart(log, log_len, used))
        return 15;
    if (needs_new_block()) {
        if (no_new_block(log_len))
            return 14;
        new_block();
    }
    struct block *last = last_block();
    memcpy(last->samples + SAMPLE_LEN * last->count, sample, SAMPLE_LEN);
    last->count++;
    last->summary = true;
    return put_together(log);
}

uint64_t plain_log_power_up(uint8_t *log, size_t log_len, uint64_t used)
{
    if (!take_apart(log, log_len, used))
        return 15;
    if (no_new_block(log_len))
        return 14;
    new_block();
    return put_together(log);
}

uint64_t plain_log_sample(const uint8_t *log, size_t log_len, uint64_t used, uint64_t position)
{
    if (!take_apart(log, log_len, used))
        return 15;
    for (size_t i = 0; i < blocks; i++) {
        if (position < list[i].count)
            return (BLOCK_LEN * i + sample_start((unsigned)position)) << 8;
        position -= list[i].count;
    }
    return 17;
}
