/* logs.c: the log that is lent to a case's call. See logs.h. */
#include "logs.h"

#include <stdio.h>
#include <string.h>

enum { BLOCK = ZIKHRODAN_BLOCK_LEN, ROW = ZIKHRODAN_SAMPLE_LEN };
enum { COUNT_AT = 4, ROOM_AT = 5, SUMMARY_AT = 501, MARK_AT = 504, SUM_AT = 510 };

static uint8_t lent[BLOCK * (MOST_USED + 1) + 1], remembered[sizeof lent];
static uint8_t end_of_it[2 * BLOCK]; /* the last used block and the one behind it, as they were set up */

static uint8_t *last_used(const struct one_call *c)
{
    return lent + BLOCK * (c->used - 1);
}

/* ---- what is lent */

static unsigned sum_of(const uint8_t *block)
{
    unsigned sum = 0;

    for (unsigned i = 0; i < SUM_AT; i++)
        sum += block[i];
    return sum;
}

static void put_sum(uint8_t *block, unsigned sum)
{
    block[SUM_AT] = (uint8_t)(sum >> 8);
    block[SUM_AT + 1] = (uint8_t)sum;
}

/* A block without its number and its sum. All its samples are the same, so their OR is any one of them. */
static void make_model(const struct one_call *c, unsigned count, uint8_t model[BLOCK])
{
    memset(model, 0, BLOCK);
    model[COUNT_AT] = (uint8_t)count;
    for (unsigned i = 0; i < count; i++)
        memcpy(model + ROOM_AT + i * ROW, c->sample, ROW);
    if (c->summaries == OLD)
        return;
    for (unsigned i = SUMMARY_AT; i < MARK_AT; i++)
        model[i] = c->summaries == EVERY_BIT ? 0xff : count ? c->sample[i - SUMMARY_AT] : 0;
    model[MARK_AT] = 1;
}

/* Blocks of a number and on, as many as `many`; no block is added up anew, as there may be many. */
static void write_blocks(const struct one_call *c, uint32_t number, uint64_t many, unsigned count)
{
    uint8_t model[BLOCK];

    make_model(c, count, model);
    unsigned sum_of_model = sum_of(model);
    for (; many; many--, number++) {
        uint8_t *block = lent + BLOCK * (number - 1);
        unsigned sum = sum_of_model;
        memcpy(block, model, BLOCK);
        for (unsigned i = 0; i < 4; i++) {
            block[i] = (uint8_t)(number >> (24 - 8 * i));
            sum += block[i];
        }
        put_sum(block, sum);
    }
}

/* One sample of a block gets the bit that is searched for, and so does its summary, if it has one. */
static void raise_bit(const struct one_call *c, uint8_t *block, unsigned sample)
{
    uint8_t mask = (uint8_t)(1u << c->bit % 8);

    block[ROOM_AT + sample * ROW + c->bit / 8] |= mask;
    if (c->summaries != OLD)
        block[SUMMARY_AT + c->bit / 8] |= mask;
    put_sum(block, sum_of(block));
}

void set_up_log(const struct one_call *c)
{
    write_blocks(c, 1, c->used - 1, c->each);
    write_blocks(c, (uint32_t)c->used, 1, c->last);
    if (c->call == LOG_FIRST && c->position == THE_FIRST)
        raise_bit(c, lent, 0);
    if (c->call == LOG_FIRST && c->position == THE_LAST)
        raise_bit(c, last_used(c), c->last - 1);
    memset(last_used(c) + BLOCK, 0xa5, BLOCK);
    lent[BLOCK - 1] += c->wrong == FIRST_BLOCK;
    last_used(c)[BLOCK - 1] += c->wrong == LAST_BLOCK;
    if (c->wrong == LAST_COUNT)
        last_used(c)[COUNT_AT] = ZIKHRODAN_BLOCK_SAMPLES + 1;
    memcpy(end_of_it, last_used(c), sizeof end_of_it);
}

void put_back_log(const struct one_call *c)
{
    memcpy(last_used(c), end_of_it, sizeof end_of_it);
}

/* ---- the call */

static uint64_t position_of(const struct one_call *c)
{
    uint64_t samples = c->each * (c->used - 1) + c->last;

    return c->position == THE_FIRST ? 0 : c->position == THE_LAST ? samples - 1 : samples;
}

uint64_t make_log(const struct one_call *c)
{
    size_t len = BLOCK * (c->used + (c->wrong != NONE_UNUSED)) + (c->wrong == LOG_SIZE);

    switch (c->call) {
    case LOG_ADD: return zikhrodan_log_add(lent, len, c->used, c->sample, ROW - (c->wrong == SAMPLE_SIZE));
    case LOG_POWER_UP: return zikhrodan_log_power_up(lent, len, c->used);
    case LOG_SAMPLE: return zikhrodan_log_sample(lent, len, c->used, position_of(c));
    default: return zikhrodan_log_first(lent, len, c->used, c->bit);
    }
}

bool is_found(const struct one_call *c, uint64_t answer)
{
    bool none = c->refusal || c->position == PAST_THE_LAST;

    return zikhrodan_log_value(answer) == (none ? 0 : position_of(c) + 1);
}

/* ---- show */

void remember_log(void)
{
    memcpy(remembered, lent, sizeof lent);
}

void show_log(void)
{
    for (size_t i = 0; i < sizeof lent; i++)
        if (lent[i] != remembered[i])
            printf("log %zu %02x\n", i, lent[i]);
}
