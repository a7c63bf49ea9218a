/* log_summaries.c: which endings of a block are sound, and the summaries that adding and power-up write: in a new block, and in
 * one that had none. */
#include "both.h"
#include "check.h"
#include "groups.h"
#include "log_cases.h"
#include "random.h"

#include <string.h>

static const uint8_t some_counts[] = { 0, 1, 2, 15, 16 };

/* A log of one block, sound or not, by one of the calls by turns. */
static void expect(const uint8_t *log, bool sound)
{
    static unsigned turn;
    unsigned count = log[COUNT_AT];
    begin_log(log, 2 * BLOCK_LEN);
    switch (turn++ % 3) {
    case 0:
        try_expecting(a_log_sample(1, 0), sound ? count ? 0 : 17 : 15);
        break;
    case 1:
        try_expecting(a_log_add(1, quiet_sample()), sound ? 0 : 15);
        break;
    default:
        try_expecting(a_log_power_up(1), sound ? 0 : 15);
    }
}

/* Every mark with this in bytes 501 to 503, and a right sum. */
static void each_mark(uint8_t *log, uint32_t summary, uint32_t right)
{
    set_status(log + SUMMARY_AT, summary);
    for (unsigned mark = 0; mark <= 255; mark++) {
        log[MARK_AT] = (uint8_t)mark;
        set_sum(log);
        expect(log, (mark == 1 && summary == right) || (mark == 0 && summary == 0));
    }
}

/* Every mark with the right summary, none, all bits, those bytes the other way round, and each bit too many or too few. */
static void endings(unsigned count, bool status)
{
    uint8_t *log = log_memory();
    make_block(log, 1, count);
    for (unsigned i = 0; i < count; i++)
        set_status(sample_in(log, i), !status ? 0 : (uint32_t)(random_number() & random_number() & random_number()));
    uint32_t right = status_of_all(log);
    each_mark(log, right, right);
    each_mark(log, 0, right);
    each_mark(log, (1u << STATUS_BITS) - 1, right);
    each_mark(log, right >> 16 | (right & 0xff00) | (right & 0xff) << 16, right);
    for (unsigned bit = 0; bit < STATUS_BITS; bit++)
        each_mark(log, right ^ 1u << bit, right);
}

/* Every value of bytes 505 to 509, one at a time, of a block with a summary and of one without. */
static void zeros(unsigned count, bool summary)
{
    uint8_t *log = log_memory();
    make_block(log, 1, count);
    set_summary(log, summary);
    for (unsigned place = MARK_AT + 1; place < SUM_AT; place++) {
        for (unsigned value = 0; value <= 255; value++) {
            log[place] = (uint8_t)value;
            set_sum(log);
            expect(log, value == 0);
        }
        log[place] = 0;
    }
}

/* Two blocks are used, each with a summary or without, and the second takes a sample, or a third one is opened for it, or by a
 * power-up: that one block is written, with a summary over all its samples, and no other. */
static void written(unsigned count, unsigned summaries, bool sample)
{
    uint8_t expected[4 * BLOCK_LEN], *log = log_memory();
    struct bytes added = quiet_sample();
    make_log(log, 2, 5, count);
    for (unsigned i = 0; i < 2; i++)
        set_summary(log + BLOCK_LEN * i, summaries >> i & 1);
    memcpy(expected, log, sizeof expected);
    bool opened = !sample || count == BLOCK_SAMPLES;
    uint8_t *block = expected + BLOCK_LEN * (opened ? 2 : 1);
    if (opened)
        make_block(block, 7, 0);
    if (sample)
        memcpy(sample_in(block, block[COUNT_AT]++), added.at, SAMPLE_LEN);
    set_summary(block, true);
    begin_log(log, sizeof expected);
    try_expecting(sample ? a_log_add(2, added) : a_log_power_up(2), 0);
    if (memcmp(both_state(), expected, sizeof expected))
        mismatch("the log isn't as document 02 has it");
    read_and_ask(opened ? 3 : 2);
}

/* A sample with one status bit after so many without any, in a block with a summary or without; one without any after it. */
static void one_bit(unsigned count, unsigned bit, bool summary)
{
    uint8_t *log = log_memory(), sample[SAMPLE_LEN] = { 0 };
    struct bytes added = { sample, sizeof sample };
    make_block(log, 1, count);
    for (unsigned i = 0; i < count; i++)
        set_status(sample_in(log, i), 0);
    set_summary(log, summary);
    begin_log(log, BLOCK_LEN);
    set_status(sample, 1u << bit);
    for (unsigned n = count; n < count + 2 && n < BLOCK_SAMPLES; n++) {
        try_expecting(a_log_add(1, added), 0);
        if (status_of(both_state() + SUMMARY_AT) != 1u << bit || both_state()[MARK_AT] != 1)
            mismatch("the summary isn't of bit %u alone", bit);
        set_status(sample, 0);
    }
    ask_expecting(1, bit, count + 1);
}

void group_log_summaries(void)
{
    random_seed(options.seed);
    for (unsigned i = 0; i < COUNT(some_counts); i++)
        for (unsigned other = 0; other <= 1; other++) {
            endings(some_counts[i], other);
            zeros(some_counts[i], other);
        }
    for (unsigned count = 0; count <= BLOCK_SAMPLES; count++)
        for (unsigned i = 0; i < 64; i++)
            written(count, i % 4, i / 4 % 4 != 0);
    for (unsigned count = 0; count < BLOCK_SAMPLES; count++)
        for (unsigned i = 0; i < 2 * STATUS_BITS; i++)
            one_bit(count, i / 2, i % 2);
}
