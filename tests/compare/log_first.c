/* log_first.c: the question of the first sample with a status bit: every bit at every position of sound logs; and logs that are
 * not sound, on which the answer is fixed all the same. */
#include "check.h"
#include "groups.h"
#include "log_cases.h"
#include "random.h"

#include <string.h>

enum { MOST = 4 };
struct layout {
    unsigned blocks, counts[MOST];
};
static const struct layout layouts[] = {
    { 1, { 1 } }, { 1, { 16 } }, { 2, { 0, 16 } }, { 3, { 16, 0, 16 } }, { 3, { 16, 16, 1 } }, { 3, { 15, 16, 0 } },
    { 4, { 0, 0, 5, 0 } }, { 4, { 3, 0, 2, 16 } },
};

/* A block whose samples have these status bits, and no summary. */
static void make_with(uint8_t *block, uint32_t number, unsigned count, uint32_t status)
{
    make_block(block, number, count);
    for (unsigned i = 0; i < count; i++)
        set_status(sample_in(block, i), status);
    set_summary(block, false);
}

/* The one sample at a position that has a status bit, each bit in turn; it is asked for that bit and for another. */
static void one_sample(uint8_t *log, unsigned blocks, unsigned block, unsigned sample, uint64_t position, bool summary)
{
    uint8_t *at = log + BLOCK_LEN * block;
    for (unsigned bit = 0; bit < STATUS_BITS; bit++) {
        set_status(sample_in(at, sample), 1u << bit);
        set_summary(at, summary);
        begin_log(log, (blocks + 1) * BLOCK_LEN);
        ask_expecting(blocks, bit, position + 1);
        ask_expecting(blocks, (bit + 1 + random_below(STATUS_BITS - 1)) % STATUS_BITS, 0);
    }
    set_status(sample_in(at, sample), 0);
    set_summary(at, summary);
}

/* Every bit at every position of a layout, whose blocks have a summary as `summaries` has bits; the block after them has all. */
static void each_position(const struct layout *l, unsigned summaries)
{
    uint8_t *log = log_memory();
    uint64_t position = 0;
    for (unsigned i = 0; i < l->blocks; i++) {
        make_with(log + BLOCK_LEN * i, i + 1, l->counts[i], 0);
        set_summary(log + BLOCK_LEN * i, summaries >> i & 1);
    }
    make_with(log + BLOCK_LEN * l->blocks, l->blocks + 1, BLOCK_SAMPLES, UINT32_MAX);
    for (unsigned i = 0; i < l->blocks; i++)
        for (unsigned sample = 0; sample < l->counts[i]; sample++)
            one_sample(log, l->blocks, i, sample, position++, summaries >> i & 1);
}

/* As many blocks as there is memory for, and positions on both sides of 2^8, 2^9 and 2^10. */
static void long_logs(bool summaries)
{
    enum { BLOCKS = REGION / BLOCK_LEN - 1 };
    uint8_t *log = log_memory();
    for (unsigned i = 0; i < BLOCKS; i++) {
        make_with(log + BLOCK_LEN * i, i + 1, BLOCK_SAMPLES, 0);
        set_summary(log + BLOCK_LEN * i, summaries);
    }
    for (unsigned power = 8; power <= 10; power++)
        for (unsigned position = (1u << power) - 2; position < (1u << power) + 2; position++)
            one_sample(log, BLOCKS, position / BLOCK_SAMPLES, position % BLOCK_SAMPLES, position, summaries);
}

/* Random sound logs, and how much of them is used. */
static void sound_logs(void)
{
    for (unsigned i = 0; i < 400; i++) {
        uint8_t *log = log_memory();
        unsigned blocks = random_below(MOST_BLOCKS + 1);
        unsigned first = random_below(3), count = random_below(BLOCK_SAMPLES + 1);
        make_log(log, blocks, first, count);
        begin_log(log, blocks * BLOCK_LEN);
        read_and_ask(random_below(blocks + 1));
    }
}

/* Three blocks of any numbers and sums, the later two with each bit in a sample. The second has every mark there is, and a
 * summary that excludes the bit or has it, besides none of the others or all: it is passed over by mark 1 and the lie, and by
 * nothing else. */
static void marks(void)
{
    const uint32_t all = (1u << STATUS_BITS) - 1;
    uint8_t *log = log_memory();
    for (unsigned bit = 0; bit < STATUS_BITS; bit++) {
        for (unsigned i = 0; i < 3; i++)
            make_with(log + BLOCK_LEN * i, random_below(4), 4 + i, 0);
        set_status(sample_in(log + BLOCK_LEN, 3), 1u << bit);
        set_status(sample_in(log + 2 * BLOCK_LEN, 1), 1u << bit);
        for (unsigned mark = 0; mark <= 255; mark++)
            for (unsigned way = 0; way < 4; way++) {
                set_status(log + BLOCK_LEN + SUMMARY_AT, (way & 1 ? all & ~(1u << bit) : 0) | (way & 2 ? 1u << bit : 0));
                log[BLOCK_LEN + MARK_AT] = (uint8_t)mark;
                begin_log(log, 3 * BLOCK_LEN);
                ask_expecting(3, bit, mark == 1 && !(way & 2) ? 4 + 5 + 2 : 4 + 4);
            }
    }
}

/* Every count of every block of four, which is passed over or read; the sample is before it, after it or nowhere. */
static void counts(unsigned block, bool passed_over, unsigned found)
{
    uint8_t *log = log_memory();
    unsigned bit = random_below(STATUS_BITS);
    for (unsigned i = 0; i < MOST; i++)
        make_with(log + BLOCK_LEN * i, i + 1, i * 5, 0);
    if (found < MOST)
        set_status(sample_in(log + BLOCK_LEN * found, 0), 1u << bit);
    log[BLOCK_LEN * block + MARK_AT] = passed_over;
    for (unsigned count = 0; count <= 255; count++) {
        log[BLOCK_LEN * block + COUNT_AT] = (uint8_t)count;
        begin_log(log, MOST * BLOCK_LEN);
        try_expecting(a_log_first(MOST, bit), count > BLOCK_SAMPLES ? 15 : 0);
        try_expecting(a_log_first(MOST, STATUS_BITS), count > BLOCK_SAMPLES ? 15 : 17);
        try_expecting(a_log_first(block, bit), 0);
        try_expecting(a_log_first(block + 1, bit), count > BLOCK_SAMPLES ? 15 : 0);
    }
}

/* A block of random bytes, in all of whose room few status bits are, whose summary is right, empty, full or random. */
static void make_unsound_block(uint8_t *block)
{
    static const uint8_t likely[] = { 0, 1, 1, 1, 2, 255 };
    random_fill(block, BLOCK_LEN);
    block[COUNT_AT] = (uint8_t)(chance(98) ? random_below(BLOCK_SAMPLES + 1) : random_below(256));
    for (unsigned i = 0; i < BLOCK_SAMPLES; i++)
        set_status(sample_in(block, i), chance(80) ? 0 : (uint32_t)(random_number() & random_number() & random_number()));
    const uint32_t summaries[] = { status_of_all(block), 0, UINT32_MAX, (uint32_t)random_number(), status_of_all(block) };
    set_status(block + SUMMARY_AT, summaries[random_below(COUNT(summaries))]);
    block[MARK_AT] = chance(80) ? likely[random_below(COUNT(likely))] : (uint8_t)random_number();
}

static void unsound_logs(void)
{
    for (unsigned i = 0; i < 2500; i++) {
        uint8_t *log = log_memory();
        unsigned blocks = random_below(MOST_BLOCKS + 1);
        uint64_t used = chance(95) ? random_below(blocks + 1) : blocks + 1;
        for (unsigned n = 0; n < blocks; n++)
            make_unsound_block(log + BLOCK_LEN * n);
        begin_log(log, blocks * BLOCK_LEN + (chance(98) ? 0 : 1 + random_below(BLOCK_LEN - 1)));
        for (unsigned bit = 0; bit <= STATUS_BITS; bit++)
            try(a_log_first(used, bit));
    }
}

void group_log_first(void)
{
    random_seed(options.seed);
    for (unsigned i = 0; i < COUNT(layouts); i++)
        for (unsigned summaries = 0; summaries < 1u << layouts[i].blocks; summaries++)
            each_position(&layouts[i], summaries);
    long_logs(false);
    long_logs(true);
    sound_logs();
    marks();
    for (unsigned block = 0; block < MOST; block++)
        for (unsigned found = 1; found <= MOST; found++)
            for (unsigned passed_over = 0; passed_over <= 1; passed_over++)
                if (found != block)
                    counts(block, passed_over, found);
    unsound_logs();
}
