/* log_blocks.c: logs that grow from nothing to full, every count, and blocks' numbers at their ends, one after another. */
#include "both.h"
#include "check.h"
#include "groups.h"
#include "log_cases.h"
#include "random.h"

#include <string.h>

/* From nothing until a sample finds no room, a power-up before each so many samples, two at a time by turns; then what is full is
 * tried once more. On the way and at the end every sample is read, and every status bit asked for. */
static void grow(unsigned blocks, unsigned between)
{
    uint64_t used = 0, answer;
    begin_log(log_memory(), blocks * BLOCK_LEN);
    read_and_ask(0);
    for (unsigned i = 0;; i++) {
        for (unsigned n = 0; between && i % between == 0 && n <= i / between % 2; n++) {
            answer = try(a_log_power_up(used));
            used = answer & 0xff ? used : answer >> 8;
        }
        answer = try(a_log_add(used, i % 2 ? log_sample() : quiet_sample()));
        if (answer & 0xff)
            break;
        used = answer >> 8;
        if (i % 7 == 0)
            read_and_ask(used);
    }
    try(a_log_power_up(used));
    try(a_log_add(used, log_sample()));
    read_and_ask(used);
}

/* Every count with samples in all of the room and with none, in a block alone, in the first of two and in the second. */
static void counts(void)
{
    for (unsigned count = 0; count <= 255; count++)
        for (unsigned samples = 0; samples <= 1; samples++)
            for (unsigned block = 0; block <= 1; block++) {
                uint8_t *log = log_memory();
                make_log(log, 2, 1, 5);
                make_block(log + BLOCK_LEN * block, 1 + block, samples * BLOCK_SAMPLES);
                log[BLOCK_LEN * block + COUNT_AT] = (uint8_t)count;
                set_sum(log + BLOCK_LEN * block);
                for (uint64_t used = block + 1; used <= 2; used++)
                    each_log_call(log, 3 * BLOCK_LEN, used, random_below(40));
            }
}

/* Every number of these after every other, and after each of them those that follow; the last block empty, with room or full. */
static void numbers(void)
{
    static const uint8_t last[] = { 0, 15, BLOCK_SAMPLES };
    uint8_t *log = log_memory();
    for (unsigned i = 0; i < END_NUMBERS; i++)
        for (unsigned c = 0; c < COUNT(last); c++) {
            for (unsigned j = 0; j < END_NUMBERS; j++) {
                make_block(log, end_numbers[j], last[c]);
                make_block(log + BLOCK_LEN, end_numbers[i], last[c]);
                each_log_call(log, 3 * BLOCK_LEN, 2, random_below(40));
            }
            for (unsigned used = 1; used <= 3; used++)
                for (unsigned blocks = used; blocks <= used + 1; blocks++) {
                    make_log(log, used, end_numbers[i] + 1 - used, last[c]);
                    each_log_call(log, blocks * BLOCK_LEN, used, random_below(40));
                    make_log(log, used, end_numbers[i], last[c]);
                    each_log_call(log, blocks * BLOCK_LEN, used, random_below(40));
                }
        }
}

/* Samples whose bytes are all the same, so that the sum runs over every span; a count of 9 passes 65535 with bytes of 255. */
static void sums(void)
{
    uint8_t sample[SAMPLE_LEN];
    for (unsigned byte = 0; byte <= 255; byte += 15) {
        memset(sample, (int)byte, sizeof sample);
        begin_log(log_memory(), BLOCK_LEN);
        for (unsigned i = 0; i <= BLOCK_SAMPLES; i++)
            try_expecting(a_log_add(i > 0, (struct bytes){ sample, sizeof sample }), i < BLOCK_SAMPLES ? 0 : 14);
        read_and_ask(1);
    }
}

/* The block that the paper spells out. */
static void block_1(void)
{
    uint8_t paper[BLOCK_LEN] = { [3] = 1, [504] = 1, [511] = 2 };
    begin_log(log_memory(), BLOCK_LEN);
    try_expecting(a_log_power_up(0), 0);
    if (memcmp(both_state(), paper, BLOCK_LEN))
        mismatch("block 1 with no samples isn't as document 02 has it");
}

void group_log_blocks(void)
{
    random_seed(options.seed);
    block_1();
    sums();
    numbers();
    counts();
    for (unsigned blocks = 0; blocks <= 4; blocks++)
        for (unsigned between = 0; between <= BLOCK_SAMPLES + 1; between++)
            grow(blocks, between);
}
