/* log_lengths.c: every length of a log and of a sample from 0 on, and vast ones; used numbers, positions and status bits at the
 * ends of what 3 to 64 bits hold. */
#include "check.h"
#include "groups.h"
#include "log_cases.h"
#include "random.h"

static uint64_t ends[LOG_ENDS];
static size_t end_count;

/* Every length up to a little more than three blocks, every used number up to two more than there are. */
static void log_lengths(void)
{
    static const uint8_t counts[] = { 3, 16 };
    for (unsigned i = 0; i < COUNT(counts); i++)
        for (size_t len = 0; len <= 3 * BLOCK_LEN + 1; len++)
            for (uint64_t used = 0; used <= len / BLOCK_LEN + 2; used++) {
                uint8_t *log = log_memory();
                make_log(log, used < 3 ? (unsigned)used : 3, 1, counts[i]);
                each_log_call(log, len, used, len % 20);
            }
}

/* Large logs, almost all used or all. */
static void large_logs(void)
{
    uint8_t *log = log_memory();
    for (unsigned blocks = 8; blocks <= REGION / BLOCK_LEN; blocks *= 2) {
        make_log(log, blocks, 7, 2);
        for (uint64_t used = blocks - 2; used <= blocks + 1; used++)
            each_log_call(log, blocks * BLOCK_LEN, used, 8 * blocks);
        each_log_call(log, blocks * BLOCK_LEN - 1, blocks - 1, 0);
    }
}

/* Each used number, position and status bit at an end, and somewhat more, on logs of 0 to 3 blocks. */
static void numbers_at_ends(void)
{
    for (unsigned blocks = 0; blocks <= 3; blocks++) {
        uint8_t *log = log_memory();
        make_log(log, blocks, 1, 4);
        for (size_t i = 0; i < end_count; i++) {
            each_log_call(log, blocks * BLOCK_LEN, ends[i], 0);
            each_log_call(log, blocks * BLOCK_LEN, ends[i] + blocks, 0);
            begin_log(log, blocks * BLOCK_LEN);
            for (uint64_t more = 0; more <= 48; more += 16) {
                try(a_log_sample(blocks, ends[i] + more));
                try(a_log_first(blocks, ends[i] + more));
            }
        }
    }
}

/* On a log with room, one with a new block for it, a full one and an unsound one. */
static void sample_lengths(void)
{
    static uint8_t sample[REGION];
    static const size_t large[] = { 31 + 256, 4096, 31 + 32768, REGION, VAST, VAST + 30, VAST + 31, VAST + 32 };
    uint8_t *log = log_memory();
    random_fill(sample, sizeof sample);
    for (unsigned shape = 0; shape <= 3; shape++) {
        make_log(log, 2, 1, shape ? 16 : 15);
        if (shape == 3)
            spoil(log, 1, 0);
        for (size_t i = 0; i <= 65 + COUNT(large); i++) {
            size_t len = i <= 64 ? i : i == 65 ? 0 : large[i - 66];
            begin_log(log, (shape == 1 ? 3 : 2) * BLOCK_LEN);
            try(a_log_add(2, (struct bytes){ i == 65 ? NULL : sample, len }));
        }
    }
}

/* Vast memory is zeros: block 0, which is sound and empty, and after it blocks that do not follow. Its first blocks are made so
 * that they do. */
static void vast_logs(void)
{
    for (size_t more = 0; more <= VAST_MORE; more += more % BLOCK_LEN == 1 ? BLOCK_LEN - 1 : 1)
        for (uint64_t used = 0; used <= 4; used++) {
            begin_log(NULL, VAST + more);
            for (uint64_t i = 1; i < used; i++) {
                try(a_put(i * BLOCK_LEN + 3, (uint8_t)i));
                try(a_put(i * BLOCK_LEN + 511, (uint8_t)i));
            }
            try(a_log_sample(used, 0));
            try(a_log_first(used, 0));
            try(a_log_power_up(used));
            try(a_log_add(used + 1, log_sample()));
            try(a_log_sample(used + 1, 0));
            try(a_log_sample(used + 1, 1));
            try(a_log_first(used + 1, 23));
            try(a_log_first((VAST + more) / BLOCK_LEN + 1, 0));
            try(a_log_power_up((VAST + more) / BLOCK_LEN));
            try(a_log_power_up((VAST + more) / BLOCK_LEN + 1));
        }
}

void group_log_lengths(void)
{
    random_seed(options.seed);
    end_count = log_ends(ends);
    vast_logs();
    sample_lengths();
    numbers_at_ends();
    large_logs();
    log_lengths();
}
