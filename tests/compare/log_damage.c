/* log_damage.c: every byte of used and unused blocks changed, its block's sum as it was and right again. */
#include "check.h"
#include "groups.h"
#include "log_cases.h"
#include "random.h"

#include <string.h>

/* The question, and of the other calls one by turns. */
static void a_call(const uint8_t *log, size_t len, uint64_t used)
{
    static unsigned turn;
    begin_log(log, len);
    try(a_log_first(used, turn % STATUS_BITS));
    switch (turn++ % 3) {
    case 0:
        try(a_log_sample(used, turn / 3 % 20));
        break;
    case 1:
        try(a_log_add(used, log_sample()));
        break;
    default:
        try(a_log_power_up(used));
    }
}

/* A byte at another value, and with the sum of its block made right. */
static void change(uint8_t *log, size_t len, uint64_t used, size_t place, uint8_t value)
{
    uint8_t kept[BLOCK_LEN], *block = log + place / BLOCK_LEN * BLOCK_LEN;
    memcpy(kept, block, BLOCK_LEN);
    log[place] = value;
    a_call(log, len, used);
    set_sum(block);
    a_call(log, len, used);
    memcpy(block, kept, BLOCK_LEN);
}

/* Every value of every byte, from this one on, of a log of one block. */
static void one_block(unsigned count, bool summary, size_t place)
{
    uint8_t *log = log_memory();
    make_log(log, 1, 0x01020304, count);
    set_summary(log, summary);
    for (; place < BLOCK_LEN; place++)
        for (unsigned value = 0; value <= 255; value++)
            change(log, 2 * BLOCK_LEN, 1, place, (uint8_t)value);
}

/* Every byte of every block of a log of five, three of them used, with each of its bits changed, at 0 and at 255. */
static void three_blocks(uint32_t first, unsigned count)
{
    uint8_t *log = log_memory();
    make_log(log, 3, first, count);
    for (size_t place = 0; place < 5 * BLOCK_LEN; place++) {
        for (unsigned bit = 0; bit < 8; bit++)
            change(log, 5 * BLOCK_LEN, 3, place, (uint8_t)(log[place] ^ 1 << bit));
        change(log, 5 * BLOCK_LEN, 3, place, 0);
        change(log, 5 * BLOCK_LEN, 3, place, 255);
    }
}

/* Every sum there can be, of a block with samples. */
static void every_sum(void)
{
    uint8_t *log = log_memory();
    make_log(log, 1, 1, 16);
    for (unsigned sum = 0; sum <= 65535; sum++) {
        put_number(log + SUM_AT, sum);
        begin_log(log, BLOCK_LEN);
        try(a_log_sample(1, sum % 17));
    }
}

void group_log_damage(void)
{
    random_seed(options.seed);
    every_sum();
    three_blocks(1, 9);
    three_blocks(LAST_NUMBER - 2, 16);
    three_blocks(65534, 0);
    one_block(0, true, 0);
    one_block(7, true, 0);
    one_block(16, true, 0);
    for (unsigned count = 0; count <= BLOCK_SAMPLES; count++)
        one_block(count, false, SUMMARY_AT);
}
