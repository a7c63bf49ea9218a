/* log_cases.c: logs to begin with. */
#include "log_cases.h"

#include "both.h"
#include "check.h"
#include "random.h"

#include <inttypes.h>
#include <string.h>

const uint32_t end_numbers[END_NUMBERS] = {
    0, 1, 2, 255, 256, 65535, 65536, 16777215, 16777216, 2147483648, LAST_NUMBER - 1, LAST_NUMBER,
};

size_t log_ends(uint64_t *ends)
{
    size_t count = 0;
    for (uint64_t i = 0; i <= 4; i++)
        ends[count++] = i;
    for (unsigned power = 3; power < 64; power++)
        for (uint64_t step = 0; step < 5; step++)
            ends[count++] = ((uint64_t)1 << power) + step - 2;
    ends[count++] = UINT64_MAX - 1;
    ends[count++] = UINT64_MAX;
    return count;
}

void set_sum(uint8_t *block)
{
    unsigned sum = 0;
    for (unsigned i = 0; i < SUM_AT; i++)
        sum += block[i];
    put_number(block + SUM_AT, sum);
}

void set_block_number(uint8_t *block, uint32_t number)
{
    put_number(block, number >> 16);
    put_number(block + 2, number);
}

static void fill_by_chance(uint8_t *at, size_t len)
{
    unsigned turn = random_below(3);
    random_fill(at, len);
    if (turn)
        memset(at, turn == 1 ? 0xff : 0, len);
}

static uint8_t drawn[2 * SAMPLE_LEN];

struct bytes log_sample(void)
{
    fill_by_chance(drawn, sizeof drawn);
    return (struct bytes){ drawn, SAMPLE_LEN };
}

struct bytes quiet_sample(void)
{
    struct bytes sample = log_sample();
    set_status(drawn, chance(80) ? 0 : 1u << random_below(STATUS_BITS) | 1u << random_below(STATUS_BITS));
    return sample;
}

uint8_t *sample_in(uint8_t *block, unsigned sample)
{
    return block + ROOM_AT + SAMPLE_LEN * sample;
}

uint32_t status_of(const uint8_t *three_bytes)
{
    return three_bytes[0] | (uint32_t)three_bytes[1] << 8 | (uint32_t)three_bytes[2] << 16;
}

void set_status(uint8_t *three_bytes, uint32_t status)
{
    for (unsigned i = 0; i < 3; i++)
        three_bytes[i] = (uint8_t)(status >> 8 * i);
}

uint32_t status_of_all(const uint8_t *block)
{
    uint32_t status = 0;
    for (unsigned i = 0; i < block[COUNT_AT] && i < BLOCK_SAMPLES; i++)
        status |= status_of(block + ROOM_AT + SAMPLE_LEN * i);
    return status;
}

void set_summary(uint8_t *block, bool summary)
{
    set_status(block + SUMMARY_AT, summary ? status_of_all(block) : 0);
    block[MARK_AT] = summary;
    set_sum(block);
}

void make_block(uint8_t *block, uint32_t number, unsigned count)
{
    uint32_t kept = (uint32_t)(chance(50) ? random_number() & random_number() : UINT32_MAX);
    memset(block, 0, BLOCK_LEN);
    set_block_number(block, number);
    block[COUNT_AT] = (uint8_t)count;
    random_fill(block + ROOM_AT, count * SAMPLE_LEN);
    for (unsigned i = 0; i < count; i++)
        set_status(sample_in(block, i), status_of(sample_in(block, i)) & kept);
    set_summary(block, chance(50));
}

void make_log(uint8_t *log, unsigned used, uint32_t first, unsigned count)
{
    for (unsigned i = 0; i < used; i++)
        make_block(log + BLOCK_LEN * i, first + i, i + 1 == used ? count : random_below(BLOCK_SAMPLES + 1));
}

uint8_t *log_memory(void)
{
    static uint8_t log[REGION];
    fill_by_chance(log, (MOST_BLOCKS + 1) * BLOCK_LEN);
    return log;
}

unsigned samples_in(const uint8_t *log, unsigned used)
{
    unsigned samples = 0;
    for (unsigned i = 0; i < used; i++)
        samples += log[BLOCK_LEN * i + COUNT_AT];
    return samples;
}

void begin_log(const uint8_t *log, size_t len)
{
    static unsigned turn;
    begin_with((struct bytes){ !len && ++turn % 2 ? NULL : log, len });
}

void each_log_call(const uint8_t *log, size_t len, uint64_t used, uint64_t position)
{
    static unsigned turn;
    begin_log(log, len);
    try(a_log_sample(used, position));
    try(a_log_first(used, turn++ % (STATUS_BITS + 1)));
    try(a_log_add(used, log_sample()));
    begin_log(log, len);
    try(a_log_power_up(used));
}

void ask_expecting(uint64_t used, uint64_t bit, uint64_t value)
{
    uint64_t answer = try(a_log_first(used, bit));
    if (answer != value << 8)
        mismatch("both answer refusal %" PRIu64 ", value %" PRIu64 ", the papers have value %" PRIu64, answer & 0xff, answer >> 8,
                 value);
}

void read_and_ask(uint64_t used)
{
    uint64_t first[STATUS_BITS] = { 0 };
    unsigned samples = samples_in(both_state(), (unsigned)used);
    for (uint64_t position = 0; position < samples + 3; position++) {
        uint64_t answer = try(a_log_sample(used, position));
        uint32_t status = answer & 0xff ? 0 : status_of(both_state() + (answer >> 8));
        for (unsigned bit = 0; bit < STATUS_BITS; bit++)
            if (status >> bit & 1 && !first[bit])
                first[bit] = position + 1;
    }
    for (unsigned bit = 0; bit < STATUS_BITS; bit++)
        ask_expecting(used, bit, first[bit]);
    try_expecting(a_log_first(used, STATUS_BITS), 17);
}
