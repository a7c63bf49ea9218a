/* log.c: flaws of a library in its calls on a log. See library.c. */
#include "../../../include/zikhrodan.h"

#include <stdbool.h>
#include <string.h>

uint64_t __real_zikhrodan_log_add(uint8_t *, size_t, uint64_t, const uint8_t *, size_t);
uint64_t __real_zikhrodan_log_power_up(uint8_t *, size_t, uint64_t);
uint64_t __real_zikhrodan_log_sample(const uint8_t *, size_t, uint64_t, uint64_t);
uint64_t __real_zikhrodan_log_first(const uint8_t *, size_t, uint64_t, uint64_t);

enum { SUMMARY_AT = 501, MARK_AT = 504, SUM_AT = 510 };

static volatile uint8_t seen;

static uint64_t narrowed(uint64_t number, int flaw)
{
    return FLAW == flaw ? (uint32_t)number : number;
}

/* The last used block of the call before, and whether the one of this call is the same and has samples. */
static bool as_before(const uint8_t *log, size_t log_len, uint64_t used)
{
    static uint8_t before[ZIKHRODAN_BLOCK_LEN];
    if (used == 0 || used > log_len / ZIKHRODAN_BLOCK_LEN)
        return false;
    const uint8_t *last = log + ZIKHRODAN_BLOCK_LEN * (used - 1);
    bool same = !memcmp(before, last, sizeof before) && last[4];
    memcpy(before, last, sizeof before);
    return same;
}

/* The summary of a new block goes on from that of the block before it. */
static void go_on(uint8_t *block)
{
    const uint8_t *before = block - ZIKHRODAN_BLOCK_LEN;
    unsigned sum = 0;
    for (unsigned i = SUMMARY_AT; i < MARK_AT; i++)
        block[i] |= before[i];
    for (unsigned i = 0; i < SUM_AT; i++)
        sum += block[i];
    block[SUM_AT] = (uint8_t)(sum >> 8);
    block[SUM_AT + 1] = (uint8_t)sum;
}

uint64_t __wrap_zikhrodan_log_add(uint8_t *log, size_t log_len, uint64_t used, const uint8_t *sample, size_t sample_len)
{
    if (FLAW == 44 && sample_len)
        seen = sample[sample_len];
    if (FLAW == 45 && sample_len)
        seen = sample[-1];
    if (FLAW == 49 && (uintptr_t)log % 2)
        __builtin_trap();
    uint64_t answer = __real_zikhrodan_log_add(log, narrowed(log_len, 40), narrowed(used, 41), sample, narrowed(sample_len, 43));
    if (FLAW == 48 && (answer & 0xff) == 14 && log_len)
        log[log_len - 1] ^= 1;
    if (answer & 0xff)
        return answer;
    if (FLAW == 34)
        log[log_len] = 0;
    if (FLAW == 35)
        log[-1] ^= 1;
    if (FLAW == 38)
        ((uint8_t *)sample)[30] ^= 1;
    if (FLAW == 51 && used && answer >> 8 > used)
        go_on(log + ZIKHRODAN_BLOCK_LEN * used);
    if (FLAW == 52 && answer >> 8 < log_len / ZIKHRODAN_BLOCK_LEN)
        log[ZIKHRODAN_BLOCK_LEN * (answer >> 8)] ^= 1;
    return answer;
}

uint64_t __wrap_zikhrodan_log_power_up(uint8_t *log, size_t log_len, uint64_t used)
{
    if (FLAW == 46 && log_len <= 8 * ZIKHRODAN_BLOCK_LEN && used == log_len / ZIKHRODAN_BLOCK_LEN)
        seen = log[log_len];
    uint64_t answer = __real_zikhrodan_log_power_up(log, narrowed(log_len, 40), narrowed(used, 41));
    if (answer & 0xff || log_len < (used + 2) * ZIKHRODAN_BLOCK_LEN)
        return answer;
    if (FLAW == 36)
        log[ZIKHRODAN_BLOCK_LEN * (used + 1)] ^= 1;
    if (FLAW == 37)
        log[log_len - 1] ^= 1;
    return answer;
}

uint64_t __wrap_zikhrodan_log_sample(const uint8_t *log, size_t log_len, uint64_t used, uint64_t position)
{
    if (FLAW == 47 && !log)
        seen = *log;
    uint64_t answer = __real_zikhrodan_log_sample(log, narrowed(log_len, 40), narrowed(used, 41), narrowed(position, 42));
    if (FLAW == 39 && !(answer & 0xff))
        ((uint8_t *)log)[answer >> 8] ^= 1;
    if (FLAW == 50 && as_before(log, log_len, used) && answer == 15)
        answer = 17;
    return answer;
}

/* What the question answered of a bit since the last used block was another. */
static uint64_t answered_before(const uint8_t *log, size_t log_len, uint64_t used, uint64_t bit, uint64_t answer)
{
    static uint64_t answers[24];
    static bool known[24];
    if (!as_before(log, log_len, used))
        memset(known, 0, sizeof known);
    if (bit >= 24)
        return answer;
    if (!known[bit])
        answers[bit] = answer;
    known[bit] = true;
    return answers[bit];
}

/* Whether the room right after the only used block's samples has the bit. */
static bool past_the_last(const uint8_t *log, uint64_t used, uint64_t bit)
{
    return used == 1 && bit < 24 && log[MARK_AT] != 1 && log[4] < ZIKHRODAN_BLOCK_SAMPLES &&
           log[5 + ZIKHRODAN_SAMPLE_LEN * log[4] + bit / 8] >> bit % 8 & 1;
}

uint64_t __wrap_zikhrodan_log_first(const uint8_t *log, size_t log_len, uint64_t used, uint64_t bit)
{
    uint64_t blocks = log_len / ZIKHRODAN_BLOCK_LEN;
    if (FLAW == 53 && blocks <= 8 && used == blocks)
        seen = log[log_len];
    if (FLAW == 54 && blocks)
        seen = log[-1];
    if (FLAW == 55 && !log)
        seen = *log;
    if (FLAW == 56 && (uintptr_t)log % 2)
        __builtin_trap();
    uint64_t answer = __real_zikhrodan_log_first(log, narrowed(log_len, 57), narrowed(used, 58), narrowed(bit, 59));
    if (FLAW == 60 && !(answer & 0xff) && used)
        ((uint8_t *)log)[MARK_AT] ^= 1;
    if (FLAW == 61 && !(answer & 0xff) && used < blocks)
        ((uint8_t *)log)[ZIKHRODAN_BLOCK_LEN * used] ^= 1;
    if (FLAW == 62 && !answer && past_the_last(log, used, bit))
        answer = (uint64_t)(log[4] + 1) << 8;
    if (FLAW == 63)
        answer = answered_before(log, log_len, used, bit, answer);
    if (FLAW == 64)
        answer = (answer & 0xff) | (uint64_t)(uint8_t)(answer >> 8) << 8;
    return answer;
}
