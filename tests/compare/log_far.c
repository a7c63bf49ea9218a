/* log_far.c: a log of more than 2^24 bytes, where the start of a sample has more than 24 bits, and with the refusal beside it the
 * answer more than 32. The calls are made here, on memory that is too long to be printed. */
#include "../../include/zikhrodan.h"
#include "../plain/log.h"

#include "check.h"
#include "groups.h"
#include "log_cases.h"
#include "random.h"

#include <inttypes.h>
#include <stdio.h>
#include <stdlib.h>
#include <string.h>

enum { USED = (1 << 24) / BLOCK_LEN, LEN = (USED + 3) * BLOCK_LEN };

static uint8_t *library, *plain;

static void print_words(void)
{
    printf("# a log of %d bytes, %d blocks used, numbered from 1 on; the last is full, the others are empty\n", LEN, USED);
}

/* The value of an answer, which has to be the same of both. */
static uint64_t agreed(const char *what, uint64_t by_library, uint64_t by_plain)
{
    count_calls(1);
    if (by_library != by_plain)
        mismatch("%s: the library answers %" PRIx64 ", the plain engine %" PRIx64, what, by_library, by_plain);
    if (by_library & 0xff)
        mismatch("%s: both refuse %" PRIu64, what, by_library & 0xff);
    if (memcmp(library, plain, LEN))
        mismatch("%s: the logs differ", what);
    return by_library >> 8;
}

static void make_both(void)
{
    library = malloc(LEN);
    plain = malloc(LEN);
    if (!library || !plain)
        fail("no memory left");
    random_fill(library, LEN);
    for (uint32_t i = 0; i < USED; i++)
        make_block(library + BLOCK_LEN * i, i + 1, i + 1 == USED ? BLOCK_SAMPLES : 0);
    memcpy(plain, library, LEN);
}

void group_log_far(void)
{
    random_seed(options.seed);
    print_with(print_words);
    make_both();
    struct bytes sample = log_sample();
    uint64_t used = agreed("a sample", zikhrodan_log_add(library, LEN, USED, sample.at, sample.len),
                           plain_log_add(plain, LEN, USED, sample.at, sample.len));
    uint64_t start = agreed("the reading of it", zikhrodan_log_sample(library, LEN, used, BLOCK_SAMPLES),
                            plain_log_sample(plain, LEN, used, BLOCK_SAMPLES));
    if (start < 1 << 24 || memcmp(library + start, sample.at, sample.len))
        mismatch("what both read, at %" PRIu64 ", isn't the sample", start);
    agreed("a power-up", zikhrodan_log_power_up(library, LEN, used), plain_log_power_up(plain, LEN, used));
    free(library);
    free(plain);
}
