/* log_first_far.c: a log of more than 2^24 samples, where the question's value has more than 24 bits, and with the refusal beside
 * it the answer more than 32. The calls are made here, on memory that is too long to be printed: one piece of a log over and
 * over, and at its end a piece of its own. None of it can be written to. */
#include "../../include/zikhrodan.h"
#include "../plain/log.h"

#include "check.h"
#include "groups.h"
#include "log_cases.h"
#include "random.h"

#include <inttypes.h>
#include <stdio.h>
#include <string.h>
#include <sys/mman.h>
#include <unistd.h>

enum { PIECE_BLOCKS = 2048, PIECE = PIECE_BLOCKS * BLOCK_LEN, PIECES = 514 };
enum { PASSED_OVER = 20, NOWHERE = 21, READ_IN_FULL = 3 }; /* bits */
static const uint64_t USED = (uint64_t)PIECES * PIECE_BLOCKS;
static const size_t LEN = (size_t)PIECES * PIECE;

static void print_words(void)
{
    printf("# a log of %zu bytes, all blocks used and full; no status bit but in the last block\n", LEN);
}

static void expect(const uint8_t *log, uint64_t used, uint64_t bit, uint64_t answer)
{
    uint64_t by_library = zikhrodan_log_first(log, LEN, used, bit), by_plain = plain_log_first(log, LEN, used, bit);
    count_calls(1);
    if (by_library != by_plain)
        mismatch("bit %" PRIu64 ": the library answers %" PRIx64 ", the plain engine %" PRIx64, bit, by_library, by_plain);
    if (by_library != answer)
        mismatch("bit %" PRIu64 ": both answer %" PRIx64 ", the papers have %" PRIx64, bit, by_library, answer);
}

/* A file of one piece, in which every block is full and its summary has one bit, by a lie. */
static FILE *file_of_a_piece(void)
{
    static uint8_t block[BLOCK_LEN];
    FILE *file = tmpfile();
    block[COUNT_AT] = BLOCK_SAMPLES;
    block[MARK_AT] = 1;
    set_status(block + SUMMARY_AT, 1u << READ_IN_FULL);
    for (unsigned i = 0; file && i < PIECE_BLOCKS; i++)
        if (fwrite(block, sizeof block, 1, file) != 1)
            fail("a temporary file cannot be written");
    if (!file || fflush(file))
        fail("no temporary file");
    return file;
}

static uint8_t *map_pieces(int file)
{
    uint8_t *log = mmap(NULL, LEN, PROT_NONE, MAP_PRIVATE | MAP_ANONYMOUS | MAP_NORESERVE, -1, 0);
    if (log == MAP_FAILED)
        fail("no memory left");
    for (unsigned i = 0; i < PIECES; i++) {
        int protection = i + 1 == PIECES ? PROT_READ | PROT_WRITE : PROT_READ;
        if (mmap(log + (size_t)i * PIECE, PIECE, protection, MAP_PRIVATE | MAP_FIXED, file, 0) == MAP_FAILED)
            fail("a piece cannot be mapped");
    }
    return log;
}

void group_log_first_far(void)
{
    print_with(print_words);
    FILE *file = file_of_a_piece();
    uint8_t *log = map_pieces(fileno(file)), *last = log + LEN - BLOCK_LEN;
    const uint64_t samples = USED * BLOCK_SAMPLES;
    set_status(sample_in(last, BLOCK_SAMPLES - 2), 1u << PASSED_OVER);
    set_status(sample_in(last, BLOCK_SAMPLES - 1), 1u << PASSED_OVER | 1u << READ_IN_FULL);
    set_summary(last, true);
    if (mprotect(log + LEN - PIECE, PIECE, PROT_READ))
        fail("memory cannot be made read-only");
    expect(log, USED, PASSED_OVER, (samples - 1) << 8);
    expect(log, USED, READ_IN_FULL, samples << 8);
    expect(log, USED, NOWHERE, 0);
    expect(log, USED - 1, PASSED_OVER, 0);
    expect(log, USED + 1, PASSED_OVER, 15);
    expect(log, USED, STATUS_BITS, 17);
    munmap(log, LEN);
    fclose(file);
}
