/* cases.h: the calls that are measured, and what is lent to them. The engine is the one that the program is linked with. */
#ifndef CASES_H
#define CASES_H

#include "../include/zikhrodan.h"

#include <stdbool.h>

enum call {
    RESET, SAMPLE, READ, WRITE, IDENTITY, KIND, VALUE, LIMITS, LIMIT,
    EIGHT_RESET, EIGHT_SAMPLE, EIGHT_READ, EIGHT_WRITE,
    LOG_ADD, LOG_POWER_UP, LOG_SAMPLE, LOG_FIRST
};

/* What is wrong with a call. A byte less in the sample; on a log one more in the memory, a used block's sum, no unused block, the
 * last used block's count; on the eight-channel module a byte less in the state or in the output memory, a bit that is no flag in
 * the operator's record. */
enum wrong { NOTHING, SAMPLE_SIZE, LOG_SIZE, FIRST_BLOCK, LAST_BLOCK, NONE_UNUSED, LAST_COUNT, STATE_SIZE, OUT_SIZE, RECORD_BIT };

/* The position that is read, or that of the one sample with the bit that is searched for: past the last, no sample has it. */
enum position { THE_FIRST, THE_LAST, PAST_THE_LAST };

/* The summaries of a log's blocks: those that are due; none, as in old blocks; or every bit, which makes the log unsound. */
enum summaries { DUE, OLD, EVERY_BIT };

struct one_call {
    const char *name;
    enum call call;
    uint8_t page;                   /* that both ports have selected */
    unsigned unsound;               /* identity: 1 the live page, 2 both */
    uint64_t port, address, count;  /* of a read or a write */
    uint64_t number;                /* a field, monitor or quantity */
    const uint8_t *sample;          /* the one taken or added; a log's blocks hold it too */
    bool again;                     /* the eight-channel module has taken it before */
    uint64_t used;                  /* a log's used blocks, 0 where the call is not on a log */
    unsigned each, last;            /* the samples of each of them, and of the last */
    enum wrong wrong;
    enum position position;
    enum summaries summaries;
    uint64_t bit;                   /* that is searched for */
    unsigned refusal;               /* that the call has to give */
};

enum { RECORDS_AT = ZIKHRODAN_IMAGE_LEN, RECORDS_LEN = ZIKHRODAN_STATE_LEN - ZIKHRODAN_IMAGE_LEN };

/* What is lent, and what is written; the records as they stand before each call. */
extern uint8_t state[ZIKHRODAN_STATE_LEN], image[ZIKHRODAN_IMAGE_LEN], out[ZIKHRODAN_READ_MAX], records[RECORDS_LEN];
extern const uint8_t written[ZIKHRODAN_WRITE_MAX];

extern const struct one_call cases[];
extern const unsigned many_cases;

/* Puts what is lent into the case's state: reset to the factory image; where the case itself takes no sample, one of all FFh, so
 * that both ports have flags up; the page selected for both. False if the engine refuses any of it. */
bool set_up(const struct one_call *c);

/* Before each call: the records, the eight-channel module, and a log's last used block and the one behind it, as they were set up. */
void put_back(const struct one_call *c);

/* The case's one call: its answer, or the bits of its number. */
uint64_t make(const struct one_call *c);

#endif
