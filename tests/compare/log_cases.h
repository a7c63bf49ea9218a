/* log_cases.h: logs that the groups of the log begin with, sound or spoilt. */
#ifndef LOG_CASES_H
#define LOG_CASES_H

#include "call.h"
#include "cases.h"

enum { BLOCK_LEN = 512, BLOCK_SAMPLES = 16, MOST_BLOCKS = 8 };
enum { COUNT_AT = 4, ROOM_AT = 5, SUMMARY_AT = 501, MARK_AT = 504, SUM_AT = 510 };  /* in a block */
enum { STATUS_BITS = 24 };
#define LAST_NUMBER 4294967295u

/* Numbers at the ends of what their bytes hold. */
extern const uint32_t end_numbers[];
enum { END_NUMBERS = 12 };

/* 0 to 4, and each power of two from 2^3 on minus 2 to plus 2; gives how many. */
enum { LOG_ENDS = 320 };
size_t log_ends(uint64_t *ends);

/* Makes the last two bytes of a block right. */
void set_sum(uint8_t *block);
void set_block_number(uint8_t *block, uint32_t number);

/* The sample in a block, from 0 on, and the status bits of one, or of a summary: bit 8 x byte + bit for each. */
uint8_t *sample_in(uint8_t *block, unsigned sample);
uint32_t status_of(const uint8_t *three_bytes);
void set_status(uint8_t *three_bytes, uint32_t status);

/* The status bits that any sample of a block has. */
uint32_t status_of_all(const uint8_t *block);

/* Gives a block the summary of its samples, or none, and makes its sum right. */
void set_summary(uint8_t *block, bool summary);

/* A sound block with random samples, of few status bits or many, with a summary or without, by chance. */
void make_block(uint8_t *block, uint32_t number, unsigned count);

/* So many blocks with numbers that rise from `first` on, and wrap; each but the last has a random count, the last has `count`. */
void make_log(uint8_t *log, unsigned used, uint32_t first, unsigned count);

/* Memory for a log, the same each time. What MOST_BLOCKS and one more take of it is filled anew: with random bytes, ones or zeros
 * by turns. */
uint8_t *log_memory(void);

/* Makes a block of a log unsound in one of these ways: by its count, its unused room, a count one less than its samples, its sum,
 * its number, a byte of 501 to 509, a summary with a bit too many or too few, one without the mark, or a mark without it; the sum
 * is right but where it is what is wrong. False for a block that can't be so: without room, without samples, without another
 * before it, or with such status bits that it would be sound. */
enum { SPOILT = 27 };
bool spoil(uint8_t *log, unsigned block, unsigned way);

/* The samples in so many blocks. */
unsigned samples_in(const uint8_t *log, unsigned used);

/* Begins with this log; a log of no bytes is at a null pointer by turns. */
void begin_log(const uint8_t *log, size_t len);

/* A call of each kind with this used number, each on the log as it is: the reading of a position, the question of a bit (by
 * turns), an add and a power-up. */
void each_log_call(const uint8_t *log, size_t len, uint64_t used, uint64_t position);

/* Makes the question; the answer has to have this value. */
void ask_expecting(uint64_t used, uint64_t bit, uint64_t value);

/* Reads every sample of the sound log that stands, and the first three positions past them; the question of each bit has to
 * answer what they show. Bit 24 is refused. */
void read_and_ask(uint64_t used);

/* A sample of random bytes, ones or zeros by turns, in memory that the next call takes again; as many more lie after it. */
struct bytes log_sample(void);

/* The same, but mostly without a status bit; else with one or two. */
struct bytes quiet_sample(void);

#endif
