/* logcalls.c: see logcalls.h. */
#include "logcalls.h"
#include "say.h"

#include <inttypes.h>
#include <stdio.h>

/* A block begins with its number, high byte first, and how many samples it has. */
enum { BLOCK = ZIKHRODAN_BLOCK_LEN, COUNT_AT = 4 };

/* The log from the last used block on; the whole where none is used. */
struct end {
    uint64_t first; /* the place at which it begins */
    uint8_t *bytes;
    size_t len;
    uint64_t used;
};

static struct end end_of(struct logfile *log)
{
    uint64_t first = log->used > 0 ? log->used - 1 : 0;

    return (struct end){first, log->bytes + first * BLOCK, (log->held.blocks - first) * BLOCK, log->used - first};
}

/* Takes the answer of a change of that end. */
static uint32_t taken(struct logfile *log, const struct end *end, uint64_t answer)
{
    if (zikhrodan_log_refusal(answer) == ZIKHRODAN_ACCEPTED)
        log->used = end->first + zikhrodan_log_value(answer);
    return zikhrodan_log_refusal(answer);
}

uint32_t log_add(struct logfile *log, const uint8_t *sample, size_t len)
{
    struct end end = end_of(log);

    return taken(log, &end, zikhrodan_log_add(end.bytes, end.len, end.used, sample, len));
}

uint32_t log_power_up(struct logfile *log)
{
    struct end end = end_of(log);

    return taken(log, &end, zikhrodan_log_power_up(end.bytes, end.len, end.used));
}

static uint64_t asked(const uint8_t *block, uint64_t position)
{
    return zikhrodan_log_sample(block, BLOCK, 1, position);
}

/* A position that no log has is refused by 15 before it is by 17. */
bool blocks_sound(const uint8_t *bytes, uint64_t blocks)
{
    uint64_t answer = zikhrodan_log_sample(bytes, blocks * BLOCK, blocks, UINT64_MAX);

    return zikhrodan_log_refusal(answer) != ZIKHRODAN_UNSOUND_LOG;
}

uint64_t block_number(const uint8_t *block)
{
    return (uint64_t)block[0] << 24 | (uint64_t)block[1] << 16 | (uint64_t)block[2] << 8 | block[3];
}

unsigned block_count(const uint8_t *block)
{
    return block[COUNT_AT];
}

uint64_t log_number(const struct logfile *log, uint64_t place)
{
    return block_number(log->bytes + place * BLOCK);
}

unsigned log_count(const struct logfile *log, uint64_t place)
{
    return block_count(log->bytes + place * BLOCK);
}

const uint8_t *log_sample(const struct logfile *log, uint64_t place, unsigned position)
{
    const uint8_t *block = log->bytes + place * BLOCK;

    return block + zikhrodan_log_value(asked(block, position));
}

uint64_t log_first(const struct logfile *log, uint64_t bit)
{
    return zikhrodan_log_first(log->bytes, log->held.blocks * BLOCK, log->used, bit);
}

void say_used(const struct logfile *log)
{
    const struct slot *held = &log->held;

    printf("%s: %" PRIu64 " of %" PRIu64 " block%s used\n", log->name, held->used, held->blocks, plural(held->blocks));
}
