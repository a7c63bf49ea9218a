/* log_refusals.c: every set of refusals that can apply to a call on a log at once. */
#include "check.h"
#include "groups.h"
#include "log_cases.h"
#include "random.h"
#include "refusals.h"

/* A log: its memory, in whole blocks and bytes beside them; the used number; the last used block's number and count, where there
 * is such a block; and whether a used block is unsound or doesn't follow the one before it. */
struct shape {
    unsigned blocks, beside;
    uint64_t used;
    uint32_t last_number;
    unsigned last_count;
    bool unsound;
};
static uint8_t *memory;

/* How many used blocks there are. */
static unsigned there(const struct shape *s)
{
    return s->used < s->blocks ? (unsigned)s->used : s->blocks;
}

static unsigned set_of_memory(const struct shape *s)
{
    return s->beside || s->used > s->blocks || s->unsound ? R(15) : 0;
}

static unsigned set_of_new_block(const struct shape *s)
{
    return s->used >= s->blocks || (there(s) && s->last_number == LAST_NUMBER) ? R(14) : 0;
}

static void begin_shape(const struct shape *s)
{
    begin_log(memory, s->blocks * BLOCK_LEN + s->beside);
}

static void add_sets(const struct shape *s)
{
    static const uint16_t lengths[] = { 31, 0, 30, 32, 31 + 256 };
    static uint8_t sample[31 + 256];
    unsigned set = set_of_memory(s);
    if (!there(s) || s->last_count == BLOCK_SAMPLES)
        set |= set_of_new_block(s);
    random_fill(sample, SAMPLE_LEN);
    for (size_t i = 0; i < COUNT(lengths); i++) {
        begin_shape(s);
        try_set(a_log_add(s->used, (struct bytes){ sample, lengths[i] }), set | (lengths[i] == 31 ? 0 : R(8)));
    }
}

static void power_up_sets(const struct shape *s)
{
    begin_shape(s);
    try_set(a_log_power_up(s->used), set_of_memory(s) | set_of_new_block(s));
}

static void sample_sets(const struct shape *s)
{
    unsigned samples = samples_in(memory, there(s));
    const uint64_t positions[] = { 0, samples - 1, samples, samples + 1, UINT64_MAX };
    begin_shape(s);
    for (size_t i = 0; i < COUNT(positions); i++)
        try_set(a_log_sample(s->used, positions[i]), set_of_memory(s) | (positions[i] < samples ? 0 : R(17)));
}

/* The question asks for countable blocks, not for sound ones. */
static void first_sets(const struct shape *s)
{
    static const uint64_t above[] = {
        25, 31, 32, 63, 64, 255, 256, (uint64_t)1 << 32, ((uint64_t)1 << 32) + 23, (uint64_t)1 << 63,
    };
    static unsigned turn;
    const uint64_t bits[] = { turn % STATUS_BITS, STATUS_BITS - 1, STATUS_BITS, above[turn % COUNT(above)], UINT64_MAX };
    bool refused = s->beside || s->used > s->blocks;
    for (unsigned i = 0; i < there(s); i++)
        refused = refused || memory[BLOCK_LEN * i + COUNT_AT] > BLOCK_SAMPLES;
    begin_shape(s);
    for (size_t i = 0; i < COUNT(bits); i++)
        try_set(a_log_first(s->used, bits[i]), (refused ? R(15) : 0) | (bits[i] < STATUS_BITS ? 0 : R(17)));
    turn++;
}

/* A shape as it is, and with each of its blocks spoilt in each way. */
static void each_way(struct shape s, void (*sets)(const struct shape *))
{
    uint32_t first = s.last_number + 1 - there(&s);
    memory = log_memory();
    make_log(memory, there(&s), first, s.last_count);
    s.unsound = there(&s) && first > s.last_number;
    sets(&s);
    s.unsound = true;
    for (unsigned block = 0; block < there(&s); block++)
        for (unsigned way = 0; way < SPOILT; way++) {
            make_log(memory, there(&s), first, s.last_count);
            if (spoil(memory, block, way))
                sets(&s);
        }
}

static void each_shape(void (*sets)(const struct shape *))
{
    static const uint8_t counts[] = { 0, 9, BLOCK_SAMPLES };
    static const uint32_t numbers[] = { 3, LAST_NUMBER - 1, LAST_NUMBER, 0 };
    for (unsigned blocks = 0; blocks <= 3; blocks++)
        for (uint64_t used = 0; used <= blocks + 2; used++)
            for (unsigned i = 0; i < COUNT(counts) * COUNT(numbers); i++)
                for (unsigned beside = 0; beside < BLOCK_LEN; beside += 511)
                    each_way((struct shape){ .blocks = blocks, .beside = beside, .used = used == blocks + 2 ? UINT64_MAX : used,
                                             .last_number = numbers[i / COUNT(counts)], .last_count = counts[i % COUNT(counts)] },
                             sets);
}

void group_log_refusals(void)
{
    random_seed(options.seed);
    begin_sets();
    each_shape(add_sets);
    end_of_sets(R(8) | R(14) | R(15), NULL);
    each_shape(power_up_sets);
    end_of_sets(R(14) | R(15), NULL);
    each_shape(sample_sets);
    end_of_sets(R(15) | R(17), NULL);
    each_shape(first_sets);
    end_of_sets(R(15) | R(17), NULL);
    say_sets();
}
