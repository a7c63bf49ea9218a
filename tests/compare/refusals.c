/* refusals.c: every set of refusals that can apply to a call at once, for a read, a write and a sample. Each ingredient of a call
 * (state, port, address and length, output) has the refusals that it alone brings written beside it; all combinations are tried. */
#include "refusals.h"

#include "cases.h"
#include "check.h"
#include "groups.h"
#include "random.h"

#include <string.h>

static bool tried[1 << 18];
static unsigned sets, impossible;

/* Document 01: the lowest number wins, with one exception: 12 comes before 11. Document 02: 15 comes before 14. */
static unsigned picked(unsigned set)
{
    static const uint8_t order[] = { 1, 2, 3, 4, 5, 6, 7, 8, 9, 10, 12, 11, 13, 15, 14, 17 };
    for (size_t i = 0; i < COUNT(order); i++)
        if (set & R(order[i]))
            return order[i];
    return 0;
}

void begin_sets(void)
{
    sets = impossible = 0;
    memset(tried, 0, sizeof tried);
}

void say_sets(void)
{
    say(", %u sets of refusals, %u of which cannot exist", sets, impossible);
}

void try_set(struct call call, unsigned set)
{
    tried[set] = true;
    try_expecting(call, picked(set));
}

void try_set_of_double(struct call call, unsigned set)
{
    if (try(call) && set)
        fail("a number is given in spite of refusal %u", picked(set));
}

void end_of_sets(unsigned all, bool (*excluded)(unsigned set))
{
    for (unsigned set = 0; set <= all; set++) {
        if (set & ~all)
            continue;
        bool cannot = excluded && excluded(set);
        if (!cannot && !tried[set])
            fail("no call with the set %04x of refusals", set);
        sets++;
        impossible += cannot;
    }
    memset(tried, 0, sizeof tried);
}

void begin_unsound(size_t len, bool operator_unsound, bool recorder_unsound, unsigned way)
{
    static uint8_t state[2 * STATE_LEN];
    random_state(state, 3, 3);
    set_configuration(state, 4);
    if (operator_unsound)
        make_unsound(state, OPERATOR, way);
    if (recorder_unsound)
        make_unsound(state, RECORDER, way);
    begin_with((struct bytes){ len ? state : NULL, len });
}

/* Begins with one of these states, in turn: a length, and whose records are unsound. Short ones have no whole record. */
static const struct { int times, more; bool calling, other; } states[] = {
    { 1, 0, false, false }, { 1, 0, false, true }, { 1, 0, true, false }, { 1, 0, true, true }, { 1, 1, false, false },
    { 1, 1, true, true }, { 2, 0, true, false }, { 1, -1, false, false }, { 0, 0, false, false },
};
static unsigned begin_state(const struct map *map, size_t i, uint64_t port)
{
    static unsigned way;
    bool unsound = states[i].calling, other = states[i].other;
    size_t len = (size_t)(states[i].times * (int)map->state_len + states[i].more);
    if (port == OPERATOR || port == RECORDER)
        map->begin(len, port == OPERATOR ? unsound : other, port == RECORDER ? unsound : other, way++ % map->ways);
    else
        map->begin(len, unsound, unsound, way++ % map->ways);
    return (len == map->state_len ? 0 : R(1)) | (unsound ? R(3) : 0);
}

static const uint64_t ports[] = { 1, 2, 0, 3, UINT32_MAX + UINT64_C(2), UINT64_MAX };
static unsigned port_set(uint64_t port)
{
    return port == OPERATOR || port == RECORDER ? 0 : R(2);
}

bool port_excludes(unsigned set)
{
    return set & R(2) && set & (R(3) | R(7));
}

static void reads_of(const struct map *map, const struct run *run, size_t state, uint64_t port)
{
    for (int out = 0; out <= 2; out++) {
        bool is_short = out && run->count;
        if (!is_short && run->count > REGION)
            continue;
        size_t len = !is_short ? (size_t)run->count : out == 1 ? 0 : run->count > 300 ? 300 : (size_t)run->count - 1;
        unsigned set = begin_state(map, state, port) | port_set(port) | run->set | (is_short ? R(6) : 0);
        try_set(map->of(a_read(port, run->address, run->count, len)), set);
    }
}

static void read_sets(const struct map *map)
{
    for (size_t state = 0; state < COUNT(states); state++)
        for (size_t p = 0; p < COUNT(ports); p++)
            for (size_t i = 0; i < map->read_count; i++)
                reads_of(map, &map->reads[i], state, ports[p]);
    end_of_sets(R(1) | R(2) | R(3) | R(4) | R(5) | R(6), map->read_excludes);
}

/* 7 is the recorder's alone: for the operator the same runs are accepted, or refused for another reason. */
static void write_sets(const struct map *map)
{
    static const uint8_t data[6] = { 1, 2, 3, 4, 5, 6 };
    for (size_t state = 0; state < COUNT(states); state++)
        for (size_t p = 0; p < COUNT(ports); p++)
            for (size_t i = 0; i < map->write_count; i++) {
                const struct run *run = &map->writes[i];
                uint64_t port = ports[p];
                unsigned set = begin_state(map, state, port) | port_set(port) | (port == OPERATOR ? run->set & ~R(7) : run->set);
                try_set(map->of(a_write(port, run->address, (struct bytes){ data, (size_t)run->count })), set);
            }
    end_of_sets(R(1) | R(2) | R(3) | R(4) | R(5) | R(7), port_excludes);
}

static void sample_sets(const struct map *map)
{
    const size_t whole = map->state_len, right = map->sample_len;
    const size_t state_lens[] = { whole, 0, 1, whole - 1, whole + 1, 2 * whole };
    const size_t lens[] = { right, 0, 1, right - 1, right + 1, right + 256 };
    uint8_t sample[SAMPLE_LEN + 256];
    random_fill(sample, sizeof sample);
    for (size_t s = 0; s < COUNT(state_lens); s++)
        for (unsigned unsound = 0; unsound <= 3; unsound++)
            for (size_t i = 0; i < COUNT(lens) * map->ways; i++) {
                size_t state_len = state_lens[s], len = lens[i / map->ways];
                if (state_len < whole && unsound)
                    continue;
                map->begin(state_len, unsound & 1, unsound & 2, (unsigned)i % map->ways);
                try_set(map->of(a_sample((struct bytes){ sample, len })),
                        (state_len == whole ? 0 : R(1)) | (unsound ? R(3) : 0) | (len == right ? 0 : R(8)));
            }
    end_of_sets(R(1) | R(3) | R(8), NULL);
}

void refusals_of(const struct map *map)
{
    read_sets(map);
    write_sets(map);
    sample_sets(map);
}

static const struct run reads[] = {
    { 0, 1, 0 }, { 255, 1, 0 }, { 100, 128, 0 }, { 127, 2, 0 }, { 2, 14, 0 }, { 128, 128, 0 },
    { 0, 0, R(4) }, { 256, 0, R(4) }, { 0, 129, R(4) }, { 127, 129, R(4) },
    { 256, 1, R(5) }, { 129, 128, R(5) }, { 255, 2, R(5) }, { 300, 1, R(5) }, { UINT64_MAX, 1, R(5) },
    { UINT64_MAX - 127, 128, R(5) }, { 257, 0, R(4) | R(5) }, { UINT64_MAX, 0, R(4) | R(5) }, { 128, 129, R(4) | R(5) },
    { 0, 257, R(4) | R(5) }, { 1, UINT64_MAX, R(4) | R(5) }, { UINT64_MAX, UINT64_MAX, R(4) | R(5) },
    { 255, UINT64_MAX - 254, R(4) | R(5) },
};

/* 100 to 104 and 127 are the recorder's own whatever page is selected. A write of no bytes, or past 255, touches none. */
static const struct run writes[] = {
    { 100, 1, 0 }, { 104, 1, 0 }, { 127, 1, 0 }, { 101, 4, 0 }, { 86, 1, R(7) }, { 102, 4, R(7) }, { 99, 2, R(7) },
    { 124, 4, R(7) }, { 255, 1, R(7) }, { 200, 4, R(7) }, { 3, 1, R(7) }, { 100, 0, R(4) }, { 86, 0, R(4) }, { 256, 0, R(4) },
    { 100, 5, R(4) }, { 86, 5, R(4) | R(7) }, { 96, 5, R(4) | R(7) }, { 256, 1, R(5) }, { 300, 4, R(5) },
    { UINT64_MAX, 1, R(5) }, { UINT64_MAX - 3, 4, R(5) }, { 127, 2, R(5) | R(7) }, { 125, 4, R(5) | R(7) },
    { 126, 3, R(5) | R(7) },
    { 255, 2, R(5) | R(7) }, { 253, 4, R(5) | R(7) }, { 257, 0, R(4) | R(5) }, { UINT64_MAX, 0, R(4) | R(5) },
    { 300, 5, R(4) | R(5) }, { UINT64_MAX - 4, 5, R(4) | R(5) }, { 125, 5, R(4) | R(5) | R(7) },
    { 252, 5, R(4) | R(5) | R(7) }, { 127, 6, R(4) | R(5) | R(7) },
};

static struct call as_it_is(struct call call)
{
    return call;
}

static const struct map map = {
    as_it_is, STATE_LEN, SAMPLE_LEN, begin_unsound, UNSOUND, reads, writes, COUNT(reads), COUNT(writes), port_excludes,
};

void group_refusals(void)
{
    random_seed(options.seed);
    begin_sets();
    refusals_of(&map);
    refusals_of_the_rest();
    say_sets();
}
