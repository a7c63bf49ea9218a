/* eight_refusals.c: every set of refusals that can apply at once to a call of the eight-channel module. */
#include "check.h"
#include "eight_cases.h"
#include "groups.h"
#include "random.h"
#include "refusals.h"

#include <string.h>

static void begin_unsound_eight(size_t len, bool operator_unsound, bool recorder_unsound, unsigned way)
{
    static uint8_t state[2 * EIGHT_LEN];
    random_fill(state, sizeof state);
    make_eight_sound(state, OPERATOR);
    make_eight_sound(state, RECORDER);
    if (operator_unsound)
        make_eight_unsound(state, OPERATOR, way);
    if (recorder_unsound)
        make_eight_unsound(state, RECORDER, way);
    begin_with((struct bytes){ len ? state : NULL, len });
}

static const struct run reads[] = {
    { 0, 1, 0 }, { 127, 1, 0 }, { 0, 128, 0 }, { 2, 16, 0 }, { 102, 14, 0 }, { 16, 2, 0 },
    { 0, 0, R(4) }, { 128, 0, R(4) },
    { 128, 1, R(5) }, { 1, 128, R(5) }, { 127, 2, R(5) }, { 200, 1, R(5) }, { 256, 1, R(5) }, { UINT32_MAX + UINT64_C(4), 1, R(5) },
    { UINT64_MAX, 1, R(5) }, { UINT64_MAX - 127, 128, R(5) },
    { 129, 0, R(4) | R(5) }, { UINT64_MAX, 0, R(4) | R(5) }, { 0, 129, R(4) | R(5) }, { 0, 257, R(4) | R(5) },
    { 3, UINT32_MAX + UINT64_C(2), R(4) | R(5) }, { 1, UINT64_MAX, R(4) | R(5) }, { UINT64_MAX, UINT64_MAX, R(4) | R(5) },
    { 127, UINT64_MAX - 126, R(4) | R(5) },
};

/* A write of no bytes, or past 127, touches none. */
static const struct run writes[] = {
    { 102, 1, 0 }, { 115, 1, 0 }, { 102, 4, 0 }, { 112, 4, 0 }, { 107, 2, 0 },
    { 101, 1, R(7) }, { 101, 2, R(7) }, { 99, 4, R(7) }, { 113, 4, R(7) }, { 115, 2, R(7) }, { 116, 1, R(7) }, { 117, 1, R(7) },
    { 127, 1, R(7) }, { 124, 4, R(7) }, { 0, 4, R(7) }, { 3, 1, R(7) }, { 16, 1, R(7) },
    { 102, 0, R(4) }, { 0, 0, R(4) }, { 128, 0, R(4) }, { 102, 5, R(4) }, { 111, 5, R(4) },
    { 98, 5, R(4) | R(7) }, { 112, 5, R(4) | R(7) }, { 0, 5, R(4) | R(7) },
    { 128, 1, R(5) }, { 200, 4, R(5) }, { 256 + 102, 1, R(5) }, { UINT32_MAX + UINT64_C(103), 1, R(5) }, { UINT64_MAX, 1, R(5) },
    { UINT64_MAX - 3, 4, R(5) },
    { 127, 2, R(5) | R(7) }, { 126, 3, R(5) | R(7) }, { 125, 4, R(5) | R(7) },
    { 129, 0, R(4) | R(5) }, { UINT64_MAX, 0, R(4) | R(5) }, { 200, 5, R(4) | R(5) }, { UINT64_MAX - 4, 5, R(4) | R(5) },
    { 124, 5, R(4) | R(5) | R(7) }, { 127, 6, R(4) | R(5) | R(7) },
};

/* With 4 and without 5 a read is of no bytes: no output is shorter. */
static bool read_excludes(unsigned set)
{
    return port_excludes(set) || ((set & R(4)) && (set & R(6)) && !(set & R(5)));
}

static const struct map map = {
    of_eight, EIGHT_LEN, EIGHT_SAMPLE_LEN, begin_unsound_eight, EIGHT_UNSOUND, reads, writes, COUNT(reads), COUNT(writes),
    read_excludes,
};

/* A reset takes any records. */
static void reset_sets(void)
{
    static const uint8_t lengths[] = { 98, 0, 1, 14, 97, 99, 196 };
    for (size_t i = 0; i < COUNT(lengths); i++)
        for (unsigned way = 0; way < EIGHT_UNSOUND; way++) {
            begin_unsound_eight(lengths[i], way % 2, way % 3, way);
            try_set(a_reset_of_eight(), lengths[i] == EIGHT_LEN ? 0 : R(1));
        }
    end_of_sets(R(1), NULL);
}

void group_eight_refusals(void)
{
    random_seed(options.seed);
    begin_sets();
    refusals_of(&map);
    reset_sets();
    say_sets();
}
