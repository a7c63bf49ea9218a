/* eight_sweeps.c: the eight-channel module by addresses and counts, by every byte of a state, and by conditions. */
#include "check.h"
#include "eight_cases.h"
#include "groups.h"
#include "random.h"

#include <string.h>

enum { BEYOND = 140 };  /* addresses, counts and lengths go as far */

static struct call a_sample_of(const uint8_t *conditions)
{
    return of_eight(a_sample((struct bytes){ conditions, EIGHT_SAMPLE_LEN }));
}

/* ---- every address by every count, on several states */

/* All flags raised and pending, with random masks, none or all; random bytes; the other port's record unsound; nothing pending. */
enum { STATES = 6 };
static void state_number(uint8_t *state, unsigned number, unsigned port)
{
    random_eight(state);
    for (unsigned i = OPERATOR; i <= RECORDER; i++) {
        if (number < 3)
            memset(eight_record(state, i) + EIGHT_FLAGS, 0xff, EIGHT_BYTES);
        if (number < 3 || number == 5)
            memset(eight_record(state, i) + EIGHT_PENDING, number == 5 ? 0 : 0xff, EIGHT_BYTES);
        if (number == 1 || number == 2)
            memset(eight_record(state, i) + EIGHT_MASKS, number == 1 ? 0 : 0xff, EIGHT_BYTES);
        make_eight_sound(state, i);
    }
    if (number == 4)
        make_eight_unsound(state, port == OPERATOR ? RECORDER : OPERATOR, 3);
}

void group_eight_read(void)
{
    uint8_t state[EIGHT_LEN];
    random_seed(options.seed);
    for (unsigned port = 0; port <= 3; port++)
        for (unsigned number = 0; number < STATES; number++) {
            state_number(state, number, port);
            for (unsigned address = 0; address <= BEYOND; address++)
                for (unsigned count = 0; count <= BEYOND; count++) {
                    begin_eight(state);
                    try(of_eight(a_read(port, address, count, number % 2 ? count + 11 : count)));
                }
        }
}

/* All writes of 0 to 6 bytes on a state. */
static void writes_on(const uint8_t *state, unsigned port)
{
    uint8_t data[3][6];
    memset(data[0], 0, sizeof data[0]);
    memset(data[1], 0xff, sizeof data[1]);
    for (unsigned address = 0; address <= BEYOND; address++)
        for (size_t len = 0; len <= sizeof data[0]; len++)
            for (unsigned i = 0; i < COUNT(data); i++) {
                random_fill(data[2], sizeof data[2]);
                begin_eight(state);
                try(of_eight(a_write(port, address, (struct bytes){ data[i], len })));
            }
}

/* Every value of every mask byte over one that is all its opposite, and seen by a read. */
static void values_of(uint8_t *state, unsigned port, unsigned byte)
{
    for (unsigned value = 0; value <= 255; value++) {
        const uint8_t data = (uint8_t)value;
        eight_record(state, port)[EIGHT_MASKS + byte] = (uint8_t)~data & eight_mask_bits[byte];
        begin_eight(state);
        try(of_eight(a_write(port, EIGHT_MASKS_AT + byte, (struct bytes){ &data, 1 })));
        try(of_eight(a_read(port, EIGHT_MASKS_AT + byte, 1, 1)));
    }
}

void group_eight_write(void)
{
    uint8_t state[EIGHT_LEN];
    random_seed(options.seed);
    for (unsigned port = 0; port <= 3; port++)
        for (unsigned number = 0; number < STATES; number++) {
            state_number(state, number, port);
            writes_on(state, port);
        }
    for (unsigned port = OPERATOR; port <= RECORDER; port++)
        for (unsigned byte = 0; byte < EIGHT_BYTES; byte++) {
            state_number(state, byte % 4, port);
            values_of(state, port, byte);
        }
}

/* ---- every byte of a state at all values, sound or not, by every call */

static void every_call(const uint8_t *state, unsigned turn)
{
    static const struct { uint8_t address, count; } reads[] = { { 0, 128 }, { 3, 14 }, { 8, 2 }, { 102, 14 }, { 17, 85 } };
    const uint8_t data[4] = { (uint8_t)turn, (uint8_t)~turn, 0xff, 0 };
    const uint64_t ports[] = { OPERATOR, RECORDER, turn % 2 ? 0 : 3 };
    uint8_t sample[EIGHT_SAMPLE_LEN];
    for (size_t i = 0; i < COUNT(ports); i++) {
        begin_eight(state);
        try(of_eight(a_read(ports[i], reads[turn % COUNT(reads)].address, reads[turn % COUNT(reads)].count, 128)));
        begin_eight(state);
        try(of_eight(a_write(ports[i], EIGHT_MASKS_AT + turn % 11, (struct bytes){ data, 4 })));
    }
    random_fill(sample, sizeof sample);
    begin_eight(state);
    try(a_sample_of(sample));
    try(a_reset_of_eight());
}

void group_eight_records(void)
{
    uint8_t state[EIGHT_LEN];
    unsigned turn = 0;
    random_seed(options.seed);
    for (unsigned place = 0; place < EIGHT_LEN; place++) {
        random_eight(state);
        for (unsigned value = 0; value <= 255; value++) {
            state[place] = (uint8_t)value;
            every_call(state, turn++);
        }
    }
}

/* ---- conditions */

/* One condition alone, that was present before or not, on flags and pending bits that stand or not; then it lasts, ends and comes
 * back, and each port reads. */
static void one_condition(unsigned byte, unsigned bit, unsigned stands)
{
    uint8_t state[EIGHT_LEN], sample[EIGHT_SAMPLE_LEN] = { 0 };
    static const uint8_t none[EIGHT_SAMPLE_LEN];
    memset(state, stands & 4 ? 0xff : 0, EIGHT_LEN);
    state[byte] = stands & 1 ? 0xff : 0;
    for (unsigned port = OPERATOR; port <= RECORDER; port++) {
        memset(eight_record(state, port), stands & 2 ? 0xff : 0, EIGHT_BYTES);
        make_eight_sound(state, port);
    }
    sample[byte] = (uint8_t)(1 << bit);
    begin_eight(state);
    try(a_sample_of(sample));
    try(of_eight(a_read(OPERATOR, EIGHT_FLAGS_AT + byte, 1, 1)));
    try(a_sample_of(sample));
    try(a_sample_of(none));
    try(of_eight(a_read(RECORDER, EIGHT_FLAGS_AT, EIGHT_BYTES, EIGHT_BYTES)));
    try(a_sample_of(sample));
    try(of_eight(a_read(OPERATOR, EIGHT_FLAGS_AT, EIGHT_BYTES, EIGHT_BYTES)));
}

/* A value over a value before, in all bytes at once, but others in each. */
static void every_pair(unsigned first, unsigned second)
{
    uint8_t state[EIGHT_LEN], sample[EIGHT_SAMPLE_LEN];
    random_eight(state);
    for (unsigned i = 0; i < EIGHT_BYTES; i++) {
        sample[i] = (uint8_t)(first + 37 * i);
        state[i] = (uint8_t)(second + 101 * i);
    }
    begin_eight(state);
    try(a_sample_of(sample));
}

void group_eight_sample(void)
{
    random_seed(options.seed);
    for (unsigned byte = 0; byte < EIGHT_BYTES; byte++)
        for (unsigned bit = 0; bit < 8; bit++)
            for (unsigned stands = 0; stands < 8; stands++)
                one_condition(byte, bit, stands);
    for (unsigned first = 0; first <= 255; first++)
        for (unsigned second = 0; second <= 255; second++)
            every_pair(first, second);
}
