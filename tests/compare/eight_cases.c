/* eight_cases.c: see eight_cases.h. */
#include "eight_cases.h"

#include "check.h"
#include "generate.h"
#include "random.h"

#include <string.h>

const uint8_t eight_flag_bits[EIGHT_BYTES] = { 0xff, 0xff, 0xff, 0xff, 0xff, 0xf0, 0xcf, 0xff, 0xff, 0xff, 0xff, 0xff, 0xff, 0xff };
const uint8_t eight_mask_bits[EIGHT_BYTES] = { 0xff, 0xff, 0xff, 0xff, 0xff, 0xf0, 0xce, 0xff, 0xff, 0xff, 0xff, 0xff, 0xff, 0xff };

/* ---- states */

uint8_t *eight_record(uint8_t *state, unsigned port)
{
    return state + EIGHT_BYTES + (port == RECORDER ? EIGHT_RECORD_LEN : 0);
}

void make_eight_sound(uint8_t *state, unsigned port)
{
    uint8_t *record = eight_record(state, port);
    for (unsigned i = 0; i < EIGHT_BYTES; i++) {
        record[EIGHT_FLAGS + i] &= eight_flag_bits[i];
        record[EIGHT_MASKS + i] &= eight_mask_bits[i];
        record[EIGHT_PENDING + i] &= eight_flag_bits[i];
    }
}

void make_eight_unsound(uint8_t *state, unsigned port, unsigned way)
{
    static const struct { uint8_t place, bit; } ways[EIGHT_UNSOUND] = {
        { 5, 0 }, { 5, 1 }, { 5, 2 }, { 5, 3 }, { 6, 4 }, { 6, 5 },
        { 19, 0 }, { 19, 1 }, { 19, 2 }, { 19, 3 }, { 20, 4 }, { 20, 5 }, { 20, 0 },
        { 33, 0 }, { 33, 1 }, { 33, 2 }, { 33, 3 }, { 34, 4 }, { 34, 5 },
    };
    eight_record(state, port)[ways[way].place] |= (uint8_t)(1 << ways[way].bit);
}

void random_eight(uint8_t *state)
{
    random_fill(state, EIGHT_LEN);
    make_eight_sound(state, OPERATOR);
    make_eight_sound(state, RECORDER);
}

void begin_eight(const uint8_t *state)
{
    begin_with((struct bytes){ state, EIGHT_LEN });
}

/* ---- random calls */

struct bytes some_eight_beginning(void)
{
    static uint8_t state[2 * EIGHT_LEN];
    random_fill(state, sizeof state);
    if (chance(60))
        memset(state, 0, EIGHT_LEN);
    for (unsigned port = OPERATOR; port <= RECORDER; port++) {
        if (chance(97))
            make_eight_sound(state, port);
        if (chance(4))
            make_eight_unsound(state, port, random_below(EIGHT_UNSOUND));
    }
    return of_length(state, EIGHT_LEN, sizeof state, 4);
}

struct call some_eight_sample(const uint8_t *state)
{
    static uint8_t sample[3 * EIGHT_SAMPLE_LEN];
    random_fill(sample, sizeof sample);
    for (unsigned i = 0; i < EIGHT_BYTES; i++) {
        uint8_t before = state ? state[i] : 0;
        unsigned roll = random_below(100);
        if (roll < 50)
            sample[i] = before;
        else if (roll < 65)
            sample[i] = (uint8_t)(before ^ 1 << random_below(8));
        else if (roll < 80)
            sample[i] &= before;
        else if (roll < 90)
            sample[i] = 0;
    }
    return of_eight(a_sample(of_length(sample, EIGHT_SAMPLE_LEN, sizeof sample, 4)));
}

/* Runs over flag bytes or a part of them, one flag byte, the masks, all, or anywhere. */
struct call some_eight_read(uint64_t port)
{
    static const struct { uint8_t address, more, count; } likely[] = {
        { 0, 18, 18 }, { 3, 14, 1 }, { 3, 14, 1 }, { 3, 14, 4 }, { 100, 18, 18 }, { 0, 1, 128 }, { 0, 128, 60 },
    };
    unsigned i = random_below(COUNT(likely));
    uint64_t address = likely[i].address + random_below(likely[i].more), count = 1 + random_below(likely[i].count);
    if (chance(10))
        count = EIGHT_ADDRESSES - address;
    if (chance(3))
        count = chance(50) ? 129 * random_below(2) : any_number();
    if (chance(2))
        address = chance(50) ? 120 + random_below(10) : any_number();
    size_t len = count > 1000 ? random_below(300) : (size_t)count;
    if (chance(25))
        len += random_below(20);
    else if (chance(5))
        len = random_below((unsigned)len + 1);
    struct call call = of_eight(a_read(port, address, count, len));
    call.out_null = !len && chance(50);
    return call;
}

/* Mostly masks, set or cleared, and mostly those of byte 9; what isn't a mask too, by the operator more often. */
struct call some_eight_write(uint64_t port)
{
    static uint8_t data[16];
    unsigned first = chance(25) ? 6 : random_below(EIGHT_BYTES), left = EIGHT_BYTES - first;
    uint64_t address = EIGHT_MASKS_AT + first;
    size_t len = 1 + random_below(left < 4 ? left : 4);
    if (port == RECORDER ? chance(8) : chance(20)) {
        address = chance(40) ? 98 + random_below(22) : random_below(EIGHT_ADDRESSES);
        len = 1 + random_below(4);
    }
    if (chance(4))
        len = random_below(7);
    if (chance(2))
        address = chance(50) ? 120 + random_below(10) : any_number();
    random_fill(data, sizeof data);
    if (chance(50))
        memset(data, chance(60) ? 0 : 0xff, sizeof data);
    return of_eight(a_write(port, address, (struct bytes){ !len && chance(50) ? NULL : data, len }));
}

struct call some_eight_call(const uint8_t *state)
{
    unsigned roll = random_below(100);
    if (roll < 4)
        return a_reset_of_eight();
    if (roll < 40)
        return some_eight_sample(state);
    return roll < 72 ? some_eight_read(some_port()) : some_eight_write(some_port());
}
