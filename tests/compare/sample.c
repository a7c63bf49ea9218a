/* sample.c: each number at, just below and just above each of its thresholds; each status bit; random samples. */
#include "cases.h"
#include "check.h"
#include "groups.h"
#include "random.h"

#include <string.h>

/* The ends of a signed and of an unsigned number, and numbers between. */
static const uint16_t values[] = {
    0, 1, 2, 0xfe, 0xff, 0x100, 0x1234, 0x7ffe, 0x7fff, 0x8000, 0x8001, 0x8a99, 0xff00, 0xfffe, 0xffff,
};

/* A state and a sample with no condition: each number is as all its thresholds. */
static void quiet(uint8_t *state, uint8_t *sample, bool offered, bool flags)
{
    random_state(state, 3, 2);
    for (unsigned port = OPERATOR; port <= RECORDER; port++) {
        memset(record_of(state, port), flags ? 0xff : 0, 12);
        make_sound(state, port, 0);
    }
    state[OFFERED_AT] = (uint8_t)((state[OFFERED_AT] & 0xfb) | (offered ? 4 : 0));
    memset(sample, 0, 3);
    for (unsigned quantity = 0; quantity < 5; quantity++)
        for (unsigned which = 0; which < 4; which++)
            put_number(state + limits_place(quantity) + 2 * which, 0x1000 + quantity * 0x2711);
    for (unsigned number = 0; number < NUMBERS; number++)
        put_number(sample + 3 + 2 * number, 0x1000 + quantity_of(number) * 0x2711);
}

static void take(const uint8_t *state, const uint8_t *sample)
{
    begin(state);
    try(a_sample((struct bytes){ sample, SAMPLE_LEN }));
}

/* One number at each value, with each of its four thresholds one below it, at it or one above it: low above high, too. */
static void thresholds(uint8_t *state, uint8_t *sample, unsigned number)
{
    for (size_t i = 0; i < COUNT(values); i++) {
        put_number(sample + 3 + 2 * number, values[i]);
        for (unsigned steps = 0; steps < 81; steps++) {
            unsigned left = steps;
            for (unsigned which = 0; which < 4; which++, left /= 3)
                put_number(state + limits_place(quantity_of(number)) + 2 * which, values[i] + left % 3 - 1u);
            take(state, sample);
        }
    }
}

/* Every number against every other, as thresholds crosswise: high and low alarm, high and low warning. */
static void crossings(uint8_t *state, uint8_t *sample, unsigned number)
{
    uint8_t *limits = state + limits_place(quantity_of(number));
    for (size_t i = 0; i < COUNT(values); i++)
        for (size_t high = 0; high < COUNT(values); high++)
            for (size_t low = 0; low < COUNT(values); low++) {
                put_number(sample + 3 + 2 * number, values[i]);
                put_number(limits, values[high]);
                put_number(limits + 2, values[low]);
                put_number(limits + 4, values[low]);
                put_number(limits + 6, values[high]);
                take(state, sample);
            }
}

static void status_bits(uint8_t *state, uint8_t *sample)
{
    for (unsigned bit = 0; bit < 24; bit++)
        for (unsigned others = 0; others <= 1; others++) {
            memset(sample, others ? 0xff : 0, 3);
            sample[bit / 8] ^= (uint8_t)(1 << bit % 8);
            take(state, sample);
        }
}

static void random_samples(void)
{
    uint8_t state[STATE_LEN], sample[SAMPLE_LEN];
    for (int i = 0; i < 20000; i++) {
        unsigned operator_page = random_below(4), recorder_page = random_below(4);
        random_state(state, operator_page, recorder_page);
        random_fill(sample, SAMPLE_LEN);
        take(state, sample);
    }
}

void group_sample(void)
{
    uint8_t state[STATE_LEN], sample[SAMPLE_LEN];
    random_seed(options.seed);
    for (int offered = 0; offered <= 1; offered++)
        for (int flags = 0; flags <= 1; flags++) {
            quiet(state, sample, offered, flags);
            take(state, sample);
            status_bits(state, sample);
            for (unsigned number = 0; number < NUMBERS; number++) {
                quiet(state, sample, offered, flags);
                thresholds(state, sample, number);
                if (!flags)
                    crossings(state, sample, number);
            }
        }
    random_samples();
}
