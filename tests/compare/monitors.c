/* monitors.c: every monitor and every limit at all 65536 numbers, ready or not, Tx power offered or not. */
#include "cases.h"
#include "check.h"
#include "groups.h"
#include "random.h"

enum { SITUATIONS = 4 };

/* Ready or not, Tx power offered or not. */
static void set_situation(uint8_t *state, unsigned situation)
{
    state[2] = (uint8_t)((state[2] & 0xfeu) | (situation & 1));
    state[OFFERED_AT] = (uint8_t)((state[OFFERED_AT] & 0xfbu) | (situation >> 1) << 2);
}

/* In each situation all that can be asked for, and then each of the 65536 values. */
static void in_each_situation(void (*ask_all)(void), void (*ask_of)(uint8_t *state, unsigned value))
{
    uint8_t state[STATE_LEN];
    random_seed(options.seed);
    for (unsigned situation = 0; situation < SITUATIONS; situation++) {
        random_fill(state, STATE_LEN);
        set_situation(state, situation);
        begin(state);
        ask_all();
        for (unsigned value = 0; value <= 0xffff; value++)
            ask_of(state, value);
    }
}

/* Every monitor, also those that there aren't. */
static void all_monitors(void)
{
    for (uint64_t number = 0; number <= 16; number++) {
        try(of_number(KIND, number));
        try(of_number(VALUE, number));
    }
}

static void monitors_of(uint8_t *state, unsigned value)
{
    unsigned channel = value % 4, number[] = { 0, 1, 2 + channel, 6 + channel, 10 + channel };
    for (size_t i = 0; i < COUNT(number); i++)
        put_number(state + number_place(number[i]), value + 0x1111 * (unsigned)i);
    begin(state);
    for (size_t i = 0; i < COUNT(number); i++)
        try(of_number(VALUE, number[i]));
    if (value % 16 == 0)
        try(of_number(KIND, number[value / 16 % COUNT(number)]));
}

void group_monitors(void)
{
    in_each_situation(all_monitors, monitors_of);
}

/* Every quantity and limit, also those that there aren't. */
static void all_limits(void)
{
    for (uint64_t quantity = 0; quantity <= 6; quantity++) {
        try(of_number(LIMITS, quantity));
        for (uint64_t which = 0; which <= 5; which++)
            try(a_limit(quantity, which));
    }
}

static void limits_of(uint8_t *state, unsigned value)
{
    unsigned which = value % 4;
    for (unsigned quantity = 0; quantity < 5; quantity++)
        put_number(state + limits_place(quantity) + 2 * which, value ^ quantity << 5);
    begin(state);
    for (unsigned quantity = 0; quantity < 5; quantity++)
        try(a_limit(quantity, which));
}

void group_limits(void)
{
    in_each_situation(all_limits, limits_of);
}
