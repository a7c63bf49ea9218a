/* rules.c: the 688 bytes, the count, the reset and the samples, in document 01's order. See rules.h. */
#include "rules.h"

#include <string.h>

/* ---- The 688 bytes */

unsigned place_of(unsigned page, unsigned address)
{
    return address < 128 ? address : 128 * page + address;
}

unsigned address_of(unsigned place)
{
    return place < 128 ? place : 128 + place % 128;
}

/* Which of a record's 24 bytes stands for this place, -1 if none. */
static int record_byte(unsigned place)
{
    if (place >= 3 && place <= 14)
        return (int)place - 3;
    if (place >= 100 && place <= 104)
        return 12 + (int)place - 100;
    if (place >= PAGE_03(242) && place <= PAGE_03(247))
        return 17 + (int)place - PAGE_03(242);
    return place == 127 ? 23 : -1;
}

bool in_records(unsigned place)
{
    return record_byte(place) >= 0;
}

unsigned lies_at(enum port port, unsigned place)
{
    return in_records(place) ? RECORD(port) + (unsigned)record_byte(place) : place;
}

bool supported(const uint8_t *state, unsigned page)
{
    bool flat = (state[2] & 0x04) != 0;
    uint8_t options = state[PAGE_00(195)];

    switch (page) {
    case 0: return true;
    case 1: return !flat && (options & 0x40);
    case 2: return !flat && (options & 0x80);
    case 3: return !flat;
    default: return false;
    }
}

bool sound(const uint8_t *state, enum port port)
{
    static const struct { unsigned place; uint8_t zero_bits; } rows[] = {
        {8, 0xff}, {6, 0x0f}, {7, 0x0f}, {103, 0x0f}, {104, 0x0f},
    };
    uint8_t page = state[lies_at(port, 127)];

    for (size_t i = 0; i < sizeof rows / sizeof rows[0]; i++)
        if (state[lies_at(port, rows[i].place)] & rows[i].zero_bits)
            return false;
    return supported(state, page);
}

/* ---- The count */

/* The place of the mask that serves a flag byte, 3 to 7 or 9 to 14. */
static unsigned mask_of(unsigned flag)
{
    return flag <= 7 ? 100 + (flag - 3) : PAGE_03(242) + (flag - 9);
}

unsigned let_through(const uint8_t *state, enum port port)
{
    unsigned count = 0;

    for (unsigned flag = 3; flag <= 14; flag++)
        if (flag != 8)
            count += (unsigned)__builtin_popcount(state[lies_at(port, flag)] & ~state[lies_at(port, mask_of(flag))]);
    return count;
}

/* ---- Reset */

/* Low eight bits of the sum of a page's bytes. */
static uint8_t sum(const uint8_t *page, unsigned first, unsigned last)
{
    unsigned total = 0;

    for (unsigned address = first; address <= last; address++)
        total += page[address - 128];
    return (uint8_t)(total % 256);
}

bool check_codes_right(const uint8_t *page)
{
    return page[191 - 128] == sum(page, 128, 190) && page[223 - 128] == sum(page, 192, 222);
}

void reset_to(uint8_t *state, const uint8_t *image)
{
    static const struct { unsigned first, last; } zero[] = {
        {3, 14}, {22, 57}, {100, 104}, {119, 127}, {PAGE_03(242), PAGE_03(247)},
        {RECORD(OPERATOR), RECORD(RECORDER) + 23},
    };

    memcpy(state, image, PAGE_02(128));
    memcpy(state + PAGE_03(128), image + PAGE_03(128), PAGE_LEN);
    state[2] = (image[2] & 0x04) | 0x01;
    for (size_t i = 0; i < sizeof zero / sizeof zero[0]; i++)
        memset(state + zero[i].first, 0, zero[i].last - zero[i].first + 1);
}

/* ---- Samples and conditions */

const struct quantity QUANTITIES[5] = {
    [TEMPERATURE] = {1, 3, 22, PAGE_03(128)},
    [SUPPLY] = {1, 5, 26, PAGE_03(144)},
    [RX_POWER] = {4, 7, 34, PAGE_03(176)},
    [TX_BIAS] = {4, 15, 42, PAGE_03(184)},
    [TX_POWER] = {4, 23, 50, PAGE_03(192)},
};

bool tx_power_offered(const uint8_t *state)
{
    return (state[PAGE_00(220)] & 0x04) != 0;
}

/* High byte first; temperature is signed, the rest unsigned. */
int number(unsigned quantity, const uint8_t *two_bytes)
{
    int value = two_bytes[0] * 256 + two_bytes[1];

    return quantity == TEMPERATURE && value >= 0x8000 ? value - 0x10000 : value;
}

void store_numbers(uint8_t *state, const uint8_t *sample)
{
    for (unsigned q = 0; q < 5; q++)
        if (q != TX_POWER || tx_power_offered(state))
            memcpy(state + QUANTITIES[q].stored_at, sample + QUANTITIES[q].sample_at, 2 * QUANTITIES[q].channels);
    state[2] &= 0xfe;
}

/* The four conditions of a number: high alarm in bit 3, low alarm, high warning, low warning in bit 0. */
static unsigned four(const uint8_t *state, unsigned quantity, const uint8_t *two_bytes)
{
    const uint8_t *limits = state + QUANTITIES[quantity].limits_at;
    int value = number(quantity, two_bytes);
    bool high_alarm = value > number(quantity, limits), low_alarm = value < number(quantity, limits + 2);
    bool high_warning = value > number(quantity, limits + 4), low_warning = value < number(quantity, limits + 6);

    return high_alarm * 8u + low_alarm * 4u + high_warning * 2u + low_warning * 1u;
}

uint8_t conditions(const uint8_t *state, const uint8_t *sample, unsigned flag)
{
    if (flag <= 5)
        return sample[flag - 3];
    if (flag == 6 || flag == 7) {
        unsigned quantity = flag == 6 ? TEMPERATURE : SUPPLY;
        return (uint8_t)(four(state, quantity, sample + QUANTITIES[quantity].sample_at) << 4);
    }
    if (flag == 8)
        return 0;

    unsigned quantity = RX_POWER + (flag - 9) / 2;
    const uint8_t *odd = sample + QUANTITIES[quantity].sample_at + (flag - 9) % 2 * 4, *even = odd + 2;
    if (quantity == TX_POWER && !tx_power_offered(state))
        return 0;
    return (uint8_t)(four(state, quantity, odd) << 4 | four(state, quantity, even));
}
