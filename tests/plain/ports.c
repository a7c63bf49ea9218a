/* ports.c: what a port finds, and what its writes make of a byte. See rules.h. */
#include "rules.h"

/* ---- Reading */

uint8_t seen(const uint8_t *before, enum port port, unsigned address)
{
    unsigned place = place_of(before[lies_at(port, 127)], address);

    if (place == 2) {
        bool pin = let_through(before, port) == 0;
        return (uint8_t)((before[2] & 0x05) | (pin ? 0x02 : 0));
    }
    if (place >= 119 && place <= 126)
        return 0;
    return before[lies_at(port, place)];
}

/* ---- Writing */

/* The writable bits of a place. */
static uint8_t writable(unsigned place)
{
    static const struct { unsigned first, last; uint8_t bits; } rows[] = {
        {86, 86, 0x0f}, {87, 88, 0xff}, {98, 98, 0xff}, {93, 93, 0x07},
        {100, 102, 0xff}, {103, 104, 0xf0}, {127, 127, 0xff},
        {PAGE_02(128), PAGE_02(255), 0xff}, {PAGE_03(234), PAGE_03(247), 0xff},
    };

    for (size_t i = 0; i < sizeof rows / sizeof rows[0]; i++)
        if (place >= rows[i].first && place <= rows[i].last)
            return rows[i].bits;
    return 0;
}

uint8_t written_over(const uint8_t *state, unsigned place, uint8_t old, uint8_t byte)
{
    uint8_t bits = writable(place);

    if (place == 127 && !supported(state, byte))
        byte = 0;
    return (uint8_t)((old & ~bits) | (byte & bits));
}

bool recorders_own(unsigned place)
{
    return (place >= 100 && place <= 104) || place == 127 || (place >= PAGE_03(242) && place <= PAGE_03(247));
}
