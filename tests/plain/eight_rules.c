/* eight_rules.c: the map of the eight-channel module, and why its calls refuse, in document 01's order. See eight_rules.h. */
#include "eight_rules.h"

/* ---- The map */

static bool is_flag_byte(unsigned address)
{
    return address >= DD_FIRST_FLAG && address <= DD_LAST_FLAG;
}

static bool is_mask_byte(unsigned address)
{
    return address >= DD_FIRST_MASK && address <= DD_LAST_MASK;
}

/* Document 002, Table 18: 8.3 to 8.0, 9.5 and 9.4 are reserved; all other bits of 3 to 16 are flags. */
uint8_t dd_flag_bits(unsigned flag)
{
    switch (flag) {
    case 8: return 0xf0;
    case 9: return 0xcf;
    default: return 0xff;
    }
}

/* Table 27, paired by name: each flag has its mask 99 bytes on, but 9.0, State Changed, has none: 108.0 is Init-Complete's, which
 * is no flag, as 107.3 to 107.0 are those of a second temperature. */
uint8_t dd_mask_bits(unsigned mask)
{
    uint8_t bits = dd_flag_bits(mask - 99);

    return mask == 108 ? bits & 0xfe : bits;
}

/* Each bit that is set is a flag, the mask of one, or pending where there is one. */
bool dd_sound(const uint8_t *state, enum port port)
{
    for (unsigned flag = DD_FIRST_FLAG; flag <= DD_LAST_FLAG; flag++)
        if ((state[DD_FLAGS(port, flag)] | state[DD_PENDING(port, flag)]) & ~dd_flag_bits(flag))
            return false;
    for (unsigned mask = DD_FIRST_MASK; mask <= DD_LAST_MASK; mask++)
        if (state[DD_MASKS(port, mask)] & ~dd_mask_bits(mask))
            return false;
    return true;
}

unsigned dd_let_through(const uint8_t *state, enum port port)
{
    unsigned count = 0;

    for (unsigned flag = DD_FIRST_FLAG; flag <= DD_LAST_FLAG; flag++)
        count += (unsigned)__builtin_popcount(state[DD_PENDING(port, flag)] & ~state[DD_MASKS(port, flag + 99)]);
    return count;
}

uint8_t dd_seen(const uint8_t *before, enum port port, unsigned address)
{
    if (is_flag_byte(address))
        return before[DD_FLAGS(port, address)];
    if (is_mask_byte(address))
        return before[DD_MASKS(port, address)];
    return 0;
}

/* ---- Refusals */

uint32_t dd_sample_refusal(const uint8_t *state, size_t sample_len)
{
    if (!dd_sound(state, OPERATOR) || !dd_sound(state, RECORDER))
        return 3;
    if (sample_len != DD_SAMPLE_LEN)
        return 8;
    return 0;
}

/* What a read and a write share: the most bytes differ. "address + count above 128" as a sum that cannot overflow. */
static uint32_t run_refusal(const uint8_t *state, uint64_t port, uint64_t address, uint64_t count, uint64_t most)
{
    if (port != OPERATOR && port != RECORDER)
        return 2;
    if (!dd_sound(state, (enum port)port))
        return 3;
    if (count == 0 || count > most)
        return 4;
    if (address > DD_ADDRESSES - count)
        return 5;
    return 0;
}

uint32_t dd_read_refusal(const uint8_t *state, uint64_t port, uint64_t address, uint64_t count, size_t out_len)
{
    uint32_t refusal = run_refusal(state, port, address, count, 128);

    if (refusal)
        return refusal;
    return out_len < count ? 6 : 0;
}

uint32_t dd_write_refusal(const uint8_t *state, uint64_t port, uint64_t address, uint64_t count)
{
    uint32_t refusal = run_refusal(state, port, address, count, 4);

    if (refusal || port == OPERATOR)
        return refusal;
    for (uint64_t n = 0; n < count; n++)
        if (!is_mask_byte((unsigned)(address + n)))
            return 7;
    return 0;
}
