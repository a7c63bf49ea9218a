/* refusals.c: why reset, sample, read and write refuse, in document 01's order, once the state has its 688 bytes. See rules.h. */
#include "rules.h"

uint32_t reset_refusal(const uint8_t *image, size_t image_len)
{
    if (image_len != IMAGE_LEN)
        return 9;
    if (!check_codes_right(image + PAGE_00(128)))
        return 10;
    return 0;
}

uint32_t sample_refusal(const uint8_t *state, size_t sample_len)
{
    if (!sound(state, OPERATOR) || !sound(state, RECORDER))
        return 3;
    if (sample_len != SAMPLE_LEN)
        return 8;
    return 0;
}

/* "address + count above 256", as a sum that cannot overflow: the count is 1 to 128 by then. */
static bool above_256(uint64_t address, uint64_t count)
{
    return address > 256 - count;
}

uint32_t read_refusal(const uint8_t *state, uint64_t port, uint64_t address, uint64_t count, size_t out_len)
{
    if (port != OPERATOR && port != RECORDER)
        return 2;
    if (!sound(state, (enum port)port))
        return 3;
    if (count == 0 || count > 128)
        return 4;
    if (above_256(address, count))
        return 5;
    if (out_len < count)
        return 6;
    return 0;
}

static bool touches_not_its_own(const uint8_t *state, uint64_t address, uint64_t count)
{
    for (uint64_t n = 0; n < count; n++)
        if (!recorders_own(place_of(state[lies_at(RECORDER, 127)], (uint8_t)(address + n))))
            return true;
    return false;
}

uint32_t write_refusal(const uint8_t *state, uint64_t port, uint64_t address, uint64_t count)
{
    if (port != OPERATOR && port != RECORDER)
        return 2;
    if (!sound(state, (enum port)port))
        return 3;
    if (count == 0 || count > 4)
        return 4;
    if (above_256(address, count) || (address <= 127 && address + count - 1 >= 128))
        return 5;
    if (port == RECORDER && touches_not_its_own(state, address, count))
        return 7;
    return 0;
}
