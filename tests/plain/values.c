/* values.c: identity fields, monitors and limits, of a page or of a state of 688 bytes: refusals in document 01's order, then the
 * answer. See rules.h. */
#include "rules.h"

/* ---- Identity */

static bool sound_page(const uint8_t *page, size_t len)
{
    return len == PAGE_LEN && check_codes_right(page);
}

uint32_t identity_field(const uint8_t *live, size_t live_len, const uint8_t *factory, size_t factory_len, uint64_t field)
{
    static const struct { unsigned first, last; } fields[7] = {
        [1] = {148, 163}, {165, 167}, {168, 183}, {184, 185}, {196, 211}, {212, 219},
    };
    bool use_live = sound_page(live, live_len);

    if (field < 1 || field > 6)
        return 12;
    if (!use_live && !sound_page(factory, factory_len))
        return 11;

    const uint8_t *page = use_live ? live : factory;
    unsigned start = fields[field].first - 128, length = fields[field].last - fields[field].first + 1;
    if (field != 2)
        while (length > 0 && page[start + length - 1] == 0x20)
            length--;
    return (use_live ? 1u : 2u) << 8 | start << 16 | length << 24;
}

/* ---- Monitors and limits. The kinds are zikhrodan.h's: degrees, volts, milliwatts, milliamperes. */

static const struct { uint32_t kind; double divisor; } UNITS[5] = {
    [TEMPERATURE] = {1, 256}, [SUPPLY] = {2, 10000}, [RX_POWER] = {3, 10000}, [TX_BIAS] = {4, 500},
    [TX_POWER] = {3, 10000},
};

static double in_its_unit(unsigned quantity, const uint8_t *two_bytes)
{
    return (double)number(quantity, two_bytes) / UNITS[quantity].divisor;
}

static unsigned quantity_of(uint64_t monitor)
{
    return monitor < 2 ? (unsigned)monitor : RX_POWER + (unsigned)(monitor - 2) / 4;
}

static unsigned channel_of(uint64_t monitor)
{
    return monitor < 2 ? 0 : (unsigned)(monitor - 2) % 4;
}

static bool no_such_monitor(uint64_t monitor)
{
    return monitor > 13;
}

static bool measured(const uint8_t *state, uint64_t monitor)
{
    bool data_not_ready = (state[2] & 0x01) != 0;

    return !data_not_ready && (quantity_of(monitor) != TX_POWER || tx_power_offered(state));
}

uint32_t kind_of_monitor(const uint8_t *state, uint64_t monitor)
{
    if (no_such_monitor(monitor))
        return 13;
    return measured(state, monitor) ? UNITS[quantity_of(monitor)].kind << 8 : 0;
}

double value_of_monitor(const uint8_t *state, uint64_t monitor)
{
    if (no_such_monitor(monitor) || !measured(state, monitor))
        return 0.0;
    return in_its_unit(quantity_of(monitor), state + QUANTITIES[quantity_of(monitor)].stored_at + 2 * channel_of(monitor));
}

uint32_t refusal_of_limits(uint64_t quantity)
{
    return quantity > 4 ? 13 : 0;
}

/* The limits are in the thresholds' order: high alarm 0, low alarm 1, high warning 2, low warning 3. */
double limit_of(const uint8_t *state, uint64_t quantity, uint64_t which)
{
    if (refusal_of_limits(quantity) || which > 3)
        return 0.0;
    return in_its_unit((unsigned)quantity, state + QUANTITIES[quantity].limits_at + 2 * which);
}
