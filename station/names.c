/* names.c: see names.h. */
#include "names.h"

#include <stdio.h>

const char *const LIMIT_NAMES[LIMITS] = {"high alarm", "low alarm", "high warning", "low warning"};
const char *const UNIT_NAMES[] = {"", "C", "V", "mW", "mA"};
const int UNIT_DECIMALS[] = {
    [ZIKHRODAN_DEGREES] = 4, [ZIKHRODAN_VOLTS] = 4, [ZIKHRODAN_MILLIWATTS] = 4, [ZIKHRODAN_MILLIAMPERES] = 3,
};
const enum zikhrodan_kind QUANTITY_KINDS[QUANTITIES] = {
    ZIKHRODAN_DEGREES, ZIKHRODAN_VOLTS, ZIKHRODAN_MILLIWATTS, ZIKHRODAN_MILLIAMPERES, ZIKHRODAN_MILLIWATTS,
};
const char *const PAGE_TITLES[PAGES] = {
    "identity, options", "application select", "the operator's own EEPROM", "thresholds, controls",
};
const char *const FIELD_NAMES[7] = {"", "vendor name", "vendor OUI", "part number", "revision", "serial number", "date code"};

/* Status bytes 3 to 5: bits 7 to 4 are one kind, 3 to 0 another, channel 1 the lowest of each. */
static const struct { const char *of, *key; } STATUS[3][2] = {
    {{"Rx loss of signal", "rx_loss_of_signal"}, {"Tx loss of signal", "tx_loss_of_signal"}},
    {{"Tx fault", "tx_fault"}, {"Tx equaliser fault", "tx_adaptive_eq_fault"}},
    {{"Rx loss of lock", "rx_loss_of_lock"}, {"Tx loss of lock", "tx_loss_of_lock"}},
};

static const struct { const char *of, *key; unsigned first; } MEASURED[QUANTITIES] = {
    {"temperature", "module_temperature", ZIKHRODAN_TEMPERATURE},
    {"supply", "module_voltage", ZIKHRODAN_SUPPLY},
    {"Rx power", "laser_rx_power", ZIKHRODAN_RX_POWER_1},
    {"Tx bias", "laser_bias_current", ZIKHRODAN_TX_BIAS_1},
    {"Tx power", "laser_tx_power", ZIKHRODAN_TX_POWER_1},
};

/* Bytes 6 and 7: temperature and supply in bits 7 to 4. Bytes 9 to 14: three quantities, two channels in each byte, the odd one
 * in bits 7 to 4. Byte 8 and the low halves of 6 and 7 are no flags. */
static struct flag limit_flag(unsigned byte, unsigned bit)
{
    unsigned quantity = byte < 8 ? byte - 6 : ZIKHRODAN_OF_RX_POWER + (byte - 9) / 2;
    unsigned channel = byte < 8 ? 0 : (byte - 9) % 2 * 2 + (bit >= 4 ? 1 : 2);

    if (byte == 8 || (byte < 8 && bit < 4))
        return (struct flag){.of = NULL};
    return (struct flag){
        .of = MEASURED[quantity].of,
        .key = MEASURED[quantity].key,
        .limit = 3 - (int)(bit % 4),
        .channel = channel,
        .monitor = MEASURED[quantity].first + (channel ? channel - 1 : 0),
    };
}

struct flag flag_at(unsigned byte, unsigned bit)
{
    if (byte >= 6)
        return limit_flag(byte, bit);
    return (struct flag){
        .of = STATUS[byte - FLAGS_AT][bit / 4].of,
        .key = STATUS[byte - FLAGS_AT][bit / 4].key,
        .limit = -1,
        .channel = bit % 4 + 1,
        .monitor = MONITORS,
    };
}

const char *port_name(uint64_t port)
{
    return port == ZIKHRODAN_OPERATOR ? "operator" : "recorder";
}

char *flag_name(struct flag flag, char *name, size_t room)
{
    char number[NAME_ROOM];

    if (!flag.of)
        snprintf(name, room, "no flag");
    else if (flag.limit >= 0)
        snprintf(name, room, "%s %s", monitor_name(flag.monitor, number, sizeof number), LIMIT_NAMES[flag.limit]);
    else if (flag.channel > 0)
        snprintf(name, room, "%.2s%u%s", flag.of, flag.channel, flag.of + 2);
    else
        snprintf(name, room, "%s", flag.of);
    return name;
}

unsigned quantity_of(unsigned monitor)
{
    unsigned quantity = QUANTITIES - 1;

    while (MEASURED[quantity].first > monitor)
        quantity--;
    return quantity;
}

char *monitor_name(unsigned monitor, char *name, size_t room)
{
    unsigned quantity = quantity_of(monitor);

    if (quantity < ZIKHRODAN_OF_RX_POWER)
        snprintf(name, room, "%s", MEASURED[quantity].of);
    else
        snprintf(name, room, "%s %u", MEASURED[quantity].of, monitor - MEASURED[quantity].first + 1);
    return name;
}
