/* show_json.c: the form for programs: an array with an object for each port.
 *
 * Where ethtool 6.14 (`ethtool -j -m`) has a fact, it has its key and its shape; all else is in the one object "zikhrodan", which
 * show_ours.c prints. ethtool has the keys module_temperature and module_voltage twice, for a value and for limits: here those
 * limits are among ours. */
#include "show_json.h"

#include <stdio.h>

/* ethtool's keys. Those of the flags are in names.c; where they are of a limit, its key comes after, with "_" between. */
static const char *const FIELD_KEYS[FIELDS] = {
    "", "vendor_name", "vendor_oui", "vendor_pn", "vendor_rev", "vendor_sn", "date_code",
};
static const char *const LIMIT_KEYS[LIMITS] = {"high_alarm", "low_alarm", "high_warning", "low_warning"};
static const struct { const char *value, *limits; } QUANTITY_KEYS[QUANTITIES] = {
    {"module_temperature", NULL}, {"module_voltage", NULL}, {"rx_power", "laser_rx_power"},
    {"laser_tx_bias_current", "laser_bias_current"}, {"transmit_avg_optical_power", "laser_output_power"},
};

static void field_value(struct json *json, const struct shown_identity *identity, unsigned field)
{
    const uint8_t *bytes = identity->fields[field].bytes;
    size_t len = identity->fields[field].len;

    json_key(json, FIELD_KEYS[field]);
    if (identity->refusal != ZIKHRODAN_ACCEPTED) {
        json_null(json);
    } else if (field == ZIKHRODAN_VENDOR_OUI) {
        json_begin(json, '[');
        for (size_t i = 0; i < len; i++)
            json_number(json, bytes[i]);
        json_end(json);
    } else {
        json_bytes(json, bytes, len);
    }
}

/* ---- flags */

static void flag_values(struct json *json, const struct shown_port *port, struct flag flag)
{
    struct place places[MOST_CHANNELS];
    unsigned count = channels_of(&FOUR, flag, places);

    if (!answered(port)) {
        json_null(json);
        return;
    }
    if (count > 1)
        json_begin(json, '[');
    for (unsigned i = 0; i < count; i++)
        json_bool(json, bit_at(port->view.flags, places[i]));
    if (count > 1)
        json_end(json);
}

/* Each kind of flag once, at its first channel. */
static void flags_values(struct json *json, const struct shown_port *port)
{
    for (unsigned i = 0; i < 8 * FLAG_BYTES; i++) {
        struct place at = place_shown(&FOUR, i);
        struct flag flag = flag_at(at.byte, at.bit);
        char key[2 * NAME_ROOM];
        if (!flag.of || flag.channel > 1)
            continue;
        snprintf(key, sizeof key, "%s%s%s", flag.key, flag.limit < 0 ? "" : "_", flag.limit < 0 ? "" : LIMIT_KEYS[flag.limit]);
        json_key(json, key);
        flag_values(json, port, flag);
    }
}

/* ---- monitors and limits */

/* A number, or an array where the quantity has channels. */
static void quantity_values(struct json *json, const struct shown *shown, unsigned quantity)
{
    bool channels = quantity >= ZIKHRODAN_OF_RX_POWER;

    if (channels)
        json_begin(json, '[');
    for (unsigned monitor = 0; monitor < MONITORS; monitor++) {
        if (quantity_of(monitor) != quantity)
            continue;
        shown->kinds[monitor] == ZIKHRODAN_NOTHING ? json_null(json) : json_number(json, shown->values[monitor]);
    }
    if (channels)
        json_end(json);
}

/* ethtool has an object of values and type for this one; which type of power it is document 01 doesn't say. */
static void rx_power(struct json *json, const struct shown *shown)
{
    json_begin(json, '{');
    json_key(json, "values");
    quantity_values(json, shown, ZIKHRODAN_OF_RX_POWER);
    json_end(json);
}

static void values(struct json *json, const struct shown *shown)
{
    for (unsigned quantity = 0; quantity < QUANTITIES; quantity++) {
        json_key(json, QUANTITY_KEYS[quantity].value);
        if (quantity == ZIKHRODAN_OF_RX_POWER)
            rx_power(json, shown);
        else
            quantity_values(json, shown, quantity);
    }
}

void json_limits(struct json *json, const char *key, const double limits[LIMITS])
{
    char of_limit[NAME_ROOM];

    json_key(json, key);
    json_begin(json, '{');
    for (unsigned which = 0; which < LIMITS; which++) {
        snprintf(of_limit, sizeof of_limit, "%s_threshold", LIMIT_KEYS[which]);
        json_key(json, of_limit);
        json_number(json, limits[which]);
    }
    json_end(json);
}

static void port_object(struct json *json, const struct shown *shown, const struct shown_port *port)
{
    json_begin(json, '{');
    for (unsigned field = ZIKHRODAN_VENDOR_NAME; field < FIELDS; field++)
        field_value(json, &shown->identity, field);
    values(json, shown);
    flags_values(json, port);
    for (unsigned quantity = 0; quantity < QUANTITIES; quantity++)
        if (QUANTITY_KEYS[quantity].limits)
            json_limits(json, QUANTITY_KEYS[quantity].limits, shown->limits[quantity]);
    json_ours(json, shown, port);
    json_end(json);
}

void show_json(const struct shown *shown)
{
    struct json json = {0};

    json_begin(&json, '[');
    for (unsigned i = 0; i < shown->port_count; i++)
        port_object(&json, shown, &shown->ports[i]);
    json_end(&json);
}
