/* show_eight_json.c: the eight-channel module for programs. ethtool has no key for it, so all is in the object "zikhrodan". */
#include "show_json.h"

/* The mask byte of a flag, or null where none holds the flag back. */
static void mask_address(struct json *json, struct place at)
{
    unsigned address = at.byte - ZIKHRODAN_DD_RX_LOS + ZIKHRODAN_DD_RX_LOS_MASK;

    json_key(json, "mask_address");
    ask_mask(&EIGHT, address, at) ? json_whole(json, address) : json_null(json);
}

static void bit_value(struct json *json, const char *key, const uint8_t *flags, struct place at, bool heard)
{
    json_key(json, key);
    heard ? json_bool(json, bit_at(flags, at)) : json_null(json);
}

static void flag_object(struct json *json, const struct shown *shown, const struct shown_port *port, struct place at)
{
    char name[NAME_ROOM];

    json_begin(json, '{');
    json_key(json, "name");
    json_words(json, flag_name(eight_flag_at(at.byte, at.bit), name, sizeof name));
    json_key(json, "address");
    json_whole(json, at.byte);
    json_key(json, "bit");
    json_whole(json, at.bit);
    mask_address(json, at);
    bit_value(json, "condition", shown->conditions, at, true);
    bit_value(json, "raised", port->view.flags, at, answered(port));
    bit_value(json, "pending", port->view.pending, at, answered(port));
    bit_value(json, "masked", port->masked, at, answered(port));
    json_end(json);
}

static void flags(struct json *json, const struct shown *shown, const struct shown_port *port)
{
    json_key(json, "flags");
    json_list(json);
    for (unsigned i = 0; i < MOST_FLAGS; i++) {
        struct place at = place_shown(&EIGHT, i);
        if (eight_flag_at(at.byte, at.bit).of)
            flag_object(json, shown, port, at);
    }
    json_end(json);
}

void show_eight_json(const struct shown *shown)
{
    struct json json = {0};

    json_begin(&json, '[');
    for (unsigned i = 0; i < shown->port_count; i++) {
        json_begin(&json, '{');
        json_key(&json, "zikhrodan");
        json_begin(&json, '{');
        json_port(&json, shown, &shown->ports[i]);
        flags(&json, shown, &shown->ports[i]);
        json_end(&json);
        json_end(&json);
    }
    json_end(&json);
}
