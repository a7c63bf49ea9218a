/* show_ours.c: the object "zikhrodan" of a port's JSON: what ethtool has no key for. */
#include "show_json.h"
#include "why.h"
#include "words.h"

static void refusal(struct json *json, uint32_t number, const char *why)
{
    json_key(json, "refusal");
    json_number(json, number);
    json_key(json, "words");
    json_words(json, why);
}

static void our_identity(struct json *json, const struct shown_identity *identity)
{
    bool heard = identity->refusal == ZIKHRODAN_ACCEPTED;

    json_key(json, "identity");
    json_begin(json, '{');
    refusal(json, identity->refusal, zikhrodan_words(identity->refusal));
    json_key(json, "page");
    heard ? json_words(json, identity->page == ZIKHRODAN_LIVE ? "live" : "factory") : json_null(json);
    json_key(json, "image");
    identity->page == ZIKHRODAN_FACTORY ? json_words(json, identity->image) : json_null(json);
    json_key(json, "check_code_191");
    json_bool(json, identity->codes.first);
    json_key(json, "check_code_223");
    json_bool(json, identity->codes.second);
    json_end(json);
}

/* The names of flags, as the other forms have them. */
static void names(struct json *json, const uint8_t flags[MOST_FLAG_BYTES])
{
    char name[NAME_ROOM];

    json_begin(json, '[');
    for (unsigned i = 0; i < 8 * FLAG_BYTES; i++) {
        struct place at = place_shown(&FOUR, i);
        if (bit_at(flags, at))
            json_words(json, flag_name(flag_at(at.byte, at.bit), name, sizeof name));
    }
    json_end(json);
}

void json_port(struct json *json, const struct shown *shown, const struct shown_port *port)
{
    const struct port_view *view = &port->view;
    bool heard = answered(port);

    json_key(json, "channels");
    json_number(json, shown->state.kind->channels);
    json_key(json, "port");
    json_words(json, port_name(port->number));
    refusal(json, view->refusal, why_port(shown->state.kind, view->refusal, port->number));
    json_key(json, "count");
    heard ? json_number(json, view->count) : json_null(json);
    json_key(json, "interrupt");
    heard ? json_bool(json, view->count != 0) : json_null(json);
}

static void our_answers(struct json *json, const struct shown_port *port)
{
    bool heard = answered(port);

    json_key(json, "selected_page");
    heard ? json_number(json, port->view.page) : json_null(json);
    json_key(json, "masked_flags");
    heard ? names(json, port->masked) : json_null(json);
}

void json_ours(struct json *json, const struct shown *shown, const struct shown_port *port)
{
    json_key(json, "zikhrodan");
    json_begin(json, '{');
    json_port(json, shown, port);
    our_answers(json, port);
    json_key(json, "outside");
    names(json, shown->outside);
    our_identity(json, &shown->identity);
    json_limits(json, "module_temperature_thresholds", shown->limits[ZIKHRODAN_OF_TEMPERATURE]);
    json_limits(json, "module_voltage_thresholds", shown->limits[ZIKHRODAN_OF_SUPPLY]);
    json_end(json);
}
