/* show_json.h: what the two parts of the JSON form share. */
#ifndef SHOW_JSON_H
#define SHOW_JSON_H

#include "json.h"
#include "show.h"

/* The four limits of a quantity, as ethtool has them. */
void json_limits(struct json *json, const char *key, const double limits[LIMITS]);

/* What both kinds have of a port in the object "zikhrodan": how many channels, which port, what is refused, the count, the
 * interrupt. */
void json_port(struct json *json, const struct shown *shown, const struct shown_port *port);

/* The object "zikhrodan" of document 01's module. */
void json_ours(struct json *json, const struct shown *shown, const struct shown_port *port);

#endif
