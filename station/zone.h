/* zone.h: the zone of local time. */
#ifndef ZONE_H
#define ZONE_H

#include <stdbool.h>

/* Whether the zone that TZ names is one that is known here; else an error is said. The C library takes one that it doesn't know
 * for UTC, and says nothing. */
bool zone_is_known(void);

#endif
