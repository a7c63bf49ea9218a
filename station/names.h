/* names.h: names for printing: of flags, monitors, quantities, limits, pages. Document 01's words; those of the 24 status flags
 * are document 000's, which 01 takes them from; those of the eight-channel module's flags are document 002's. */
#ifndef NAMES_H
#define NAMES_H

#include <stddef.h>
#include <zikhrodan.h>

/* The flag bytes are lower 3 to 14, in twelve; their bits are numbered as the document does, 7 to 0. Of an eight-channel module
 * they are 3 to 16; what holds either's has room for the most. */
enum { FLAGS_AT = ZIKHRODAN_REG_LOS_FLAGS, FLAG_BYTES = 12, MONITORS = 14, QUANTITIES = 5, LIMITS = 4, PAGES = 4, PORTS = 2 };
enum { MOST_FLAG_BYTES = ZIKHRODAN_DD_FLAG_BYTES, MOST_FLAGS = 8 * MOST_FLAG_BYTES, MOST_CHANNELS = 8 };

/* What a bit of a flag byte is a flag of. */
struct flag {
    const char *of;    /* such as "Rx loss of signal" or "Rx power"; null where the bit is no flag */
    const char *key;   /* ethtool's name for it in JSON, without the limit's; null for an eight-channel module's */
    int limit;         /* which of the four limits, in zikhrodan.h's numbers; -1 where it is not of a monitor */
    unsigned channel;  /* from 1 on; 0 where there are no channels */
    unsigned monitor;  /* the monitor of its number; MONITORS where there is none */
};
struct flag flag_at(unsigned byte, unsigned bit);       /* of document 01's module */
struct flag eight_flag_at(unsigned byte, unsigned bit); /* of the eight-channel one */

/* The name of the flag at a place, such as "Rx3 loss of signal" or "Rx power 3 low alarm", in `room` bytes; gives `name`. */
char *flag_name(struct flag flag, char *name, size_t room);
enum { NAME_ROOM = 40 };

/* "operator" or "recorder": a port's, 1 or 2. */
const char *port_name(uint64_t port);

/* Such as "Rx power 3": a monitor's, 0 to 13. */
char *monitor_name(unsigned monitor, char *name, size_t room);
unsigned quantity_of(unsigned monitor);

extern const char *const LIMIT_NAMES[LIMITS];
extern const char *const UNIT_NAMES[];    /* by zikhrodan.h's kinds */
extern const int UNIT_DECIMALS[];         /* for people, by the same */
extern const enum zikhrodan_kind QUANTITY_KINDS[QUANTITIES];
extern const char *const PAGE_TITLES[PAGES];
extern const char *const FIELD_NAMES[7];  /* identity's, from 1 */

#endif
