/* demo_tell.h: how the two demos tell what happens and what each port was told. */
#ifndef DEMO_TELL_H
#define DEMO_TELL_H

#include "kind.h"

/* What the calls of a demo have reported, the operator's and the recorder's. */
struct told_ports {
    unsigned counts[PORTS];
    uint8_t read[PORTS][MOST_FLAG_BYTES]; /* all that each has read of its flag bytes */
};

/* The line above the events, and an event: when, what, and each port's interrupt after it. */
void tell_ports(void);
void tell_event(const struct told_ports *ports, unsigned minute, const char *what);

/* What each has read, flag by flag. Gives the exit status, and says it where the two were not told the same. */
int tell_read(const struct kind *kind, const struct told_ports *ports);

#endif
