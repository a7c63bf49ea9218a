/* show.h: what `zikhrodan show` has asked of the library, and the forms that it is printed in. The forms only print. */
#ifndef SHOW_H
#define SHOW_H

#include "ask.h"

enum { FIELDS = ZIKHRODAN_DATE_CODE + 1 };

/* The words after the state. */
struct wanted {
    const char *port, *factory;
    bool raised, all, json, hex;
};

/* A port, and what it would read. */
struct shown_port {
    uint64_t number;
    struct port_view view;
    uint8_t masked[MOST_FLAG_BYTES];
};

struct shown_identity {
    uint32_t refusal;
    enum zikhrodan_page page;
    const char *image;       /* the factory image, by its file's name or in words */
    struct codes_view codes; /* of the live page, whichever the fields are from */
    struct { const uint8_t *bytes; size_t len; } fields[FIELDS]; /* from 1; all empty where it is refused */
};

struct shown {
    struct state state; /* as the library has been asked */
    struct shown_port ports[PORTS];
    unsigned port_count; /* the ports shown: both, or one */
    const uint8_t *conditions; /* of the last sample, as bits of the flag bytes; null where a module keeps none: document 01's */
    /* of document 01's module alone: */
    struct shown_identity identity;
    enum zikhrodan_kind kinds[MONITORS];
    double values[MONITORS];
    double limits[QUANTITIES][LIMITS];
    uint8_t outside[MOST_FLAG_BYTES]; /* as ask_outside has it; 0 for a monitor that has measured nothing */
};

static inline bool answered(const struct shown_port *port)
{
    return port->view.refusal == ZIKHRODAN_ACCEPTED;
}

/* Each kind of module, in the form that is wanted, once its ports are asked. Gives the exit status, with what is wrong with the
 * words said; what was refused is said by the caller. */
int show_four(struct shown *shown, const struct wanted *wanted);
int show_eight(struct shown *shown, const struct wanted *wanted);

/* The flags port by port, and a line for each port: all flags, those with something to tell, or those raised alone. */
enum which_flags { RAISED_FLAGS, TELLING_FLAGS, ALL_FLAGS };
enum which_flags which_flags(const struct wanted *wanted);
void show_flags(const struct shown *shown, enum which_flags which);

/* The other forms. `show_hex` has what the one port reads, or all bytes as they lie. */
void show_text(const struct shown *shown, enum which_flags which);
void show_json(const struct shown *shown);
void show_hex(const struct shown *shown, bool one_port);
void show_eight_json(const struct shown *shown);

/* What a hex form has of a port, after its title: the end of line, or the refusal and the end of line. */
void end_title(const struct shown *shown, const struct shown_port *port);

#endif
