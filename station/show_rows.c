/* show_rows.c: see show_rows.h. */
#include "show_rows.h"

#include <string.h>

const char *cell(const struct shown *shown, const struct shown_port *port, struct place at)
{
    static const char *const words[8] = {
        "-", "raised", "pending", "raised, pending", "masked", "raised, masked", "pending, masked", "raised, pending, masked",
    };
    bool raised = bit_at(port->view.flags, at), masked = bit_at(port->masked, at);
    bool pending = shown->conditions && bit_at(port->view.pending, at);

    return words[raised | pending << 1 | masked << 2];
}

bool stands(const struct shown *shown, struct place at)
{
    return shown->conditions && bit_at(shown->conditions, at);
}

/* Whether there are several channels, and all that a row tells is the same for each of them. */
static bool alike(const struct shown *shown, const struct place *places, unsigned count)
{
    for (unsigned i = 0; i < count * shown->port_count; i++) {
        const struct shown_port *port = &shown->ports[i / count];
        if (cell(shown, port, places[i % count]) != cell(shown, port, places[0]))
            return false;
        if (stands(shown, places[i % count]) != stands(shown, places[0]))
            return false;
    }
    return count > 1;
}

static bool is_shown(const struct shown *shown, struct place at, enum which_flags which)
{
    bool tells = which == ALL_FLAGS || (which == TELLING_FLAGS && stands(shown, at));

    for (unsigned i = 0; i < shown->port_count; i++) {
        const struct shown_port *port = &shown->ports[i];
        tells |= bit_at(port->view.flags, at);
        tells |= which == TELLING_FLAGS && strcmp(cell(shown, port, at), "-") != 0;
    }
    return tells;
}

unsigned rows_of(const struct shown *shown, enum which_flags which, struct row rows[MOST_FLAGS], unsigned *others)
{
    const struct kind *kind = shown->state.kind;
    unsigned count = 0;

    *others = 0;
    for (unsigned i = 0; i < 8 * kind->flag_bytes; i++) {
        struct place at = place_shown(kind, i), places[MOST_CHANNELS];
        struct flag flag = kind->flag_at(at.byte, at.bit);
        bool told = flag.of && is_shown(shown, at, which);
        *others += flag.of && !told;
        if (!told)
            continue;
        bool all = which != ALL_FLAGS && alike(shown, places, channels_of(kind, flag, places));
        if (!all || flag.channel == 1)
            rows[count++] = (struct row){at, all};
    }
    return count;
}
