/* eight_history.c: what stands now of an eight-channel module, worked out from the beginning and the list each time. See
 * eight_history.h. A reset is a new beginning: before the first sample after it all conditions are absent. */
#include "eight_history.h"

#include <string.h>

/* The conditions of a byte that are present in sample `i` of the list; with none, 0, in the beginning's last sample. */
static uint8_t present(const struct plain *m, size_t i, unsigned flag)
{
    return i != 0 ? m->list[i].bytes[flag - DD_FIRST_FLAG] & dd_flag_bits(flag) : m->beginning[DD_BEFORE(flag)];
}

/* Those that have their onset in it: present there, and absent in the accepted sample before. */
static uint8_t onsets(const struct plain *m, size_t i, unsigned flag)
{
    return (uint8_t)(present(m, i, flag) & ~present(m, m->list[i].previous, flag));
}

/* What the samples after the port's last read of a flag byte have made of it or, at another place, of its pending bits: what
 * `each` finds in them; if the port hasn't read it, with the beginning's. */
static uint8_t since_read(const struct plain *m, enum port port, unsigned flag, unsigned place,
                          uint8_t (*each)(const struct plain *m, size_t i, unsigned flag))
{
    size_t read = last_read(m, port, flag);
    uint8_t bits = read != 0 ? 0 : m->beginning[place];

    for (size_t i = m->last[SAMPLED][0]; i > read; i = m->list[i].previous)
        bits |= each(m, i, flag);
    return bits;
}

/* The mask bits of the port's last write of a mask byte; if there is none, the beginning's. */
static uint8_t masked(const struct plain *m, enum port port, unsigned mask)
{
    for (size_t i = m->last[WRITTEN][port]; i != 0; i = m->list[i].previous) {
        const struct call *c = &m->list[i];
        if (in_run(c, mask))
            return c->bytes[mask - c->address] & dd_mask_bits(mask);
    }
    return m->beginning[DD_MASKS(port, mask)];
}

static void work_out_record(const struct plain *m, enum port port, uint8_t *now)
{
    for (unsigned flag = DD_FIRST_FLAG; flag <= DD_LAST_FLAG; flag++) {
        now[DD_FLAGS(port, flag)] = since_read(m, port, flag, DD_FLAGS(port, flag), present);
        now[DD_PENDING(port, flag)] = since_read(m, port, flag, DD_PENDING(port, flag), onsets);
    }
    for (unsigned mask = DD_FIRST_MASK; mask <= DD_LAST_MASK; mask++)
        now[DD_MASKS(port, mask)] = masked(m, port, mask);
}

bool dd_work_out(const struct plain *m, uint8_t now[DD_STATE_LEN])
{
    if (m->length != DD_STATE_LEN)
        return false;
    for (unsigned flag = DD_FIRST_FLAG; flag <= DD_LAST_FLAG; flag++)
        now[DD_BEFORE(flag)] = present(m, m->last[SAMPLED][0], flag);
    work_out_record(m, OPERATOR, now);
    work_out_record(m, RECORDER, now);
    return true;
}
