/* history.c: what stands now, worked out from the beginning and the list each time. See history.h.
 *
 * No flag, mask, selected page or monitor byte is kept. To find things sooner, each call has the number of the call before it of
 * its kind and port, and a sample has its conditions, which follow from its bytes and the beginning: no call in the list alters a
 * threshold, byte 220, or which pages are supported. */
#include "history.h"

#include <string.h>

void append_sample(struct plain *m, const uint8_t *sample)
{
    struct call *c = append(m, SAMPLED, 0, 0, SAMPLE_LEN, sample);

    for (unsigned flag = 3; flag <= 14; flag++)
        c->raises[flag] = conditions(m->beginning, sample, flag);
}

/* What the port's last write of a place made of it, call `last` being the port's last write to look at; else the beginning's.
 * An upper address lies in the page that the port had selected before that write. */
static uint8_t written(const struct plain *m, enum port port, unsigned place, size_t last)
{
    uint8_t begun = m->beginning[lies_at(port, place)];
    unsigned address = address_of(place);

    for (size_t i = last; i != 0; i = m->list[i].previous) {
        const struct call *c = &m->list[i];
        if (in_run(c, address) && (address < 128 || place == place_of(written(m, port, 127, c->previous), address)))
            return written_over(m->beginning, place, begun, c->bytes[address - c->address]);
    }
    return begun;
}

/* A port's flag byte: the conditions of the samples after the port's last read of it; if there is none, with the beginning's. */
static uint8_t raised(const struct plain *m, enum port port, unsigned flag)
{
    size_t read = last_read(m, port, flag);
    uint8_t flags = 0;

    for (size_t i = m->last[SAMPLED][0]; i > read; i = m->list[i].previous)
        flags |= m->list[i].raises[flag];
    return read != 0 ? flags : flags | m->beginning[lies_at(port, flag)];
}

static void work_out_record(const struct plain *m, enum port port, uint8_t *now)
{
    size_t last = m->last[WRITTEN][port];

    for (unsigned mask = 100; mask <= 104; mask++)
        now[lies_at(port, mask)] = written(m, port, mask, last);
    for (unsigned mask = PAGE_03(242); mask <= PAGE_03(247); mask++)
        now[lies_at(port, mask)] = written(m, port, mask, last);
    now[lies_at(port, 127)] = written(m, port, 127, last);
    for (unsigned flag = 3; flag <= 14; flag++)
        now[lies_at(port, flag)] = raised(m, port, flag);
}

/* Only a place that the operator has written since the beginning can differ from it, so no other is looked at. */
static void work_out_shared(const struct plain *m, uint8_t *now)
{
    size_t last = m->last[WRITTEN][OPERATOR];

    for (size_t i = last; i != 0; i = m->list[i].previous) {
        const struct call *c = &m->list[i];
        uint8_t page = written(m, OPERATOR, 127, c->previous);
        for (unsigned address = c->address; address < c->address + c->count; address++) {
            unsigned place = place_of(page, address);
            if (!in_records(place))
                now[place] = written(m, OPERATOR, place, last);
        }
    }
}

bool work_out(const struct plain *m, uint8_t now[STATE_LEN])
{
    size_t sample = m->last[SAMPLED][0];

    if (m->length != STATE_LEN)
        return false;
    memcpy(now, m->beginning, STATE_LEN);
    work_out_shared(m, now);
    if (sample != 0)
        store_numbers(now, m->list[sample].bytes);
    work_out_record(m, OPERATOR, now);
    work_out_record(m, RECORDER, now);
    return true;
}
