/* plain.c: each call on what stands now, worked out from the list; an accepted one is put at its end. See plain.h. */
#include "plain.h"
#include "eight_history.h"
#include "history.h"
#include "rules.h"

#include <string.h>

void plain_state(const struct plain *m, uint8_t *state)
{
    if (m->length)
        memcpy(state, m->beginning, m->length);
    if (!work_out(m, state))
        dd_work_out(m, state);
}

/* The counts after an accepted call, of both ports or of one, packed as in zikhrodan.h. */
static uint32_t both_counts(const struct plain *m)
{
    uint8_t after[STATE_LEN];

    work_out(m, after);
    return let_through(after, OPERATOR) << 8 | let_through(after, RECORDER) << 16;
}

static uint32_t one_count(const struct plain *m, uint64_t port)
{
    uint8_t after[STATE_LEN];

    work_out(m, after);
    return let_through(after, (enum port)port) << 8;
}

/* ---- Reset */

uint32_t plain_reset(struct plain *m, const uint8_t *image, size_t image_len)
{
    uint8_t now[STATE_LEN];
    uint32_t refusal = work_out(m, now) ? reset_refusal(image, image_len) : 1;

    if (refusal)
        return refusal;
    reset_to(now, image);
    plain_begin(m, now, STATE_LEN);
    return both_counts(m);
}

/* ---- Samples */

uint32_t plain_sample(struct plain *m, const uint8_t *sample, size_t sample_len)
{
    uint8_t now[STATE_LEN];
    uint32_t refusal = work_out(m, now) ? sample_refusal(now, sample_len) : 1;

    if (refusal)
        return refusal;
    append_sample(m, sample);
    return both_counts(m);
}

/* ---- Reading */

uint32_t plain_read(struct plain *m, uint64_t port, uint64_t address, uint64_t count, uint8_t *out, size_t out_len)
{
    uint8_t before[STATE_LEN];
    uint32_t refusal = work_out(m, before) ? read_refusal(before, port, address, count, out_len) : 1;

    if (refusal)
        return refusal;
    append(m, READ, port, address, count, NULL);
    for (uint64_t n = 0; n < count; n++)
        out[n] = seen(before, (enum port)port, (uint8_t)(address + n));
    return one_count(m, port);
}

/* ---- Writing */

uint32_t plain_write(struct plain *m, uint64_t port, uint64_t address, const uint8_t *data, size_t data_len)
{
    uint8_t now[STATE_LEN];
    uint32_t refusal = work_out(m, now) ? write_refusal(now, port, address, data_len) : 1;

    if (refusal)
        return refusal;
    append(m, WRITTEN, port, address, data_len, data);
    return one_count(m, port);
}

/* ---- Identity, monitors, limits */

uint32_t plain_identity(const uint8_t *live, size_t live_len, const uint8_t *factory, size_t factory_len, uint64_t field)
{
    return identity_field(live, live_len, factory, factory_len, field);
}

uint32_t plain_monitor_kind(const struct plain *m, uint64_t monitor)
{
    uint8_t now[STATE_LEN];

    return work_out(m, now) ? kind_of_monitor(now, monitor) : 1;
}

double plain_monitor_value(const struct plain *m, uint64_t monitor)
{
    uint8_t now[STATE_LEN];

    return work_out(m, now) ? value_of_monitor(now, monitor) : 0.0;
}

uint32_t plain_limits_refusal(const struct plain *m, uint64_t quantity)
{
    uint8_t now[STATE_LEN];

    return work_out(m, now) ? refusal_of_limits(quantity) : 1;
}

double plain_limit(const struct plain *m, uint64_t quantity, uint64_t which)
{
    uint8_t now[STATE_LEN];

    return work_out(m, now) ? limit_of(now, quantity, which) : 0.0;
}
