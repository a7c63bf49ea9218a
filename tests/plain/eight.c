/* eight.c: each call on what stands now, worked out from the list; an accepted one is put at its end. See eight.h. */
#include "eight.h"
#include "eight_history.h"

/* The counts after an accepted call, of both ports or of one, packed as in zikhrodan.h. */
static uint32_t both_counts(const struct plain *m)
{
    uint8_t after[DD_STATE_LEN];

    dd_work_out(m, after);
    return dd_let_through(after, OPERATOR) << 8 | dd_let_through(after, RECORDER) << 16;
}

static uint32_t one_count(const struct plain *m, uint64_t port)
{
    uint8_t after[DD_STATE_LEN];

    dd_work_out(m, after);
    return dd_let_through(after, (enum port)port) << 8;
}

/* It takes no image: flags, masks and pending bits are clear, and so is what was present before. */
uint32_t plain_dd_reset(struct plain *m)
{
    static const uint8_t clear[DD_STATE_LEN];
    uint8_t now[DD_STATE_LEN];

    if (!dd_work_out(m, now))
        return 1;
    plain_begin(m, clear, DD_STATE_LEN);
    return both_counts(m);
}

uint32_t plain_dd_sample(struct plain *m, const uint8_t *sample, size_t sample_len)
{
    uint8_t now[DD_STATE_LEN];
    uint32_t refusal = dd_work_out(m, now) ? dd_sample_refusal(now, sample_len) : 1;

    if (refusal)
        return refusal;
    append(m, SAMPLED, 0, 0, DD_SAMPLE_LEN, sample);
    return both_counts(m);
}

uint32_t plain_dd_read(struct plain *m, uint64_t port, uint64_t address, uint64_t count, uint8_t *out, size_t out_len)
{
    uint8_t before[DD_STATE_LEN];
    uint32_t refusal = dd_work_out(m, before) ? dd_read_refusal(before, port, address, count, out_len) : 1;

    if (refusal)
        return refusal;
    append(m, READ, port, address, count, NULL);
    for (uint64_t n = 0; n < count; n++)
        out[n] = dd_seen(before, (enum port)port, (unsigned)(address + n));
    return one_count(m, port);
}

uint32_t plain_dd_write(struct plain *m, uint64_t port, uint64_t address, const uint8_t *data, size_t data_len)
{
    uint8_t now[DD_STATE_LEN];
    uint32_t refusal = dd_work_out(m, now) ? dd_write_refusal(now, port, address, data_len) : 1;

    if (refusal)
        return refusal;
    append(m, WRITTEN, port, address, data_len, data);
    return one_count(m, port);
}
