/* ask.c: see ask.h. */
#include "ask.h"

#include <string.h>

/* How far the port's bytes lie behind the operator's. */
static size_t behind(const struct state *state, uint64_t port)
{
    return (port - ZIKHRODAN_OPERATOR) * state->kind->record_len;
}

static uint32_t read_of(struct state *copy, uint64_t port, uint64_t address, uint64_t count, uint8_t *out)
{
    return copy->kind->read(copy->bytes, copy->len, port, address, count, out, count);
}

/* Selects a page in a copy, also where the module does not offer it: its masks hold back all the same. */
static void select_page(struct state *copy, uint64_t port, uint8_t page)
{
    copy->bytes[ZIKHRODAN_REG_STATUS] &= (uint8_t)~ZIKHRODAN_FLAT_MEMORY;
    copy->kind->write(copy->bytes, copy->len, port, ZIKHRODAN_REG_PAGE_SELECT, &page, 1);
}

struct port_view ask_port(const struct state *state, uint64_t port)
{
    struct port_view view = {0};
    struct state copy = *state;
    uint8_t page = 0;

    uint32_t answer = read_of(&copy, port, ZIKHRODAN_REG_PAGE_SELECT, 1, &page);
    view.refusal = zikhrodan_refusal_of(answer);
    if (view.refusal != ZIKHRODAN_ACCEPTED)
        return view;
    view.count = zikhrodan_count(answer);
    view.page = page;
    view.refusal = zikhrodan_refusal_of(read_of(&copy, port, FLAGS_AT, state->kind->flag_bytes, view.flags));
    memcpy(view.pending, state->bytes + state->kind->pending_at + behind(state, port), state->kind->flag_bytes);
    return view;
}

void ask_masked(const struct state *state, uint64_t port, uint8_t masked[MOST_FLAG_BYTES])
{
    const struct kind *kind = state->kind;
    struct state copy = *state;

    memset(masked, 0, MOST_FLAG_BYTES);
    if (ask_port(state, port).refusal != ZIKHRODAN_ACCEPTED)
        return;
    for (const struct masks *run = kind->masks; run->count > 0; run++) {
        if (run->page)
            select_page(&copy, port, run->page);
        read_of(&copy, port, run->address, run->count, masked + (run->flag - FLAGS_AT));
    }
}

bool ask_mask(const struct kind *kind, uint64_t mask_address, struct place at)
{
    struct state fresh = {.kind = kind, .len = kind->state_len};
    uint8_t mask = 0xff;

    uint32_t answer = kind->write(fresh.bytes, fresh.len, ZIKHRODAN_OPERATOR, mask_address, &mask, 1);
    if (zikhrodan_refusal_of(answer) != ZIKHRODAN_ACCEPTED)
        return false;
    read_of(&fresh, ZIKHRODAN_OPERATOR, mask_address, 1, &mask);
    return mask >> at.bit & 1;
}

/* Where the numbers of a sample stand in it, where they are stored, and how many bytes they are. */
static const struct { size_t in, at, len; } STORED[QUANTITIES] = {
    {ZIKHRODAN_SAMPLE_TEMPERATURE, ZIKHRODAN_REG_TEMPERATURE, 2}, {ZIKHRODAN_SAMPLE_SUPPLY, ZIKHRODAN_REG_SUPPLY, 2},
    {ZIKHRODAN_SAMPLE_RX_POWER_1, ZIKHRODAN_REG_RX_POWER_1, 8},   {ZIKHRODAN_SAMPLE_TX_BIAS_1, ZIKHRODAN_REG_TX_BIAS_1, 8},
    {ZIKHRODAN_SAMPLE_TX_POWER_1, ZIKHRODAN_REG_TX_POWER_1, 8},
};

void ask_outside(const struct state *state, uint8_t outside[MOST_FLAG_BYTES])
{
    struct state copy = *state;
    uint8_t sample[ZIKHRODAN_SAMPLE_LEN] = {0};

    memset(outside, 0, MOST_FLAG_BYTES);
    memset(copy.bytes + FOUR.flags_at, 0, PORTS * FOUR.record_len);
    for (unsigned i = 0; i < QUANTITIES; i++)
        memcpy(sample + STORED[i].in, state->bytes + STORED[i].at, STORED[i].len);
    if (zikhrodan_refusal_of(zikhrodan_sample(copy.bytes, copy.len, sample, sizeof sample)) == ZIKHRODAN_ACCEPTED)
        (void)read_of(&copy, ZIKHRODAN_OPERATOR, FLAGS_AT, FLAG_BYTES, outside); /* a refused read would leave it at 0 */
}

/* Zeros have the sum 0, so that a part of zeros has its check code right. */
static bool sound_with_zeros(const uint8_t *page, size_t from, size_t len)
{
    uint8_t copy[ZIKHRODAN_PAGE_LEN];

    memcpy(copy, page, sizeof copy);
    memset(copy + from, 0, len);
    uint32_t answer = zikhrodan_identity(copy, sizeof copy, NULL, 0, ZIKHRODAN_VENDOR_OUI);
    return zikhrodan_refusal_of(answer) == ZIKHRODAN_ACCEPTED;
}

struct codes_view ask_codes(const uint8_t page[ZIKHRODAN_PAGE_LEN])
{
    enum { FIRST_LEN = ZIKHRODAN_REG_BASE_CODE + 1 - ZIKHRODAN_PAGE_LEN,
           SECOND_LEN = ZIKHRODAN_REG_EXTENDED_CODE - ZIKHRODAN_REG_BASE_CODE };

    return (struct codes_view){
        .first = sound_with_zeros(page, FIRST_LEN, SECOND_LEN),
        .second = sound_with_zeros(page, 0, FIRST_LEN),
    };
}
