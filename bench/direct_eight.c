/* direct_eight.c: the plain C engine's calls on the eight-channel module, as one writes them from document 02's Ask 6 and the tables of
 * document 002: bit patterns in two tables, and all else byte by byte. See direct.h. */
#include "direct.h"

#include <stdbool.h>
#include <string.h>

enum { BYTES = 14, FLAGS_AT = 3, MASKS_AT = 102, ADDRESSES = 128, READ_MOST = 128, WRITE_MOST = 4 };

struct record {
    uint8_t flags[BYTES], masks[BYTES], pending[BYTES];
};

struct module {
    uint8_t before[BYTES]; /* the conditions of the last accepted sample */
    struct record records[2];
};

/* Tables 18 and 27: the flags of 3 to 16, and the masks of 102 to 115 that have a flag. */
static const uint8_t FLAGS[BYTES] = {0xff, 0xff, 0xff, 0xff, 0xff, 0xf0, 0xcf, 0xff, 0xff, 0xff, 0xff, 0xff, 0xff, 0xff};
static const uint8_t MASKS[BYTES] = {0xff, 0xff, 0xff, 0xff, 0xff, 0xf0, 0xce, 0xff, 0xff, 0xff, 0xff, 0xff, 0xff, 0xff};

static bool is_flag_byte(uint64_t address)
{
    return address >= FLAGS_AT && address < FLAGS_AT + BYTES;
}

static bool is_mask_byte(uint64_t address)
{
    return address >= MASKS_AT && address < MASKS_AT + BYTES;
}

static bool is_sound(const struct record *r)
{
    for (unsigned i = 0; i < BYTES; i++)
        if (r->flags[i] & ~FLAGS[i] || r->masks[i] & ~MASKS[i] || r->pending[i] & ~FLAGS[i])
            return false;
    return true;
}

static uint32_t let_through(const struct record *r)
{
    unsigned count = 0;

    for (unsigned i = 0; i < BYTES; i++)
        count += (unsigned)__builtin_popcount(r->pending[i] & ~r->masks[i]);
    return count;
}

uint32_t direct_dd_reset(uint8_t *state, size_t state_len)
{
    if (state_len != sizeof(struct module))
        return 1;
    memset(state, 0, state_len);
    return 0;
}

uint32_t direct_dd_sample(uint8_t *state, size_t state_len, const uint8_t *sample, size_t sample_len)
{
    struct module *m = (struct module *)state;

    if (state_len != sizeof *m)
        return 1;
    if (!is_sound(&m->records[0]) || !is_sound(&m->records[1]))
        return 3;
    if (sample_len != BYTES)
        return 8;
    for (unsigned i = 0; i < BYTES; i++) {
        uint8_t now = sample[i] & FLAGS[i], onset = now & ~m->before[i];
        for (unsigned port = 0; port < 2; port++) {
            m->records[port].flags[i] |= now;
            m->records[port].pending[i] |= onset;
        }
        m->before[i] = now;
    }
    return let_through(&m->records[0]) << 8 | let_through(&m->records[1]) << 16;
}

/* What a read and a write refuse alike: the most bytes differ. */
static uint32_t run_refusal(const struct module *m, size_t state_len, uint64_t port, uint64_t address, uint64_t count,
                            uint64_t most)
{
    if (state_len != sizeof *m)
        return 1;
    if (port != ZIKHRODAN_OPERATOR && port != ZIKHRODAN_RECORDER)
        return 2;
    if (!is_sound(&m->records[port - 1]))
        return 3;
    if (count == 0 || count > most)
        return 4;
    return address > ADDRESSES || address + count > ADDRESSES ? 5 : 0;
}

uint32_t direct_dd_read(uint8_t *state, size_t state_len, uint64_t port, uint64_t address, uint64_t count, uint8_t *out,
                        size_t out_len)
{
    struct module *m = (struct module *)state;
    uint32_t refusal = run_refusal(m, state_len, port, address, count, READ_MOST);

    if (refusal)
        return refusal;
    if (out_len < count)
        return 6;
    struct record *r = &m->records[port - 1];
    for (uint64_t n = 0; n < count; n++) {
        uint64_t at = address + n;
        if (is_flag_byte(at)) {
            out[n] = r->flags[at - FLAGS_AT];
            r->flags[at - FLAGS_AT] = 0;
            r->pending[at - FLAGS_AT] = 0;
        } else if (is_mask_byte(at)) {
            out[n] = r->masks[at - MASKS_AT];
        } else {
            out[n] = 0;
        }
    }
    return let_through(r) << 8;
}

uint32_t direct_dd_write(uint8_t *state, size_t state_len, uint64_t port, uint64_t address, const uint8_t *data, size_t data_len)
{
    struct module *m = (struct module *)state;
    uint32_t refusal = run_refusal(m, state_len, port, address, data_len, WRITE_MOST);

    if (refusal)
        return refusal;
    struct record *r = &m->records[port - 1];
    if (port == ZIKHRODAN_RECORDER && !(is_mask_byte(address) && is_mask_byte(address + data_len - 1)))
        return 7;
    for (size_t n = 0; n < data_len; n++)
        if (is_mask_byte(address + n))
            r->masks[address + n - MASKS_AT] = data[n] & MASKS[address + n - MASKS_AT];
    return let_through(r) << 8;
}
