/* eight.c: the eight-channel module that is lent to a case's call. See eight.h. */
#include "eight.h"

#include <string.h>

uint8_t eight[ZIKHRODAN_DD_STATE_LEN];
static uint8_t as_set_up[sizeof eight];

bool is_eight(const struct one_call *c)
{
    return c->call >= EIGHT_RESET && c->call <= EIGHT_WRITE;
}

uint32_t set_up_eight(const struct one_call *c)
{
    uint8_t all_ff[ZIKHRODAN_DD_SAMPLE_LEN];
    uint32_t refused = zikhrodan_dd_reset(eight, sizeof eight);

    memset(all_ff, 0xff, sizeof all_ff);
    if (c->call != EIGHT_SAMPLE || c->again)
        refused |= zikhrodan_dd_sample(eight, sizeof eight, all_ff, sizeof all_ff) & 0xff;
    if (c->wrong == RECORD_BIT)
        eight[ZIKHRODAN_DD_OPERATOR_AT + ZIKHRODAN_DD_TEMPERATURE - ZIKHRODAN_DD_RX_LOS] |= 1;
    memcpy(as_set_up, eight, sizeof eight);
    return refused;
}

void put_back_eight(void)
{
    memcpy(eight, as_set_up, sizeof eight);
}

uint64_t make_eight(const struct one_call *c)
{
    size_t len = sizeof eight - (c->wrong == STATE_SIZE);

    switch (c->call) {
    case EIGHT_RESET: return zikhrodan_dd_reset(eight, len);
    case EIGHT_SAMPLE: return zikhrodan_dd_sample(eight, len, c->sample, ZIKHRODAN_DD_SAMPLE_LEN - (c->wrong == SAMPLE_SIZE));
    case EIGHT_READ: return zikhrodan_dd_read(eight, len, c->port, c->address, c->count, out, sizeof out - (c->wrong == OUT_SIZE));
    default: return zikhrodan_dd_write(eight, len, c->port, c->address, written, c->count);
    }
}

/* ---- calls that a generator chooses */

static uint64_t seed = 88172645463325252; /* Marsaglia's xorshift */

static uint64_t below(uint64_t bound)
{
    seed ^= seed << 13;
    seed ^= seed >> 7;
    seed ^= seed << 17;
    return (seed >> 16) % bound;
}

static void some_bytes(uint8_t *bytes, size_t len)
{
    uint64_t kind = below(4);

    for (size_t i = 0; i < len; i++)
        bytes[i] = (uint8_t)(kind == 0 ? 0 : kind == 1 ? 0xff : kind == 2 ? below(256) : below(256) & below(256) & below(256));
}

/* One in `often` is a byte less than it has to be. */
static size_t some_len(size_t len, uint64_t often)
{
    return len - (below(often) == 0);
}

static uint32_t some_call(void)
{
    uint8_t bytes[ZIKHRODAN_DD_SAMPLE_LEN];
    size_t len = some_len(sizeof eight, 64), out_len = below(8) ? sizeof out : (size_t)below(20);
    uint64_t port = below(40) ? 1 + below(2) : below(4), kind = below(16), place = below(3);
    uint64_t address = place == 0 ? below(130) : place == 1 ? below(18) : 98 + below(20);
    uint64_t count = kind < 10 ? below(6) : below(3) ? below(20) : below(131);

    some_bytes(bytes, sizeof bytes);
    if (kind == 0)
        return zikhrodan_dd_reset(eight, below(8) ? 0 : len);
    if (kind <= 4)
        return zikhrodan_dd_sample(eight, len, bytes, some_len(sizeof bytes, 16));
    if (kind <= 9)
        return zikhrodan_dd_write(eight, len, port, address, bytes, count);
    return zikhrodan_dd_read(eight, len, port, address, count, out, out_len);
}

static uint64_t joined(uint64_t sum, const uint8_t *bytes, size_t len)
{
    for (size_t i = 0; i < len; i++)
        sum = (sum ^ bytes[i]) * UINT64_C(1099511628211);
    return sum;
}

uint64_t some_calls(uint64_t many)
{
    uint64_t sum = 0;

    for (; many; many--) {
        uint32_t answer = some_call();
        sum = joined((sum ^ answer) * UINT64_C(1099511628211), eight, sizeof eight);
        sum = joined(sum, out, sizeof out);
        if (below(16) == 0)
            eight[below(sizeof eight)] ^= (uint8_t)(1u << below(8)); /* which may make a record unsound */
        if (below(32) == 0)
            sum ^= zikhrodan_dd_reset(eight, sizeof eight);
    }
    return sum;
}
