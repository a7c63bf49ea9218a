/* direct.c: the plain C engine: the state changed where it lies, a read address by address, a write byte by byte; its calls on a
 * log are in direct_log.c. See direct.h.
 *
 * The rules are those of tests/plain, the engine that the library is compared with. Their sources are included and not linked, so
 * that all is one translation unit, every function is static, and the compiler can inline. */
#include "direct.h"

#define LINKAGE static __attribute__((unused)) /* address_of is not used here */
#include "../tests/plain/rules.c"
#include "../tests/plain/ports.c"
#include "../tests/plain/refusals.c"
#include "../tests/plain/values.c"

uint32_t direct_reset(uint8_t *state, size_t state_len, const uint8_t *image, size_t image_len)
{
    uint32_t refusal = state_len == STATE_LEN ? reset_refusal(image, image_len) : 1;

    if (refusal == 0)
        reset_to(state, image);
    return refusal; /* and the counts are 0, as both records are */
}

uint32_t direct_sample(uint8_t *state, size_t state_len, const uint8_t *sample, size_t sample_len)
{
    uint32_t refusal = state_len == STATE_LEN ? sample_refusal(state, sample_len) : 1;

    if (refusal)
        return refusal;
    for (unsigned flag = 3; flag <= 14; flag++) {
        uint8_t bits = conditions(state, sample, flag);
        state[lies_at(OPERATOR, flag)] |= bits;
        state[lies_at(RECORDER, flag)] |= bits;
    }
    store_numbers(state, sample);
    return let_through(state, OPERATOR) << 8 | let_through(state, RECORDER) << 16;
}

uint32_t direct_read(uint8_t *state, size_t state_len, uint64_t port, uint64_t address, uint64_t count, uint8_t *out,
                     size_t out_len)
{
    uint32_t refusal = state_len == STATE_LEN ? read_refusal(state, port, address, count, out_len) : 1;

    if (refusal)
        return refusal;
    for (unsigned n = 0; n < count; n++)
        out[n] = seen(state, (enum port)port, (unsigned)address + n);
    for (unsigned flag = 3; flag <= 14; flag++)
        if (flag >= address && flag < address + count)
            state[lies_at((enum port)port, flag)] = 0;
    return let_through(state, (enum port)port) << 8;
}

uint32_t direct_write(uint8_t *state, size_t state_len, uint64_t port, uint64_t address, const uint8_t *data, size_t data_len)
{
    uint32_t refusal = state_len == STATE_LEN ? write_refusal(state, port, address, data_len) : 1;

    if (refusal)
        return refusal;
    uint8_t page = state[lies_at((enum port)port, 127)];
    for (unsigned n = 0; n < data_len; n++) {
        unsigned place = place_of(page, (unsigned)address + n);
        uint8_t *byte = &state[lies_at((enum port)port, place)];
        *byte = written_over(state, place, *byte, data[n]);
    }
    return let_through(state, (enum port)port) << 8;
}

uint32_t direct_identity(const uint8_t *live, size_t live_len, const uint8_t *factory, size_t factory_len, uint64_t field)
{
    return identity_field(live, live_len, factory, factory_len, field);
}

uint32_t direct_monitor_kind(const uint8_t *state, size_t state_len, uint64_t number)
{
    return state_len == STATE_LEN ? kind_of_monitor(state, number) : 1;
}

double direct_monitor_value(const uint8_t *state, size_t state_len, uint64_t number)
{
    return state_len == STATE_LEN ? value_of_monitor(state, number) : 0.0;
}

uint32_t direct_limits_refusal(const uint8_t *state, size_t state_len, uint64_t quantity)
{
    (void)state;
    return state_len == STATE_LEN ? refusal_of_limits(quantity) : 1;
}

double direct_limit(const uint8_t *state, size_t state_len, uint64_t quantity, uint64_t which)
{
    return state_len == STATE_LEN ? limit_of(state, quantity, which) : 0.0;
}
