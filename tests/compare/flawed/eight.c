/* eight.c: flaws of a library in its calls on an eight-channel module. See library.c. */
#include "../../../include/zikhrodan.h"

#include <stdbool.h>
#include <string.h>

uint32_t __real_zikhrodan_dd_reset(uint8_t *, size_t);
uint32_t __real_zikhrodan_dd_sample(uint8_t *, size_t, const uint8_t *, size_t);
uint32_t __real_zikhrodan_dd_read(uint8_t *, size_t, uint64_t, uint64_t, uint64_t, uint8_t *, size_t);
uint32_t __real_zikhrodan_dd_write(uint8_t *, size_t, uint64_t, uint64_t, const uint8_t *, size_t);

enum { LEN = ZIKHRODAN_DD_STATE_LEN, BYTES = ZIKHRODAN_DD_FLAG_BYTES };
enum { FLAGS_AT = ZIKHRODAN_DD_RX_LOS, MASKS_AT = ZIKHRODAN_DD_RX_LOS_MASK };

static volatile uint8_t seen;

static uint64_t narrowed(uint64_t number, int flaw)
{
    return FLAW == flaw ? (uint32_t)number : number;
}

/* A part of a port's record: ZIKHRODAN_DD_MASKS_IN or ZIKHRODAN_DD_PENDING_IN. */
static uint8_t *part(uint8_t *state, bool recorder, unsigned in)
{
    return state + (recorder ? ZIKHRODAN_DD_RECORDER_AT : ZIKHRODAN_DD_OPERATOR_AT) + in;
}

uint32_t __wrap_zikhrodan_dd_reset(uint8_t *state, size_t state_len)
{
    uint32_t answer = __real_zikhrodan_dd_reset(state, narrowed(state_len, 75));
    if (FLAW == 72 && !answer)
        state[-1] ^= 1;
    if (FLAW == 73 && answer && state_len)
        state[0] = 0;
    return answer;
}

uint32_t __wrap_zikhrodan_dd_sample(uint8_t *state, size_t state_len, const uint8_t *sample, size_t sample_len)
{
    static uint8_t last[BYTES];
    if (FLAW == 70 && sample_len == BYTES - 1)
        seen = sample[BYTES - 1];
    if (FLAW == 82 && state_len == LEN)
        memcpy(state, last, BYTES);
    uint32_t answer = __real_zikhrodan_dd_sample(state, narrowed(state_len, 75), sample, narrowed(sample_len, 76));
    if (answer & 0xff)
        return answer;
    memcpy(last, state, BYTES);
    if (FLAW == 71)
        ((uint8_t *)sample)[BYTES - 1] ^= 1;
    if (FLAW == 87)
        answer = (answer & 0xffff) | (answer & 0xff00) << 8;
    return answer;
}

/* What an accepted read of a state does as well. */
static uint32_t after_read(uint8_t *state, uint64_t port, uint64_t address, uint64_t count, uint8_t *out, uint32_t answer)
{
    bool recorder = port == ZIKHRODAN_RECORDER, flags = address < FLAGS_AT + BYTES && address + count > FLAGS_AT;
    if (flags && FLAW == (recorder ? 89 : 83))
        memset(part(state, !recorder, ZIKHRODAN_DD_PENDING_IN), 0, BYTES);
    if (flags && FLAW == 85 && !recorder)
        memset(state, 0, BYTES);
    for (uint64_t i = 0; FLAW == 86 && recorder && i < count; i++)
        if (address + i >= MASKS_AT && address + i < MASKS_AT + BYTES)
            out[i] = part(state, false, ZIKHRODAN_DD_MASKS_IN)[address + i - MASKS_AT];
    if (FLAW == 88 && recorder && part(state, false, ZIKHRODAN_DD_PENDING_IN)[6] & 1)
        answer = 5;
    return answer;
}

uint32_t __wrap_zikhrodan_dd_read(uint8_t *state, size_t state_len, uint64_t port, uint64_t address, uint64_t count, uint8_t *out,
                                  size_t out_len)
{
    if (FLAW == 74 && (uintptr_t)state % 2)
        __builtin_trap();
    uint32_t answer = __real_zikhrodan_dd_read(state, narrowed(state_len, 75), narrowed(port, 79), narrowed(address, 80),
                                               narrowed(count, 81), out, narrowed(out_len, 77));
    if (FLAW == 66 && answer & 0xff && out_len)
        out[0] ^= 1;
    if (FLAW == 67 && !out)
        *out = 0;
    if (answer & 0xff)
        return answer;
    if (FLAW == 65)
        out[out_len] = 0;
    return after_read(state, port, address, count, out, answer);
}

uint32_t __wrap_zikhrodan_dd_write(uint8_t *state, size_t state_len, uint64_t port, uint64_t address, const uint8_t *data,
                                   size_t data_len)
{
    if (FLAW == 68 && data_len)
        seen = data[data_len];
    if (FLAW == 69 && data_len)
        seen = data[-1];
    uint32_t answer = __real_zikhrodan_dd_write(state, narrowed(state_len, 75), narrowed(port, 79), narrowed(address, 80), data,
                                                narrowed(data_len, 78));
    if (FLAW == 90 && (answer & 0xff) == 7)
        part(state, false, ZIKHRODAN_DD_MASKS_IN)[0] = data[0];
    if (answer & 0xff || port != ZIKHRODAN_OPERATOR)
        return answer;
    if (FLAW == 84)
        memcpy(part(state, true, ZIKHRODAN_DD_MASKS_IN), part(state, false, ZIKHRODAN_DD_MASKS_IN), BYTES);
    if (FLAW == 91)
        answer += (uint32_t)(part(state, true, ZIKHRODAN_DD_PENDING_IN)[0] != 0) << 8;
    return answer;
}
