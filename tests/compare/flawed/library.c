/* library.c: flaws of a library, for tests/compare/flaws. The linker's --wrap puts these functions before the library's own: each
 * passes the call on and does FLAW (see flaws.txt) as well; FLAW 0 is none. */
#include "../../../include/zikhrodan.h"

#include <stdbool.h>
#include <string.h>

uint32_t __real_zikhrodan_reset(uint8_t *, size_t, const uint8_t *, size_t);
uint32_t __real_zikhrodan_sample(uint8_t *, size_t, const uint8_t *, size_t);
uint32_t __real_zikhrodan_read(uint8_t *, size_t, uint64_t, uint64_t, uint64_t, uint8_t *, size_t);
uint32_t __real_zikhrodan_write(uint8_t *, size_t, uint64_t, uint64_t, const uint8_t *, size_t);
uint32_t __real_zikhrodan_identity(const uint8_t *, size_t, const uint8_t *, size_t, uint64_t);
uint32_t __real_zikhrodan_monitor_kind(const uint8_t *, size_t, uint64_t);
double __real_zikhrodan_monitor_value(const uint8_t *, size_t, uint64_t);
double __real_zikhrodan_limit(const uint8_t *, size_t, uint64_t, uint64_t);

enum { OPERATOR_AT = 640, RECORDER_AT = 664, FLAGS = 12, PAGE = 23 };

static volatile uint8_t seen;

static size_t narrowed(size_t number, int flaw)
{
    return FLAW == flaw ? (uint32_t)number : number;
}

uint32_t __wrap_zikhrodan_reset(uint8_t *state, size_t state_len, const uint8_t *image, size_t image_len)
{
    uint32_t answer = __real_zikhrodan_reset(state, state_len, image, image_len);
    if (FLAW == 9 && !answer)
        ((uint8_t *)image)[639] ^= 1;
    return answer;
}

uint32_t __wrap_zikhrodan_sample(uint8_t *state, size_t state_len, const uint8_t *sample, size_t sample_len)
{
    if (FLAW == 14 && sample_len == 30)
        seen = sample[30];
    uint32_t answer = __real_zikhrodan_sample(state, state_len, sample, sample_len);
    if (FLAW == 8 && !(answer & 0xff))
        ((uint8_t *)sample)[0] ^= 0x80;
    if (FLAW == 26)
        answer = (answer & 0xffff) | (answer & 0xff00) << 8;
    return answer;
}

/* What is done to the state before a read by a port. */
static void before_read(uint8_t *state, uint64_t port, uint8_t *page)
{
    *page = state[RECORDER_AT + PAGE];
    if (FLAW == 27 && port == 2)
        state[RECORDER_AT + PAGE] = state[OPERATOR_AT + PAGE];
}

/* What is done after one: to the state, the answer and the output. */
static uint32_t after_read(uint8_t *state, uint64_t port, uint64_t address, uint64_t count, uint8_t *out, uint32_t answer,
                           uint8_t page)
{
    bool accepted = !(answer & 0xff), flags = address <= 14 && address + count > 3;
    uint8_t copy[ZIKHRODAN_STATE_LEN];
    memcpy(copy, state, sizeof copy);
    if (FLAW == 27 && port == 2)
        state[RECORDER_AT + PAGE] = page;
    if (accepted && flags && ((FLAW == 22 && port == 1) || (FLAW == 28 && port == 2)))
        memset(state + (port == 1 ? RECORDER_AT : OPERATOR_AT), 0, FLAGS);
    if (accepted && FLAW == 25 && port == 2 && address <= 2 && address + count > 2)
        __real_zikhrodan_read(copy, sizeof copy, 1, 2, 1, out + (2 - address), 1);
    if (accepted && FLAW == 31 && port == 1)
        answer += (uint32_t)(state[RECORDER_AT] != 0) << 8;
    if (accepted && FLAW == 32 && port == 2 && state[OPERATOR_AT + PAGE] == 3)
        answer = 5;
    return answer;
}

uint32_t __wrap_zikhrodan_read(uint8_t *state, size_t state_len, uint64_t port, uint64_t address, uint64_t count, uint8_t *out,
                               size_t out_len)
{
    uint8_t page = 0;
    bool whole = state_len == ZIKHRODAN_STATE_LEN;
    if (whole)
        before_read(state, port, &page);
    uint32_t answer = __real_zikhrodan_read(state, narrowed(state_len, 17), narrowed(port, 19), narrowed(address, 20), count, out,
                                            narrowed(out_len, 18));
    if (FLAW == 1 && !(answer & 0xff))
        out[out_len] = 0;
    if (FLAW == 2 && !(answer & 0xff))
        out[-1] ^= 1;
    if (FLAW == 6 && answer & 0xff && out_len)
        out[0] ^= 1;
    if (FLAW == 15 && !out)
        *out = 0;
    if (FLAW == 33 && (uintptr_t)state % 2)
        __builtin_trap();
    return whole ? after_read(state, port, address, count, out, answer, page) : answer;
}

uint32_t __wrap_zikhrodan_write(uint8_t *state, size_t state_len, uint64_t port, uint64_t address, const uint8_t *data,
                                size_t data_len)
{
    if (FLAW == 3 && data_len)
        seen = data[data_len];
    if (FLAW == 4 && data_len)
        seen = data[-1];
    uint32_t answer = __real_zikhrodan_write(state, state_len, port, address, data, narrowed(data_len, 16));
    bool mask = address >= 100 && address <= 104, own = port == 1 ? FLAW == 23 : FLAW == 29;
    if (answer & 0xff) {
        if (FLAW == 30 && (answer & 0xff) == 7)
            state[87] = data[0];
        return answer;
    }
    if (FLAW == 5)
        state[-1] ^= 1;
    if (FLAW == 7)
        ((uint8_t *)data)[0] ^= 1;
    if (own && mask)
        memcpy(state + (port == 1 ? RECORDER_AT : OPERATOR_AT) + 12, state + (port == 1 ? OPERATOR_AT : RECORDER_AT) + 12, 5);
    if (FLAW == 24 && port == 1 && address + data_len == 128)
        state[RECORDER_AT + PAGE] = state[OPERATOR_AT + PAGE];
    return answer;
}

uint32_t __wrap_zikhrodan_identity(const uint8_t *live, size_t live_len, const uint8_t *factory, size_t factory_len,
                                   uint64_t field)
{
    uint32_t answer = __real_zikhrodan_identity(live, live_len, factory, factory_len, field);
    if (FLAW == 10 && live_len == 128)
        ((uint8_t *)live)[127] ^= 1;
    if (FLAW == 11 && factory_len == 128)
        ((uint8_t *)factory)[0] ^= 1;
    return answer;
}

uint32_t __wrap_zikhrodan_monitor_kind(const uint8_t *state, size_t state_len, uint64_t number)
{
    return __real_zikhrodan_monitor_kind(state, state_len, narrowed(number, 21));
}

double __wrap_zikhrodan_monitor_value(const uint8_t *state, size_t state_len, uint64_t number)
{
    double value = __real_zikhrodan_monitor_value(state, state_len, number);
    if (FLAW == 12 && state_len == ZIKHRODAN_STATE_LEN)
        ((uint8_t *)state)[0] ^= 1;
    return value;
}

double __wrap_zikhrodan_limit(const uint8_t *state, size_t state_len, uint64_t quantity, uint64_t which)
{
    double value = __real_zikhrodan_limit(state, state_len, quantity, which);
    return FLAW == 13 && quantity > 4 ? -0.0 : value;
}
