/* sums.c: see sums.h. */
#include "sums.h"

static uint64_t sum, calls;

void sum_begin(void)
{
    sum = 0xcbf29ce484222325;  /* FNV-1a, by bytes and by numbers */
    calls = 0;
}

static void add(uint64_t number)
{
    sum = (sum ^ number) * 0x100000001b3;
    sum ^= sum >> 29;
}

static void add_bytes(struct bytes bytes)
{
    add(bytes.at ? bytes.len : UINT64_MAX);
    for (size_t i = 0; bytes.at && bytes.len <= REGION && i < bytes.len; i++)
        add(bytes.at[i]);
}

void sum_state(struct bytes state, enum place place)
{
    if (calls >= SUMMED)
        return;
    add(place);
    add_bytes(state);
}

void sum_call(const struct call *call)
{
    const uint64_t numbers[] = { call->kind + (call->eight ? KINDS : 0), call->port, call->address, call->count, call->number,
                                 call->which, call->out_len, call->out_null, call->kind == PUT ? call->fill : 0 };

    if (calls >= SUMMED)
        return;
    calls++;
    for (size_t i = 0; i < sizeof numbers / sizeof numbers[0]; i++)
        add(numbers[i]);
    add_bytes(call->first);
    add_bytes(call->second);
}

bool sum_is_whole(void)
{
    return calls >= SUMMED;
}

uint64_t sum_of_calls(void)
{
    return sum;
}
