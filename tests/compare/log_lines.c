/* log_lines.c: the lines of a script that call a log. */
#include "lines.h"

#include "both.h"
#include "outcome.h"

/* The used number goes from call to call. */
static bool adds(FILE *found, struct call call, uint64_t times)
{
    uint64_t answer = 0;
    for (uint64_t i = 0; i < times; i++) {
        call.number = now.used;
        answer = make(call);
        if (!(answer & 0xff))
            now.used = answer >> 8;
    }
    outcome_used(found, answer);
    return true;
}

bool line_add(struct words *words, FILE *found)
{
    struct bytes bytes;
    return words_last_bytes(words, &bytes) && adds(found, a_log_add(now.used, bytes), 1);
}

bool line_adds(struct words *words, FILE *found)
{
    struct bytes bytes;
    uint64_t times;
    return words_number(words, UINT64_MAX, &times) && times && words_last_bytes(words, &bytes) &&
           adds(found, a_log_add(now.used, bytes), times);
}

bool line_power_up(struct words *words, FILE *found)
{
    return words_end(words) && adds(found, a_log_power_up(now.used), 1);
}

bool line_sample_at(struct words *words, FILE *found)
{
    uint64_t position;
    if (!words_last_numbers(words, &position, NULL))
        return false;
    outcome_sample(found, make(a_log_sample(now.used, position)), both_state(), memory_seen());
    return true;
}

bool line_first(struct words *words, FILE *found)
{
    uint64_t bit;
    if (!words_last_numbers(words, &bit, NULL))
        return false;
    outcome_first(found, make(a_log_first(now.used, bit)));
    return true;
}
