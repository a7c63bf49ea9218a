/* lines.c: the lines of a script that call a module. */
#include "lines.h"

#include "both.h"
#include "outcome.h"

#include <string.h>

enum { PAGE_AT = 128, PAGE_END = 256, BLANK = 0xee };

struct now now;

size_t memory_seen(void)
{
    return now.begun.len > REGION ? VAST_MORE : now.begun.len;
}

uint64_t make(struct call call)
{
    static uint8_t before[REGION];
    call.eight = now.memory == EIGHT && call.kind <= WRITE;
    memcpy(before, both_state(), memory_seen());
    if (!both_make(&call))
        now.agreed = false;
    if (!call_is_double(call.kind) && (both_answer() & 0xff) && memcmp(before, both_state(), memory_seen()))
        now.changed = true;
    return both_answer();
}

/* ---- calls of a module */

bool line_reset(struct words *words, FILE *found)
{
    struct bytes image = { now.image, now.image_len };
    if (!words_end(words) && !words_last_bytes(words, &image))
        return false;
    outcome_report(found, make(a_reset(image)));
    return true;
}

bool line_reset_eight(struct words *words, FILE *found)
{
    if (!words_end(words))
        return false;
    outcome_report(found, make(a_reset_of_eight()));
    return true;
}

static bool samples(struct words *words, FILE *found, uint64_t times)
{
    struct bytes bytes;
    uint64_t answer = 0;
    if (!times || !words_last_bytes(words, &bytes))
        return false;
    for (uint64_t i = 0; i < times; i++)
        answer = make(a_sample(bytes));
    outcome_report(found, answer);
    return true;
}

bool line_sample(struct words *words, FILE *found)
{
    return samples(words, found, 1);
}

bool line_samples(struct words *words, FILE *found)
{
    uint64_t times;
    return words_number(words, UINT64_MAX, &times) && samples(words, found, times);
}

/* The output memory of a read, and what is in it. */
static bool room_of(struct words *words, struct call *call)
{
    uint64_t room = call->count;
    call->fill = BLANK;
    call->out_null = words_skip(words, "null");
    if (call->out_null)
        room = 0;
    else if (!words_end(words) && !words_number(words, VAST + VAST_MORE, &room))
        return false;
    call->out_len = (size_t)room;
    if (!words_end(words) && !words_byte(words, &call->fill))
        return false;
    return words_end(words) && (room <= REGION || (room >= VAST && room <= VAST + VAST_MORE));
}

bool line_read(struct words *words, FILE *found)
{
    struct call call = { .kind = READ };
    if (!words_number(words, UINT64_MAX, &call.port) || !words_number(words, UINT64_MAX, &call.address) ||
        !words_number(words, UINT64_MAX, &call.count) || !room_of(words, &call))
        return false;
    uint64_t answer = make(call);
    const uint8_t *out = both_output();
    size_t seen = call.out_len > REGION ? VAST_MORE : call.out_len;
    size_t given = answer & 0xff || call.count > seen ? 0 : (size_t)call.count;
    for (size_t i = given; i < seen; i++)
        if (out[i] != call.fill)
            now.changed = true;
    outcome_read(found, answer, out, given);
    return true;
}

bool line_write(struct words *words, FILE *found)
{
    struct bytes bytes;
    uint64_t port, address;
    if (!words_number(words, UINT64_MAX, &port) || !words_number(words, UINT64_MAX, &address) || !words_last_bytes(words, &bytes))
        return false;
    outcome_write(found, make(a_write(port, address, bytes)));
    return true;
}

/* The page 00h that is in such memory, of so many bytes or of as many as there are. */
static bool page_of(struct words *words, bool is_told, const uint8_t *from, size_t len, struct bytes *page)
{
    size_t end = len < PAGE_END ? len : PAGE_END;
    uint64_t wanted = end < PAGE_AT ? 0 : end - PAGE_AT;
    if (is_told && (!words_number(words, REGION, &wanted) || PAGE_AT + wanted > len))
        return false;
    *page = (struct bytes){ from + (wanted ? PAGE_AT : 0), (size_t)wanted };
    return true;
}

bool line_identity(struct words *words, FILE *found)
{
    static uint8_t first[REGION], second[REGION];
    struct bytes live, factory;
    uint64_t field;
    bool right = words_number(words, UINT64_MAX, &field);
    if (right && words_skip(words, "live")) {
        right = words_bytes(words, first, &live) && words_skip(words, "factory") && words_bytes(words, second, &factory);
    } else if (right) {
        bool is_told = !words_end(words);
        right = page_of(words, is_told, both_state(), memory_seen(), &live) &&
                page_of(words, is_told, now.image, now.image_len, &factory);
    }
    if (!right || !words_end(words))
        return false;
    outcome_identity(found, make(an_identity(live, factory, field)), live, factory);
    return true;
}

bool line_monitor(struct words *words, FILE *found)
{
    uint64_t number;
    if (!words_last_numbers(words, &number, NULL))
        return false;
    uint64_t kind = make(of_number(KIND, number));
    outcome_monitor(found, kind, make(of_number(VALUE, number)));
    return true;
}

bool line_limits(struct words *words, FILE *found)
{
    uint64_t quantity, limits[4];
    if (!words_last_numbers(words, &quantity, NULL))
        return false;
    uint64_t refusal = make(of_number(LIMITS, quantity));
    for (unsigned which = 0; which < 4; which++)
        limits[which] = make(a_limit(quantity, which));
    outcome_limits(found, refusal, limits);
    return true;
}

bool line_limit(struct words *words, FILE *found)
{
    uint64_t quantity, which;
    if (!words_last_numbers(words, &quantity, &which))
        return false;
    outcome_limit(found, make(a_limit(quantity, which)));
    return true;
}
