/* histories.c: random histories. */
#include "both.h"
#include "cases.h"
#include "check.h"
#include "generate.h"
#include "groups.h"
#include "random.h"
#include "tally.h"

/* A call and, for one whose number comes apart from its refusal, that number. */
static void step(const uint8_t *state)
{
    struct call call = some_call(state);
    unsigned refusal = try(call) & 0xff;
    tally(call.kind, refusal);
    if (call.kind == KIND) {
        try(of_number(VALUE, call.number));
        tally(VALUE, refusal);
    }
    if (call.kind == LIMITS) {
        try(a_limit(call.number, random_below(6)));
        tally(LIMIT, refusal);
    }
}

/* Mostly a short one, since an engine that keeps a list of its calls has the more to do the longer it is. */
static void history(void)
{
    struct bytes beginning = some_beginning();
    bool whole = beginning.len == STATE_LEN;
    unsigned length = 1 + random_below(!whole ? 12 : chance(80) ? 40 : chance(80) ? 150 : 600);
    place_at(chance(60) ? AT_END : chance(50) ? AT_START : AT_ODD);
    begin_with(beginning);
    while (length--)
        step(whole ? both_state() : NULL);
}

void group_histories(void)
{
    static const uint8_t numbers[] = { 1, 2, 3, 4, 5, 6, 7, 8, 9, 10, 11, 12, 13, 0 };
    uint64_t histories = 0;
    random_seed(options.seed);
    tally_begin();
    for (; tallied() < options.calls; histories++)
        history();
    place_at(AT_END);
    drawn_as(0x5481c90acd3efd60);
    tally_say(histories, RESET, LIMIT, "refusals 1 to 13", numbers);
}
