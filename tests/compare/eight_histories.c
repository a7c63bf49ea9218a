/* eight_histories.c: random histories of the eight-channel module: onsets, ends, conditions that last, masks, reads by both ports,
 * and refused calls between them. The group fails, too, if what an onset is for never came about. */
#include "both.h"
#include "check.h"
#include "eight_cases.h"
#include "groups.h"
#include "random.h"
#include "tally.h"

#include <inttypes.h>

enum { FEWER = 4 };  /* the calls are that part of those of the module's histories */

/* After how many accepted samples a port had a flag that lasts and was read, one whose condition has ended, a pending bit that a
 * mask holds back, and State Changed pending while byte 9's masks are all set. */
static uint64_t read_already, ended, held_back, never_held;

static void look(const uint8_t *state, unsigned port)
{
    const uint8_t *record = state + EIGHT_BYTES + (port == RECORDER ? EIGHT_RECORD_LEN : 0);
    const uint8_t *flags = record + EIGHT_FLAGS, *masks = record + EIGHT_MASKS, *pending = record + EIGHT_PENDING;
    bool has[3] = { false };
    for (unsigned i = 0; i < EIGHT_BYTES; i++) {
        has[0] = has[0] || flags[i] & state[i] & ~pending[i];
        has[1] = has[1] || flags[i] & ~state[i];
        has[2] = has[2] || pending[i] & masks[i];
    }
    read_already += has[0];
    ended += has[1];
    held_back += has[2];
    never_held += pending[6] & 1 && masks[6] == eight_mask_bits[6];
}

static void step(bool whole)
{
    struct call call = some_eight_call(whole ? both_state() : NULL);
    unsigned refusal = try(call) & 0xff;
    tally(call.kind, refusal);
    if (call.kind == SAMPLE && !refusal)
        for (unsigned port = OPERATOR; port <= RECORDER; port++)
            look(both_state(), port);
}

/* Mostly a short one, as of the module. */
static void history(void)
{
    struct bytes beginning = some_eight_beginning();
    bool whole = beginning.len == EIGHT_LEN;
    unsigned length = 1 + random_below(!whole ? 12 : chance(80) ? 40 : chance(80) ? 150 : 600);
    place_at(chance(60) ? AT_END : chance(50) ? AT_START : AT_ODD);
    begin_with(beginning);
    while (length--)
        step(whole);
}

void group_eight_histories(void)
{
    static const uint8_t numbers[] = { 1, 2, 3, 4, 5, 6, 7, 8, 0 };
    uint64_t histories = 0;
    random_seed(options.seed);
    tally_begin();
    read_already = ended = held_back = never_held = 0;
    for (; tallied() < options.calls / FEWER; histories++)
        history();
    place_at(AT_END);
    drawn_as(0x1360adc29e535a6f);
    if (!read_already || !ended || !held_back || !never_held)
        fail("it is idle: no condition lasted after a read, none ended before one, or no mask was in the way");
    tally_say(histories, RESET, WRITE, "refusals 1 to 8", numbers);
}
