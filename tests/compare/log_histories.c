/* log_histories.c: random histories of a log: samples, power-ups, readings, questions, and bytes that change and are as they were
 * again. */
#include "both.h"
#include "check.h"
#include "groups.h"
#include "log_cases.h"
#include "random.h"
#include "tally.h"

enum { FEWER = 10 };  /* the calls are that part of those of the module's histories */

/* The log as it stands: its length and used number. Where a byte of it was changed, and what it was. */
static size_t len;
static uint64_t used;
static bool damaged;
static size_t place;
static uint8_t byte;
static bool quiet;  /* few of its samples have a status bit */

/* Makes a call. If the log goes on from there, it has the used number that an accepted add or power-up hands back. */
static void make(struct call call, bool goes_on)
{
    uint64_t answer = try(call);
    tally(call.kind, answer & 0xff);
    if (goes_on && !(answer & 0xff) && call.kind < LOG_SAMPLE)
        used = answer >> 8;
}

/* Mostly with no block used; else with used blocks whose numbers are at an end, or pass it, which is unsound. */
static void beginning(void)
{
    uint8_t *log = log_memory();
    unsigned blocks = random_below(MOST_BLOCKS + 1);
    used = chance(60) ? 0 : random_below(blocks + 1);
    uint32_t number = end_numbers[random_below(END_NUMBERS)], first = chance(50) ? number : number + 1 - (uint32_t)used;
    make_log(log, (unsigned)used, first, random_below(BLOCK_SAMPLES + 1));
    len = blocks * BLOCK_LEN + (chance(97) ? 0 : random_below(BLOCK_LEN));
    damaged = false;
    quiet = chance(70);
    place_at(chance(60) ? AT_END : chance(50) ? AT_START : AT_ODD);
    begin_log(log, len);
}

/* A used number, mostly not the log's own. With a lower one the call may be accepted, and then the log goes on from there. */
static uint64_t other_used(void)
{
    return chance(40) ? used + 1 : chance(50) ? random_below(MOST_BLOCKS + 2) : random_size();
}

/* Mostly with a question before and the same one after, so that an answer that is kept is seen. */
static void damage_or_heal(void)
{
    unsigned bit = random_below(STATUS_BITS);
    bool asks = chance(80);
    if (!len)
        return;
    if (asks)
        make(a_log_first(used, bit), true);
    if (!damaged) {
        place = random_below((unsigned)len);
        if (chance(40) && len >= BLOCK_LEN) /* a block's count, its summary or what comes after */
            place = place % (len / BLOCK_LEN) * BLOCK_LEN +
                    (chance(20) ? COUNT_AT : SUMMARY_AT + random_below(BLOCK_LEN - SUMMARY_AT));
        byte = both_state()[place];
    }
    try(a_put(place, damaged ? byte : (uint8_t)(byte ^ 1 << random_below(8))));
    damaged = !damaged;
    if (asks)
        make(a_log_first(used, bit), true);
}

static void read_all(void)
{
    for (uint64_t position = 0; position <= BLOCK_SAMPLES * used && position < 140; position++)
        make(a_log_sample(used, position), true);
}

static void ask_all(void)
{
    for (uint64_t bit = 0; bit <= STATUS_BITS; bit++)
        make(a_log_first(used, bit), true);
}

static void step(void)
{
    unsigned roll = damaged && chance(40) ? 99 : random_below(100);
    struct bytes sample = quiet ? quiet_sample() : log_sample();
    if (roll < 66) {
        if (chance(4))
            sample.len = random_below(2 * SAMPLE_LEN + 1);
        make(a_log_add(used, sample), true);
    } else if (roll < 70) {
        make(a_log_power_up(used), true);
    } else if (roll < 80) {
        make(a_log_sample(used, random_below(BLOCK_SAMPLES * (unsigned)used + 2)), true);
    } else if (roll < 90) {
        make(a_log_first(used, random_below(STATUS_BITS + 1)), true);
    } else if (roll < 92) {
        read_all();
        ask_all();
    } else if (roll < 96) {
        uint64_t wrong = other_used();
        make(chance(50) ? a_log_add(wrong, sample) : chance(40) ? a_log_power_up(wrong) : chance(50) ? a_log_sample(wrong, 0) :
             a_log_first(wrong, random_below(STATUS_BITS)), wrong < used);
    } else {
        damage_or_heal();
    }
}

void group_log_histories(void)
{
    static const uint8_t numbers[] = { 8, 14, 15, 17, 0 };
    uint64_t histories = 0;
    random_seed(options.seed);
    tally_begin();
    for (; tallied() < options.calls / FEWER; histories++) {
        beginning();
        for (size_t steps = 1 + random_below(12 + 16 * (unsigned)len / BLOCK_LEN); steps; steps--)
            step();
    }
    place_at(AT_END);
    drawn_as(0xd7543141c87bdadf);
    tally_say(histories, LOG_ADD, LOG_FIRST, "refusals 8, 14, 15 and 17", numbers);
}
