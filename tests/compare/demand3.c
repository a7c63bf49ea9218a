/* demand3.c: the third demand as pairs of runs, on the library alone, of either module. Both begin with the same bytes and the same
 * accepted reset.
 *
 * Samples, resets and recorder calls the same, operator calls added, dropped or altered: the recorder's record, its answers, its
 * byte 2 and every byte that it reads agree, save the bytes of document 01's shared list. The eight-channel module shares none, and
 * the conditions that it keeps agree too.
 * Recorder calls dropped: every operator answer, every byte that the operator reads and every state byte outside the recorder's
 * record agree. */
#include "cases.h"
#include "check.h"
#include "eight_cases.h"
#include "engines.h"
#include "generate.h"
#include "groups.h"
#include "pair.h"
#include "random.h"

#include <inttypes.h>
#include <string.h>

static uint64_t excused, excused_differed, varied, mattered, dropped, records_differed;

/* The page that the recorder has selected; 0 where there are none. */
static unsigned recorders_page(void)
{
    return module->eight ? 0 : run_a.state[module->recorder_at + SELECTED];
}

/* Document 01's shared list, for a host address while this page is selected. */
static bool is_shared(unsigned address, unsigned page)
{
    if (module->eight)
        return false;
    if (address < 128)
        return address == 86 || address == 87 || address == 88 || address == 93 || address == 98;
    return page == 2 || (page == 3 && address >= 234 && address <= 241);
}

/* The recorder's side of a call made on both; `page` is what the recorder had selected before it. */
static void recorder_agrees(const struct call *call, unsigned page)
{
    uint64_t operator_count = call->kind == RESET || call->kind == SAMPLE ? 0xff00 : 0;
    if ((run_a.answer ^ run_b.answer) & ~operator_count)
        mismatch("the recorder's answers differ, %06" PRIx64 " and %06" PRIx64, run_a.answer, run_b.answer);
    if (call->kind != READ)
        return;
    for (unsigned i = 0; i < OUTPUT_ROOM; i++) {
        bool shared = !(run_a.answer & 0xff) && i < call->count && is_shared((unsigned)call->address + i, page);
        excused += shared;
        excused_differed += shared && run_a.out[i] != run_b.out[i];
        if (!shared && run_a.out[i] != run_b.out[i])
            mismatch("the recorder reads %02x and %02x at output %u", run_a.out[i], run_b.out[i], i);
    }
}

/* The byte 2 that the recorder would read agrees. It is read from copies, so that the runs are left as they are. */
static void byte_2_agrees(void)
{
    struct call call = a_read(RECORDER, 2, 1, 1);
    struct run *runs[2] = { &run_a, &run_b };
    uint8_t state[STATE_LEN], out[2];
    for (int i = 0; i < 2; i++) {
        memcpy(state, runs[i]->state, STATE_LEN);
        by_library(&call, &(struct lent){ state, STATE_LEN, NULL, NULL, &out[i] });
    }
    count_calls(2);
    if (out[0] != out[1]) {
        list_add(&run_a.list, &call);
        list_add(&run_b.list, &call);
        mismatch("the recorder's byte 2 is %02x and %02x", out[0], out[1]);
    }
}

static struct call port_call(uint64_t port)
{
    return chance(50) ? module->read(port) : module->write(port);
}

static void operator_step(void)
{
    struct call call = port_call(OPERATOR);
    unsigned how = random_below(5);
    varied += how > 0;
    if (how == 0)
        make_on_both(&call);
    else
        make_on(how == 1 ? &run_a : &run_b, &call);
    if (how > 2) {
        call = port_call(OPERATOR);
        make_on(&run_a, &call);
    }
}

/* A run with its operator calls added, dropped or altered. */
static void vary_operator(void)
{
    begin_both();
    for (unsigned steps = 1 + random_below(60); steps; steps--) {
        if (chance(45)) {
            operator_step();
        } else {
            unsigned page = recorders_page();
            struct call call = chance(5) ? module->reset() : chance(30) ? module->sample(run_a.state) : port_call(RECORDER);
            make_on_both(&call);
            recorder_agrees(&call, page);
        }
        const size_t operator_at = module->recorder_at - module->record_len;
        mattered += memcmp(run_a.state + operator_at, run_b.state + operator_at, module->record_len) != 0;
        if (memcmp(run_a.state + module->recorder_at, run_b.state + module->recorder_at, module->record_len))
            mismatch("the recorder's record differs");
        if (memcmp(run_a.state, run_b.state, module->untouched))
            mismatch("a byte differs that is in no record");
        if (!module->eight)
            byte_2_agrees();
    }
}

/* A run with some of its recorder calls dropped. */
static void drop_recorder(void)
{
    begin_both();
    for (unsigned steps = 1 + random_below(60); steps; steps--) {
        if (chance(45)) {
            struct call call = port_call(RECORDER);
            bool drop = chance(60);
            dropped += drop;
            make_on(&run_a, &call);
            if (!drop)
                make_on(&run_b, &call);
        } else {
            struct call call = chance(5) ? module->reset() : chance(30) ? module->sample(run_a.state) : port_call(OPERATOR);
            uint64_t recorder_count = call.kind == RESET || call.kind == SAMPLE ? 0xff0000 : 0;
            make_on_both(&call);
            if ((run_a.answer ^ run_b.answer) & ~recorder_count)
                mismatch("the operator's answers differ, %06" PRIx64 " and %06" PRIx64, run_a.answer, run_b.answer);
            if (memcmp(run_a.out, run_b.out, OUTPUT_ROOM))
                mismatch("the operator reads other bytes");
        }
        if (memcmp(run_a.state, run_b.state, module->recorder_at))
            mismatch("a state byte outside the recorder's record differs");
        records_differed += memcmp(run_a.state + module->recorder_at, run_b.state + module->recorder_at, module->record_len) != 0;
    }
}

static void pairs(const struct module *which, uint64_t sum)
{
    random_seed(options.seed);
    pair_of(which);
    excused = excused_differed = varied = mattered = dropped = records_differed = 0;
    for (uint64_t pair = 0; pair < options.pairs; pair++) {
        vary_operator();
        drop_recorder();
    }
    drawn_as(sum);
    if (!mattered || !dropped || !records_differed || (!module->eight && !excused_differed))
        fail("it is idle: no shared byte differed, no call was dropped, or no varied or dropped call mattered");
    say(" in %" PRIu64 " pairs of runs; %" PRIu64 " operator calls varied, its record differed after %" PRIu64 " calls, %" PRIu64
        " shared bytes read by the recorder, %" PRIu64 " of which differed; %" PRIu64
        " recorder calls dropped, its record differed after %" PRIu64 " calls",
        2 * options.pairs, varied, mattered, excused, excused_differed, dropped, records_differed);
}

static struct call right_reset(void)
{
    static uint8_t image[IMAGE_LEN];
    some_image(image);
    return a_reset((struct bytes){ image, IMAGE_LEN });
}

void group_demand_3(void)
{
    static const struct module own = {
        STATE_LEN, RECORDS_AT + RECORD_LEN, RECORD_LEN, 0, right_reset, some_reset, some_sample, some_read, some_write, false,
    };
    pairs(&own, 0xcfda14e1af477680);
}

void group_eight_demand_3(void)
{
    static const struct module eight = {
        EIGHT_LEN, EIGHT_BYTES + EIGHT_RECORD_LEN, EIGHT_RECORD_LEN, EIGHT_BYTES, a_reset_of_eight, a_reset_of_eight,
        some_eight_sample, some_eight_read, some_eight_write, true,
    };
    pairs(&eight, 0x4c7f39681f18f425);
}
