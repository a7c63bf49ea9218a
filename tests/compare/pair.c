/* pair.c: see pair.h. */
#include "pair.h"
#include "check.h"
#include "engines.h"
#include "random.h"

#include <stdio.h>
#include <string.h>

const struct module *module;
struct run run_a, run_b;

static void print_runs(void)
{
    puts("# run A");
    text_print(&run_a.list, stdout);
    puts("# run B");
    text_print(&run_b.list, stdout);
}

void pair_of(const struct module *which)
{
    module = which;
    print_with(print_runs);
}

void make_on(struct run *run, const struct call *call)
{
    struct lent lent = { run->state, module->len, call->first.at, NULL, call->out_null ? NULL : run->out };
    list_add(&run->list, call);
    memset(run->out, call->fill, OUTPUT_ROOM);
    run->answer = by_library(call, &lent);
    count_calls(1);
}

void make_on_both(const struct call *call)
{
    make_on(&run_a, call);
    make_on(&run_b, call);
}

void begin_both(void)
{
    uint8_t state[STATE_LEN];
    random_fill(state, module->len);
    memcpy(run_a.state, state, module->len);
    memcpy(run_b.state, state, module->len);
    list_begin(&run_a.list, (struct bytes){ state, module->len }, AT_END);
    list_begin(&run_b.list, (struct bytes){ state, module->len }, AT_END);
    struct call reset = module->right_reset();
    make_on_both(&reset);
    if (run_a.answer || run_b.answer)
        mismatch("a right reset is refused");
}
