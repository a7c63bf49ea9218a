/* engines.c: one call on either engine. */
#include "engines.h"

#include "../../include/zikhrodan.h"
#include "../plain/eight.h"
#include "../plain/log.h"

#include <string.h>

static const char *volatile working = "neither engine";

const char *at_work(void)
{
    return working;
}

static uint64_t bits(double number)
{
    uint64_t same;
    memcpy(&same, &number, sizeof same);
    return same;
}

/* A byte past the front of vast memory is not changed. */
static uint64_t put(const struct call *c, const struct lent *l)
{
    if (c->number < l->state_len && c->number < REGION)
        l->state[c->number] = c->fill;
    return 0;
}

static uint64_t library_answer_of_eight(const struct call *c, const struct lent *l)
{
    switch (c->kind) {
    case RESET: return zikhrodan_dd_reset(l->state, l->state_len);
    case SAMPLE: return zikhrodan_dd_sample(l->state, l->state_len, l->first, c->first.len);
    case READ: return zikhrodan_dd_read(l->state, l->state_len, c->port, c->address, c->count, l->out, c->out_len);
    default: return zikhrodan_dd_write(l->state, l->state_len, c->port, c->address, l->first, c->first.len);
    }
}

static uint64_t library_answer(const struct call *c, const struct lent *l)
{
    switch (c->kind) {
    case RESET: return zikhrodan_reset(l->state, l->state_len, l->first, c->first.len);
    case SAMPLE: return zikhrodan_sample(l->state, l->state_len, l->first, c->first.len);
    case READ: return zikhrodan_read(l->state, l->state_len, c->port, c->address, c->count, l->out, c->out_len);
    case WRITE: return zikhrodan_write(l->state, l->state_len, c->port, c->address, l->first, c->first.len);
    case IDENTITY: return zikhrodan_identity(l->first, c->first.len, l->second, c->second.len, c->number);
    case KIND: return zikhrodan_monitor_kind(l->state, l->state_len, c->number);
    case VALUE: return bits(zikhrodan_monitor_value(l->state, l->state_len, c->number));
    case LIMITS: return zikhrodan_limits_refusal(l->state, l->state_len, c->number);
    case LIMIT: return bits(zikhrodan_limit(l->state, l->state_len, c->number, c->which));
    case LOG_ADD: return zikhrodan_log_add(l->state, l->state_len, c->number, l->first, c->first.len);
    case LOG_POWER_UP: return zikhrodan_log_power_up(l->state, l->state_len, c->number);
    case LOG_SAMPLE: return zikhrodan_log_sample(l->state, l->state_len, c->number, c->which);
    case LOG_FIRST: return zikhrodan_log_first(l->state, l->state_len, c->number, c->which);
    default: return put(c, l);
    }
}

static uint64_t plain_answer_of_eight(const struct call *c, const struct lent *l, struct plain *plain)
{
    switch (c->kind) {
    case RESET: return plain_dd_reset(plain);
    case SAMPLE: return plain_dd_sample(plain, l->first, c->first.len);
    case READ: return plain_dd_read(plain, c->port, c->address, c->count, l->out, c->out_len);
    default: return plain_dd_write(plain, c->port, c->address, l->first, c->first.len);
    }
}

static uint64_t plain_answer(const struct call *c, const struct lent *l, struct plain *plain)
{
    switch (c->kind) {
    case RESET: return plain_reset(plain, l->first, c->first.len);
    case SAMPLE: return plain_sample(plain, l->first, c->first.len);
    case READ: return plain_read(plain, c->port, c->address, c->count, l->out, c->out_len);
    case WRITE: return plain_write(plain, c->port, c->address, l->first, c->first.len);
    case IDENTITY: return plain_identity(l->first, c->first.len, l->second, c->second.len, c->number);
    case KIND: return plain_monitor_kind(plain, c->number);
    case VALUE: return bits(plain_monitor_value(plain, c->number));
    case LIMITS: return plain_limits_refusal(plain, c->number);
    case LIMIT: return bits(plain_limit(plain, c->number, c->which));
    case LOG_ADD: return plain_log_add(l->state, l->state_len, c->number, l->first, c->first.len);
    case LOG_POWER_UP: return plain_log_power_up(l->state, l->state_len, c->number);
    case LOG_SAMPLE: return plain_log_sample(l->state, l->state_len, c->number, c->which);
    case LOG_FIRST: return plain_log_first(l->state, l->state_len, c->number, c->which);
    default: return put(c, l);
    }
}

uint64_t by_library(const struct call *call, const struct lent *lent)
{
    working = "the library";
    uint64_t answer = (call->eight ? library_answer_of_eight : library_answer)(call, lent);
    working = "neither engine";
    return answer;
}

uint64_t by_plain(const struct call *call, const struct lent *lent, struct plain *plain)
{
    working = "the plain engine";
    uint64_t answer = (call->eight ? plain_answer_of_eight : plain_answer)(call, lent, plain);
    working = "neither engine";
    return answer;
}
