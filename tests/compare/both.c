/* both.c: makes calls on both engines and compares all that they leave behind. */
#include "both.h"

#include "engines.h"

#include <inttypes.h>
#include <stdlib.h>
#include <string.h>

static struct plain *plain;
static uint8_t region[REGION], *expected = region;  /* the state or the log that the plain engine has; it may be vast */
static enum place place;

/* The last call, what was lent to each engine, and the answers. */
static struct call made;
static struct lent library, other;
static uint64_t library_answer, other_answer;

void both_prepare(void)
{
    memory_prepare();
    plain = plain_new();
    if (!plain) {
        fputs("compare: no memory left\n", stderr);
        exit(2);
    }
}

static uint8_t *lend(enum part part, struct bytes bytes)
{
    if (!bytes.at && !bytes.len)
        return NULL;
    uint8_t *at = memory_lend(part, place, bytes.len);
    if (bytes.len && bytes.len <= REGION)
        memcpy(at, bytes.at, bytes.len);
    return at;
}

void both_begin(struct bytes bytes, enum place where)
{
    static const uint8_t zeros[689];
    place = where;
    library.state = lend(STATE, bytes);
    library.state_len = other.state_len = bytes.len;
    if (bytes.len > REGION) {
        expected = memory_vast_plain(STATE, bytes.len);
        memset(library.state, 0, VAST_MORE);
        memset(expected, 0, VAST_MORE);
        plain_begin(plain, zeros, sizeof zeros);
    } else {
        expected = region;
        plain_begin(plain, bytes.at, bytes.len);
        if (bytes.len)
            memcpy(expected, bytes.at, bytes.len);
    }
    other.state = expected;
}

/* How many bytes of what a call may change are compared. */
static size_t seen(size_t len)
{
    return len > REGION ? VAST_MORE : len;
}

/* The plain engine is lent the caller's own bytes, so a change that the library makes to its copy does not reach it. */
static void lend_all(const struct call *call)
{
    static uint8_t output[REGION];
    library.first = lend(FIRST, call->first);
    library.second = lend(SECOND, call->second);
    other.first = call->first.len > REGION ? library.first : call->first.at;
    other.second = call->second.len > REGION ? library.second : call->second.at;
    library.out = other.out = NULL;
    if (call->kind == READ && !call->out_null) {
        library.out = memory_lend(OUTPUT, place, call->out_len);
        other.out = call->out_len > REGION ? memory_vast_plain(OUTPUT, call->out_len) : output;
        memset(library.out, call->fill, seen(call->out_len));
        memset(other.out, call->fill, seen(call->out_len));
    }
}

static bool state_agrees(void)
{
    size_t len = library.state_len;
    return memory_canary_stands(STATE) && (!len || !memcmp(library.state, expected, seen(len)));
}

static bool input_stands(enum part part, const uint8_t *lent, struct bytes bytes)
{
    return !lent || bytes.len > REGION || (memory_canary_stands(part) && !memcmp(lent, bytes.at, bytes.len));
}

static bool output_agrees(void)
{
    return !library.out || (memory_canary_stands(OUTPUT) && !memcmp(library.out, other.out, seen(made.out_len)));
}

bool both_make(const struct call *call)
{
    made = *call;
    lend_all(call);
    library_answer = by_library(call, &library);
    other_answer = by_plain(call, &other, plain);
    if (call->kind <= WRITE && library.state_len <= REGION)
        plain_state(plain, expected);
    if (call->kind >= LOG_ADD && library.state_len <= REGION)
        plain_begin(plain, expected, library.state_len);
    return library_answer == other_answer && state_agrees() && output_agrees() &&
           input_stands(FIRST, library.first, call->first) && input_stands(SECOND, library.second, call->second);
}

uint64_t both_answer(void)
{
    return library_answer;
}

const uint8_t *both_output(void)
{
    return library.out;
}

const uint8_t *both_state(void)
{
    return expected;
}

static void print_answers(FILE *to)
{
    const uint64_t a = library_answer, b = other_answer;
    double numbers[2];
    memcpy(&numbers[0], &a, sizeof(double));
    memcpy(&numbers[1], &b, sizeof(double));
    if (call_is_double(made.kind))
        fprintf(to, "# answer: library %016" PRIx64 " (%.17g), plain %016" PRIx64 " (%.17g)", a, numbers[0], b, numbers[1]);
    else if (call_is_of_log(made.kind))
        fprintf(to, "# answer: library refusal %" PRIu64 ", value %" PRIu64 ", plain refusal %" PRIu64 ", value %" PRIu64,
                a & 0xff, a >> 8, b & 0xff, b >> 8);
    else
        fprintf(to, "# answer: library %08" PRIx64 ", plain %08" PRIx64, a, b);
    fputs(a == b ? "\n" : ": they differ\n", to);
}

static void print_bytes(FILE *to, const char *what, const uint8_t *has, const char *who, const uint8_t *against, size_t len)
{
    for (size_t i = 0; has && i < len; i++)
        if (has[i] != against[i])
            fprintf(to, "# %s %zu: library %02x, %s %02x\n", what, i, has[i], who, against[i]);
}

/* Of what a call may not change: vast ones can't be changed either. */
static void print_input(FILE *to, const char *what, const uint8_t *has, struct bytes lent)
{
    print_bytes(to, what, has, "lent as", lent.at, lent.len > REGION ? 0 : lent.len);
}

static void print_state(FILE *to)
{
    enum { BLOCK = 512 };
    size_t len = seen(library.state_len);
    char what[40];
    if (made.kind < LOG_ADD)
        print_bytes(to, "state", library.state, "plain", expected, len);
    for (size_t at = 0; made.kind >= LOG_ADD && at < len; at += BLOCK) {
        snprintf(what, sizeof what, "log, block %zu, byte", at / BLOCK);
        print_bytes(to, what, library.state + at, "plain", expected + at, len - at < BLOCK ? len - at : BLOCK);
    }
}

void both_print_differences(FILE *to)
{
    const char *const parts[PARTS] = { made.kind < LOG_ADD ? "state" : "log", "first input", "second input", "output" };
    print_answers(to);
    print_state(to);
    print_bytes(to, parts[OUTPUT], library.out, "plain", other.out, seen(made.out_len));
    print_input(to, parts[FIRST], library.first, made.first);
    print_input(to, parts[SECOND], library.second, made.second);
    for (int part = 0; part < PARTS; part++)
        if (!memory_canary_stands((enum part)part))
            fprintf(to, "# a byte beside the %s has changed\n", parts[part]);
}
