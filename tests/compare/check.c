/* check.c: runs groups; prints a mismatch or a crash so that it can be run again. */
#include "check.h"

#include "both.h"
#include "engines.h"
#include "sums.h"
#include "text.h"

#include <inttypes.h>
#include <setjmp.h>
#include <signal.h>
#include <stdarg.h>
#include <stdlib.h>
#include <unistd.h>

struct options options;

static struct list list;
static enum place place = AT_END;
static const char *group_name = "follow";
static jmp_buf group_end;
static uint64_t calls;
static char words[1024];
static unsigned passed, failed;
static void (*printer)(void);

void place_at(enum place where)
{
    place = where;
}

void begin_with(struct bytes state)
{
    list_begin(&list, state, place);
    both_begin(state, place);
}

void begin(const uint8_t *state)
{
    begin_with((struct bytes){ state, 688 });
}

static void print_case(void)
{
    text_print(&list, stdout);
}

void print_with(void (*print)(void))
{
    printer = print;
}

void mismatch(const char *format, ...)
{
    va_list arguments;
    va_start(arguments, format);
    vsnprintf(words, sizeof words, format, arguments);
    va_end(arguments);
    if (!failed) {
        printf("# %s: %s\n", group_name, words);
        printer();
        if (printer == print_case)
            both_print_differences(stdout);
    }
    longjmp(group_end, 1);
}

uint64_t try(struct call call)
{
    list_add(&list, &call);
    calls++;
    if (!both_make(&call))
        mismatch("the library and the plain engine differ");
    return both_answer();
}

void try_expecting(struct call call, unsigned refusal)
{
    uint64_t answer = try(call);
    if (refusal ? answer != refusal : answer & 0xff)
        mismatch("both answer %08" PRIx64 ", the papers have refusal %u", answer, refusal);
}

void fail(const char *format, ...)
{
    va_list arguments;
    va_start(arguments, format);
    vsnprintf(words, sizeof words, format, arguments);
    va_end(arguments);
    longjmp(group_end, 1);
}

void say(const char *format, ...)
{
    va_list arguments;
    va_start(arguments, format);
    vsnprintf(words, sizeof words, format, arguments);
    va_end(arguments);
}

void drawn_as(uint64_t sum)
{
    if (options.seed == SEED && sum_is_whole() && sum_of_calls() != sum)
        fail("its first %d calls are others than on other machines: their sum is 0x%" PRIx64 ", not 0x%" PRIx64, SUMMED,
             sum_of_calls(), sum);
}

void count_calls(uint64_t more)
{
    calls += more;
}

/* A crash comes from within an engine, never from within the C library's output functions, so it can be printed with those. */
static void crashed(int signal_number)
{
    if (!failed) {
        printf("# %s: signal %d in %s, at the last of these calls\n", group_name, signal_number, at_work());
        printer();
    }
    failed++;
    printf("FAILED %s: signal %d, after %" PRIu64 " calls\n", group_name, signal_number, calls);
    check_end();
    fflush(stdout);
    _exit(1);
}

void check_prepare(void)
{
    static char stack[1 << 16];
    static const int signals[] = { SIGSEGV, SIGBUS, SIGILL, SIGFPE, SIGABRT };
    stack_t other = { .ss_sp = stack, .ss_size = sizeof stack };
    struct sigaction action = { .sa_handler = crashed, .sa_flags = (int)(SA_ONSTACK | SA_RESETHAND) };
    bool right = !sigaltstack(&other, NULL);
    for (size_t i = 0; i < sizeof signals / sizeof signals[0]; i++)
        right = right && !sigaction(signals[i], &action, NULL);
    if (!right) {
        perror("compare: a signal cannot be caught");
        exit(2);
    }
    both_prepare();
}

bool check_run(const char *name, void (*group)(void))
{
    group_name = name;
    printer = print_case;
    calls = 0;
    sum_begin();
    words[0] = 0;
    if (!setjmp(group_end)) {
        group();
        passed++;
        printf("ok %s: %" PRIu64 " calls%s\n", name, calls, words);
        fflush(stdout);
        return true;
    }
    place = AT_END;
    failed++;
    printf("FAILED %s: %s, after %" PRIu64 " calls\n", name, words, calls);
    fflush(stdout);
    return false;
}

int check_end(void)
{
    printf("%u passed, %u failed\n", passed, failed);
    return failed ? 1 : 0;
}
