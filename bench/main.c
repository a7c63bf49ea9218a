/* main: makes a case's call many times, by the engine that it is linked with. See cases.h.
 *
 *   PROGRAM list                         the names of the cases
 *   PROGRAM make CASE REPEATS [COUNT]    makes the calls and prints nothing
 *   PROGRAM show CASE REPEATS [COUNT]    makes them, and prints the last answer, the states, the output memory and what the last
 *                                        call changed in the log
 *   PROGRAM time CASE [COUNT]            nanoseconds of one call, with the loop around it, of 20 ms or more of them
 *   PROGRAM random CALLS                 makes so many calls on the eight-channel module, each of them some call, the same for every
 *                                        engine, and prints a number that depends on every answer and byte
 *
 * COUNT is the length of the read or write, or the log's used blocks, in place of the case's own. Each call finds the same
 * records and log, so that a read finds the flags up that the read before it cleared. Exit status 1 if a call does not answer as
 * its case says, 2 if it cannot be made. */
#include "cases.h"
#include "eight.h"
#include "logs.h"

#include <inttypes.h>
#include <stdio.h>
#include <stdlib.h>
#include <string.h>
#include <time.h>

static volatile uint64_t answer;

static _Noreturn void stop(int status, const char *what, const char *name)
{
    fprintf(stderr, "bench: %s: %s\n", name, what);
    exit(status);
}

static void repeat(const struct one_call *c, uint64_t repeats)
{
    for (; repeats; repeats--) {
        put_back(c);
        answer = make(c);
    }
}

/* ---- show */

static void print_bytes(const char *name, const uint8_t *bytes, size_t len)
{
    printf("%s ", name);
    for (size_t i = 0; i < len; i++)
        printf("%02x", bytes[i]);
    putchar('\n');
}

static void show(const struct one_call *c)
{
    bool is_number = c->call == VALUE || c->call == LIMIT;

    if (!is_number && zikhrodan_refusal_of((uint32_t)answer) != c->refusal)
        stop(1, "it does not give the refusal that its case says", c->name);
    if (c->call == LOG_FIRST && !is_found(c, answer))
        stop(1, "it does not find the sample that its case says", c->name);
    printf("answer %016" PRIx64 "\n", answer);
    print_bytes("state", state, sizeof state);
    print_bytes("eight", eight, sizeof eight);
    print_bytes("out", out, sizeof out);
    show_log();
}

/* ---- time */

static double nanoseconds(const struct one_call *c, uint64_t repeats)
{
    struct timespec first, last;

    clock_gettime(CLOCK_MONOTONIC, &first);
    repeat(c, repeats);
    clock_gettime(CLOCK_MONOTONIC, &last);
    return (double)(last.tv_sec - first.tv_sec) * 1e9 + (double)(last.tv_nsec - first.tv_nsec);
}

static void measure(const struct one_call *c)
{
    uint64_t repeats = 1;
    double taken = nanoseconds(c, repeats);

    while (taken < 20e6) {
        repeats *= 2;
        taken = nanoseconds(c, repeats);
    }
    printf("%.2f\n", taken / (double)repeats);
}

/* ---- words */

static uint64_t number(const char *word)
{
    char *end;
    unsigned long value = strtoul(word, &end, 10);

    if (*word < '0' || *word > '9' || *end)
        stop(2, "not a number", word);
    return value;
}

static struct one_call find(const char *name)
{
    for (unsigned i = 0; i < many_cases; i++)
        if (!strcmp(name, cases[i].name))
            return cases[i];
    stop(2, "no such case", name);
}

static void list(void)
{
    for (unsigned i = 0; i < many_cases; i++)
        puts(cases[i].name);
}

int main(int count, char **words)
{
    if (count == 2 && !strcmp(words[1], "list")) {
        list();
        return 0;
    }
    if (count == 3 && !strcmp(words[1], "random")) {
        printf("%016" PRIx64 "\n", some_calls(number(words[2])));
        return 0;
    }
    bool timed = count >= 3 && !strcmp(words[1], "time"), shown = count >= 4 && !strcmp(words[1], "show");
    bool made = count >= 4 && !strcmp(words[1], "make");
    int most = timed ? 4 : 5;
    if (count > most || !(timed || shown || made))
        stop(2, "list | make CASE REPEATS [COUNT] | show CASE REPEATS [COUNT] | time CASE [COUNT] | random CALLS", "usage");

    struct one_call c = find(words[2]);
    if (count == most)
        *(c.used ? &c.used : &c.count) = number(words[most - 1]);
    if (c.count > ZIKHRODAN_READ_MAX || ((c.call == WRITE || c.call == EIGHT_WRITE) && c.count > ZIKHRODAN_WRITE_MAX) || c.used > MOST_USED)
        stop(2, "more bytes than are lent", words[most - 1]);
    if (c.call >= LOG_ADD && c.used == 0)
        stop(2, "no block is used", words[most - 1]);
    if (!set_up(&c) && shown)
        stop(1, "it cannot be set up", c.name);
    if (shown)
        remember_log();
    if (timed) {
        measure(&c);
        return 0;
    }
    repeat(&c, number(words[3]));
    if (shown)
        show(&c);
    return 0;
}
