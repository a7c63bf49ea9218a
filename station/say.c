/* say.c: see say.h. */
#include "say.h"
#include "kind.h"

#include <errno.h>
#include <inttypes.h>
#include <poll.h>
#include <stdarg.h>
#include <stdbool.h>
#include <stdio.h>
#include <stdlib.h>
#include <string.h>
#include <unistd.h>

/* How wide the line is that stands on the terminal to be written over; 0 where none does. */
static int passing;

void pass_by(uint64_t number, const char *what)
{
    if (isatty(STDERR_FILENO))
        passing = fprintf(stderr, "\r%" PRIu64 " %s", number, what);
}

void wipe(void)
{
    if (passing > 0)
        fprintf(stderr, "\r%*s\r", passing, "");
    passing = 0;
}

/* The beginning of a line of error, after all that was printed before. */
static void begin_error(const char *format, va_list words)
{
    wipe();
    fflush(stdout);
    fputs("zikhrodan: ", stderr);
    vfprintf(stderr, format, words);
}

int fail(const char *format, ...)
{
    va_list words;

    va_start(words, format);
    begin_error(format, words);
    va_end(words);
    fputc('\n', stderr);
    return USAGE_OR_FILE;
}

int fail_errno(const char *name)
{
    return fail("%s: %s", name, strerror(errno));
}

int refused(uint32_t refusal, const char *why, const char *of, ...)
{
    va_list words;

    va_start(words, of);
    begin_error(of, words);
    va_end(words);
    fprintf(stderr, ": refused %u, %s\n", refusal, why);
    return REFUSED;
}

/* Whether nobody is there any more to read what is printed. */
static bool reader_gone(void)
{
    struct pollfd out = {.fd = STDOUT_FILENO, .events = POLLOUT};

    return poll(&out, 1, 0) > 0 && (out.revents & POLLERR);
}

int finished(int status)
{
    static bool said;

    if (said || (fflush(stdout) == 0 && !ferror(stdout)))
        return status;
    said = true;
    return errno == EPIPE || reader_gone() ? USAGE_OR_FILE : fail_errno("standard output");
}

const char *paint(enum colour colour)
{
    static const char *const codes[] = {
        [PLAIN] = "\33[0m", [BAD] = "\33[31m", [GOOD] = "\33[32m", [FAINT] = "\33[2m", [STRONG] = "\33[1m",
    };
    static int colours = -1;
    const char *terminal = getenv("TERM"), *without = getenv("NO_COLOR");

    if (colours < 0)
        colours = isatty(STDOUT_FILENO) && !(without && without[0]) && !(terminal && strcmp(terminal, "dumb") == 0);
    return colours ? codes[colour] : "";
}

const char *plural(uint64_t number)
{
    return number == 1 ? "" : "s";
}

void say_refusal(uint32_t refusal, const char *why)
{
    printf("%srefused %u, %s%s\n", paint(BAD), refusal, why, paint(PLAIN));
}

void say_count(const struct kind *kind, uint64_t port, unsigned count)
{
    printf("%s%s%s%s: %u %sflag%s let through, %s%s%s", paint(STRONG), port_name(port), paint(PLAIN), kind->aside, count,
           kind->counted, plural(count), paint(count ? BAD : PLAIN), count ? "interrupt" : "no interrupt", paint(PLAIN));
}
