/* caller.c: makes the library's calls that standard input asks for, for tests/docs/registers.
 *
 * A line is a call and its arguments in their order: memory is ':' and its bytes in hex, with its length as it is; a number is
 * decimal. The answer is a line: the call's answer in decimal, a double's as its bit pattern, and then every memory as the call
 * leaves it, in the same form. Ends with the input; exit status 1 at a line that is none. */
#include <zikhrodan.h>

#include <inttypes.h>
#include <stdio.h>
#include <stdlib.h>
#include <string.h>

enum { MOST = 3, ROOM = 1 << 16 };

struct args {
    uint8_t at[MOST][ROOM];
    size_t len[MOST];
    uint64_t number[MOST];
    unsigned memories, numbers;
};

static uint64_t pattern(double value)
{
    uint64_t bits;
    memcpy(&bits, &value, sizeof bits);
    return bits;
}

static unsigned digit(char c)
{
    return c <= '9' ? (unsigned)(c - '0') : (unsigned)(c - 'a' + 10);
}

static int take(struct args *args, const char *word)
{
    size_t digits = strlen(word + 1);

    if (word[0] != ':') {
        if (args->numbers == MOST)
            return 0;
        args->number[args->numbers++] = strtoull(word, NULL, 10);
        return 1;
    }
    if (args->memories == MOST || digits % 2 || digits / 2 > ROOM || strspn(word + 1, "0123456789abcdef") != digits)
        return 0;
    for (size_t i = 0; i < digits / 2; i++)
        args->at[args->memories][i] = (uint8_t)(digit(word[1 + 2 * i]) << 4 | digit(word[2 + 2 * i]));
    args->len[args->memories++] = digits / 2;
    return 1;
}

static void tell(const uint8_t *bytes, size_t len)
{
    static char text[2 * ROOM + 1];
    static const char digits[] = "0123456789abcdef";

    for (size_t i = 0; i < len; i++) {
        text[2 * i] = digits[bytes[i] >> 4];
        text[2 * i + 1] = digits[bytes[i] & 15];
    }
    text[2 * len] = 0;
    printf(" :%s", text);
}

/* The calls, by name: M is a memory and its length, N a number. */
#define M(i) args->at[i], args->len[i]
#define N(i) args->number[i]
#define CALL(name, ...) \
    if (strcmp(call, #name) == 0) { \
        *answer = zikhrodan_##name(__VA_ARGS__); \
        return 1; \
    }

static int made(const char *call, struct args *args, uint64_t *answer)
{
    CALL(reset, M(0), M(1))
    CALL(sample, M(0), M(1))
    CALL(read, M(0), N(0), N(1), N(2), M(1))
    CALL(write, M(0), N(0), N(1), M(1))
    CALL(identity, M(0), M(1), N(0))
    CALL(monitor_kind, M(0), N(0))
    CALL(limits_refusal, M(0), N(0))
    CALL(log_add, M(0), N(0), M(1))
    CALL(log_power_up, M(0), N(0))
    CALL(log_sample, M(0), N(0), N(1))
    CALL(log_first, M(0), N(0), N(1))
    if (strcmp(call, "monitor_value") == 0) {
        *answer = pattern(zikhrodan_monitor_value(M(0), N(0)));
        return 1;
    }
    if (strcmp(call, "limit") == 0) {
        *answer = pattern(zikhrodan_limit(M(0), N(0), N(1)));
        return 1;
    }
    return 0;
}

int main(void)
{
    static struct args args;
    static char line[MOST * 2 * ROOM + 256];
    uint64_t answer;

    while (fgets(line, sizeof line, stdin)) {
        const char *call = strtok(line, " \n");
        args.memories = args.numbers = 0;
        for (const char *word = strtok(NULL, " \n"); word; word = strtok(NULL, " \n"))
            if (!take(&args, word))
                return 1;
        if (!call || !made(call, &args, &answer))
            return 1;
        printf("%" PRIu64, answer);
        for (unsigned m = 0; m < args.memories; m++)
            tell(args.at[m], args.len[m]);
        putchar('\n');
        fflush(stdout);
    }
    return 0;
}
