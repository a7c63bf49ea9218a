/* read.c: zikhrodan read. */
#include "command.h"
#include "dump.h"
#include "state.h"
#include "why.h"
#include "words.h"

#include <stdio.h>

static void print(const struct kind *kind, const uint8_t *bytes, size_t count, uint64_t address, uint64_t port, uint32_t answer)
{
    dump(bytes, count, (size_t)address);
    say_count(kind, port, zikhrodan_count(answer));
    putchar('\n');
}

/* The bytes are out before the flags are gone from the file: what cannot be shown is not cleared. */
static int read_from(struct state *state, const char *name, uint64_t port, uint64_t address, uint64_t count, bool raw)
{
    uint8_t bytes[ZIKHRODAN_READ_MAX];
    uint32_t answer = state->kind->read(state->bytes, state->len, port, address, count, bytes, sizeof bytes);

    if (zikhrodan_refusal_of(answer) != ZIKHRODAN_ACCEPTED)
        return refused(zikhrodan_refusal_of(answer), why_read(state->kind, zikhrodan_refusal_of(answer), port), "%s", name);
    if (raw)
        fwrite(bytes, 1, (size_t)count, stdout);
    else
        print(state->kind, bytes, (size_t)count, address, port, answer);
    int status = finished(DONE);
    return status != DONE ? status : state_save(state);
}

static int read_command(int given, char **words)
{
    bool raw = false;
    const struct option options[] = {{.name = "--raw", .flag = &raw}, {0}};
    struct state state;
    uint64_t port, address, count;

    if (!words_in(&given, words, options, &READ, 4, 4) || !port_in(words[1], &port) ||
        !number_in(words[2], "the address", &address) || !number_in(words[3], "the count", &count))
        return USAGE_OR_FILE;
    int status = state_open(&state, words[0], NULL, IS_ERROR);
    if (status != DONE)
        return status;
    status = read_from(&state, words[0], port, address, count, raw);
    state_close(&state);
    return status;
}

const struct command READ = {
    .name = "read",
    .usage = "STATE PORT ADDRESS COUNT [--raw]",
    .brief = "reads as a port does",
    .help = "Reads COUNT bytes (1 to 128) at ADDRESS (0 to 127 lower memory, 128 to 255 the\n"
            "port's selected page), as the port sees them. The flag bytes among them, 3 to\n"
            "14, become 0 for this port, and for this port alone; `show` clears nothing.\n"
            "Prints the address in decimal and in hex, the bytes, their text, and then the\n"
            "port's count of flags that its masks let through after the read. The bytes are\n"
            "out before the state is saved: what cannot be shown is not cleared.\n\n"
            "An eight-channel module has addresses 0 to 127, and flag bytes 3 to 16; a read\n"
            "of one clears its pending bits too.\n\n"
            "  --raw    the bytes alone, as they are",
    .examples = "    $ zikhrodan sample trial/module.state trial/day.rows\n"
                "    1440 rows taken\n"
                "    operator: 3 flags let through, interrupt\n"
                "    recorder: 3 flags let through, interrupt\n"
                "    $ zikhrodan read trial/module.state operator 3 12\n"
                "        3 003  04 00 00 00 00 00 00 50 00 00 00 00              |.......P....|\n"
                "    operator: 0 flags let through, no interrupt\n"
                "    $ zikhrodan read trial/module.state recorder 0x94 16\n"
                "      148 094  46 49 4E 49 53 41 52 20 43 4F 52 50 20 20 20 20  |FINISAR CORP    |\n"
                "    recorder: 3 flags let through, interrupt\n"
                "    $ zikhrodan demo --eight --keep trial | tail -n 2\n"
                "    Kept in trial: eight.rows, the day's rows, and eight.state, an eight-channel\n"
                "    module that is reset and has been fed nothing yet.\n"
                "    $ zikhrodan sample trial/eight.state trial/eight.rows\n"
                "    1440 rows taken\n"
                "    operator (eight channels): 4 pending flags let through, interrupt\n"
                "    recorder (eight channels): 4 pending flags let through, interrupt\n"
                "    $ zikhrodan read trial/eight.state operator 3 14\n"
                "        3 003  10 00 10 00 00 00 00 10 10 00 00 00 00 00        |..............|\n"
                "    operator (eight channels): 0 pending flags let through, no interrupt\n",
    .run = read_command,
};
