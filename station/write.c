/* write.c: zikhrodan write. */
#include "command.h"
#include "state.h"
#include "why.h"
#include "words.h"

#include <inttypes.h>
#include <stdio.h>

/* More bytes than this the library is not asked about: it takes 4 at most. */
enum { MOST_BYTES = 256 };

static bool bytes_in(char **words, int count, uint8_t *bytes)
{
    uint64_t byte;

    for (int i = 0; i < count; i++) {
        if (!number_in(words[i], "the byte", &byte))
            return false;
        if (byte > 0xff) {
            fail("the byte '%s' is above 255", words[i]);
            return false;
        }
        bytes[i] = (uint8_t)byte;
    }
    return true;
}

/* What a port reads at an address, of a copy; after a write to the copy of what is there, unless that is null. */
static uint8_t reads(const struct state *state, uint64_t port, uint64_t address, const uint8_t *written)
{
    struct state copy = *state;
    uint8_t byte = 0;

    if (written)
        copy.kind->write(copy.bytes, copy.len, port, address, written, 1);
    copy.kind->read(copy.bytes, copy.len, port, address, 1, &byte, 1);
    return byte;
}

/* " 7-4, 2": which bits are 1, from the highest down. */
static void print_bits(uint8_t bits)
{
    const char *between = "";

    for (int high = 7, low; high >= 0; high = low - 1) {
        for (low = high; low > 0 && (bits >> high & 1) && (bits >> (low - 1) & 1);)
            low--;
        if (!(bits >> high & 1))
            continue;
        printf("%s %d", between, high);
        if (low < high)
            printf("-%d", low);
        between = ",";
    }
}

/* A line for each byte that does not read as it was written. */
static void say_not_taken(const struct state *state, uint64_t port, uint64_t address, const uint8_t *bytes, size_t count)
{
    static const uint8_t zeros = 0, ones = 0xff;

    for (size_t i = 0; i < count; i++, address++) {
        uint8_t now = reads(state, port, address, NULL), differs = now ^ bytes[i];
        if (!differs)
            continue;
        printf("at %" PRIu64 ": ", address);
        if (state->kind->pages && address == ZIKHRODAN_REG_PAGE_SELECT) {
            printf("page %02Xh is not supported, %02Xh is selected\n", bytes[i], now);
        } else if (reads(state, port, address, &zeros) == reads(state, port, address, &ones)) {
            printf("%02Xh did not take, it reads %02Xh: no writable bit there\n", bytes[i], now);
        } else {
            printf("of %02Xh bit%s", bytes[i], plural((uint64_t)__builtin_popcount(differs)));
            print_bits(differs);
            printf(" did not take, it reads %02Xh\n", now);
        }
    }
}

static int write_command(int given, char **words)
{
    static const struct option options[] = {{0}};
    struct state state;
    uint64_t port, address;
    uint8_t bytes[MOST_BYTES];

    if (!words_in(&given, words, options, &WRITE, 4, 3 + MOST_BYTES) || !port_in(words[1], &port) ||
        !number_in(words[2], "the address", &address) || !bytes_in(words + 3, given - 3, bytes))
        return USAGE_OR_FILE;
    int status = state_open(&state, words[0], NULL, IS_ERROR);
    if (status != DONE)
        return status;
    uint32_t answer = state.kind->write(state.bytes, state.len, port, address, bytes, (size_t)given - 3);
    uint32_t refusal = zikhrodan_refusal_of(answer);
    if (refusal != ZIKHRODAN_ACCEPTED)
        status = refused(refusal, why_write(&state, refusal, port, address, (size_t)given - 3), "%s", words[0]);
    else
        status = state_save(&state);
    state_close(&state);
    if (status == DONE) {
        say_count(state.kind, port, zikhrodan_count(answer));
        putchar('\n');
        say_not_taken(&state, port, address, bytes, (size_t)given - 3);
    }
    return status;
}

const struct command WRITE = {
    .name = "write",
    .usage = "STATE PORT ADDRESS BYTE..",
    .brief = "writes as a port does",
    .help = "Writes 1 to 4 bytes at ADDRESS. The bits that the port may not write stay as\n"
            "they are, and the write is still accepted; a recorder's write of a byte that is\n"
            "not its own is refused. Which written bits did not take is told, by reading them\n"
            "back. An eight-channel module's mask bytes are 102 to 115, and either port may\n"
            "write its own.",
    .examples = "    $ zikhrodan write trial/module.state operator 100 0xFF\n"
                "    operator: 0 flags let through, no interrupt\n"
                "    $ zikhrodan write trial/module.state operator 86 0xFF\n"
                "    operator: 0 flags let through, no interrupt\n"
                "    at 86: of FFh bits 7-4 did not take, it reads 0Fh\n"
                "    $ zikhrodan write trial/module.state operator 127 9\n"
                "    operator: 0 flags let through, no interrupt\n"
                "    at 127: page 09h is not supported, 00h is selected\n"
                "    $ zikhrodan write trial/module.state recorder 86 1\n"
                "    zikhrodan: trial/module.state: refused 7, a recorder's write touches a byte not its own: 86\n"
                "    [exit status 1]\n"
                "    $ zikhrodan demo --eight --keep trial | tail -n 2\n"
                "    Kept in trial: eight.rows, the day's rows, and eight.state, an eight-channel\n"
                "    module that is reset and has been fed nothing yet.\n"
                "    $ zikhrodan write trial/eight.state recorder 102 0xFF\n"
                "    recorder (eight channels): 0 pending flags let through, no interrupt\n",
    .run = write_command,
};
