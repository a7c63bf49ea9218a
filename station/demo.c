/* demo.c: zikhrodan demo: a module, a day of samples, and two readers. What it shows of the module is what the calls say. */
#include "ask.h"
#include "command.h"
#include "day.h"
#include "demo_eight.h"
#include "demo_keep.h"
#include "demo_tell.h"
#include "factory.h"
#include "words.h"

#include <stdio.h>
#include <string.h>

enum { OPERATOR_READS = 18 * 60 };

struct demo {
    struct state state;
    struct told_ports ports;
    unsigned died; /* the minute in which both interrupts came */
};

static int begin(struct demo *demo)
{
    char field[2][ZIKHRODAN_PAGE_LEN + 1] = {{0}};
    const uint8_t *page = FACTORY_IMAGE + ZIKHRODAN_PAGE_00_AT;

    demo->state = (struct state){.kind = &FOUR, .len = FOUR.state_len};
    uint32_t answer = zikhrodan_reset(demo->state.bytes, demo->state.len, FACTORY_IMAGE, sizeof FACTORY_IMAGE);
    if (zikhrodan_refusal_of(answer) != ZIKHRODAN_ACCEPTED)
        return refused(zikhrodan_refusal_of(answer), zikhrodan_words(zikhrodan_refusal_of(answer)), "the built-in factory image");
    for (unsigned i = 0; i < 2; i++) {
        uint32_t at = zikhrodan_identity(demo->state.bytes + ZIKHRODAN_PAGE_00_AT, ZIKHRODAN_PAGE_LEN, page, ZIKHRODAN_PAGE_LEN,
                                         i ? ZIKHRODAN_PART_NUMBER : ZIKHRODAN_VENDOR_NAME);
        memcpy(field[i], demo->state.bytes + ZIKHRODAN_PAGE_00_AT + zikhrodan_identity_start(at), zikhrodan_identity_length(at));
    }
    printf("An optical module at a shore station, %s %s, has two\n"
           "management ports: the operator's, and the recorder's, which the fisheries\n"
           "regulator has sealed. A day of samples, one a minute:\n\n",
           field[0], field[1]);
    tell_ports();
    return DONE;
}

/* Reads bytes 3 to 14 as a port does, which clears them for that port. */
static void read_flags(struct demo *demo, uint64_t port, unsigned minute)
{
    unsigned i = (unsigned)port - ZIKHRODAN_OPERATOR;
    char what[NAME_ROOM];

    uint32_t answer = zikhrodan_read(demo->state.bytes, demo->state.len, port, FLAGS_AT, FLAG_BYTES, demo->ports.read[i],
                                     FLAG_BYTES);
    demo->ports.counts[i] = zikhrodan_count(answer);
    snprintf(what, sizeof what, "the %s reads its flags", port_name(port));
    tell_event(&demo->ports, minute, what);
}

/* Feeds a minute's sample, and says when a line's light went or came back by the library's monitors. */
static void minute_passes(struct demo *demo, unsigned minute)
{
    struct state *state = &demo->state;
    uint8_t sample[ZIKHRODAN_SAMPLE_LEN];
    unsigned calm = demo->ports.counts[0] + demo->ports.counts[1] == 0;
    double light[4];
    char what[64];

    for (unsigned line = 0; line < 4; line++)
        light[line] = zikhrodan_monitor_value(state->bytes, state->len, ZIKHRODAN_RX_POWER_1 + line);
    day_sample(minute, sample);
    uint32_t answer = zikhrodan_sample(state->bytes, state->len, sample, sizeof sample);
    demo->ports.counts[0] = zikhrodan_operator_count(answer);
    demo->ports.counts[1] = zikhrodan_recorder_count(answer);
    if (calm && demo->ports.counts[0] && demo->ports.counts[1])
        demo->died = minute;
    if (minute == 0)
        tell_event(&demo->ports, minute, "the first sample: all four lines are lit");
    for (unsigned line = 0; line < 4 && minute > 0; line++) {
        double now = zikhrodan_monitor_value(state->bytes, state->len, ZIKHRODAN_RX_POWER_1 + line);
        if ((light[line] == 0.0) == (now == 0.0))
            continue;
        snprintf(what, sizeof what, "line Rx%u %s (%.4f to %.4f mW)", line + 1, now == 0.0 ? "goes dark" : "is lit again",
                 light[line], now);
        tell_event(&demo->ports, minute, what);
    }
}

static int compare(const struct demo *demo)
{
    int status = tell_read(&FOUR, &demo->ports);

    if (status != DONE)
        return status;
    printf("\n%sThe line died at %02u:%02u%s, in sample %u of %u. The operator read first,\n"
           "six hours before the recorder, and both were told the same: a read clears a\n"
           "flag for the port that reads, and for no other. In the old firmware the first\n"
           "reader cleared it for both, and the recorder would have been told nothing.\n"
           "That this cannot happen is proved: docs/EXAMINER.md.\n",
           paint(STRONG), demo->died / 60, demo->died % 60, paint(PLAIN), demo->died + 1, (unsigned)DAY_MINUTES);
    return DONE;
}

static int demo_four(void)
{
    static struct demo demo;
    int status = begin(&demo);

    if (status != DONE)
        return status;
    for (unsigned minute = 0; minute < DAY_MINUTES; minute++) {
        minute_passes(&demo, minute);
        if (minute == OPERATOR_READS)
            read_flags(&demo, ZIKHRODAN_OPERATOR, minute);
    }
    read_flags(&demo, ZIKHRODAN_RECORDER, DAY_MINUTES);
    return compare(&demo);
}

static int demo(int given, char **words)
{
    const char *folder = NULL;
    bool eight = false;
    const struct option options[] = {{.name = "--keep", .value = &folder}, {.name = "--eight", .flag = &eight}, {0}};

    if (!words_in(&given, words, options, &DEMO, 0, 0))
        return USAGE_OR_FILE;
    int status = folder ? demo_keeps(folder, eight) : DONE;
    status = status ? status : eight ? demo_eight() : demo_four();
    return status == DONE && folder ? demo_keep(folder, eight) : status;
}

const struct command DEMO = {
    .name = "demo",
    .usage = "[--eight] [--keep FOLDER]",
    .brief = "shows the whole in a minute",
    .help = "Resets a module to the built-in factory image and plays a built-in day of\n"
            "samples in which a line goes dark for a while. The operator reads first, the\n"
            "recorder after; what each saw is shown side by side.\n\n"
            "  --eight          the same with an eight-channel module: a condition that lasts\n"
            "                   interrupts once, not at every sample, and each reader is told\n"
            "  --keep FOLDER    leaves the image, the day's rows, the module, freshly reset,\n"
            "                   and a log of the day in FOLDER, to try the other commands on;\n"
            "                   with --eight the eight-channel module and its rows",
    .examples = "    $ zikhrodan demo --keep another | tail -n 2\n"
                "    Kept in another: factory.image, day.rows, module.state, a module that is reset\n"
                "    and has been fed nothing yet, and day.log, a log that has the day's samples.\n"
                "    $ zikhrodan demo --eight --keep another | tail -n 2\n"
                "    Kept in another: eight.rows, the day's rows, and eight.state, an eight-channel\n"
                "    module that is reset and has been fed nothing yet.\n",
    .run = demo,
};
