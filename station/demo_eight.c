/* demo_eight.c: see demo_eight.h. What it shows of the module is what the calls say, and the conditions that the state keeps. */
#include "demo_eight.h"
#include "ask.h"
#include "day.h"
#include "demo_tell.h"
#include "say.h"
#include "words.h"

#include <stdio.h>
#include <string.h>

struct demo {
    struct state state;
    struct told_ports ports;
    unsigned dark;        /* samples after which a condition stood, */
    unsigned silent;      /* and how many of them left the operator's interrupt as it was, not standing */
    unsigned came[PORTS]; /* how often an interrupt came */
};

/* When the operator reads: soon after the line went dark, and at noon, while it still is. */
static const unsigned OPERATOR_READS[] = {9 * 60 + 30, 12 * 60};

/* How many of these flags are 1; the first one's name goes to `name`. */
static unsigned flags_in(const uint8_t flags[ZIKHRODAN_DD_FLAG_BYTES], char *name)
{
    unsigned count = 0;

    for (unsigned i = 0; i < 8 * EIGHT.flag_bytes; i++) {
        struct place at = place_shown(&EIGHT, i);
        if (bit_at(flags, at) && count++ == 0)
            flag_name(eight_flag_at(at.byte, at.bit), name, NAME_ROOM);
    }
    return count;
}

/* Reads bytes 3 to 16 as a port does, which clears flags and pending bits for that port. */
static void read_flags(struct demo *demo, uint64_t port, unsigned minute)
{
    unsigned i = (unsigned)port - ZIKHRODAN_OPERATOR;
    struct port_view before = ask_port(&demo->state, port);
    uint8_t bytes[ZIKHRODAN_DD_FLAG_BYTES];
    char what[2 * NAME_ROOM], first[NAME_ROOM];

    uint32_t answer = zikhrodan_dd_read(demo->state.bytes, demo->state.len, port, FLAGS_AT, sizeof bytes, bytes, sizeof bytes);
    demo->ports.counts[i] = zikhrodan_count(answer);
    for (unsigned byte = 0; byte < sizeof bytes; byte++)
        demo->ports.read[i][byte] |= bytes[byte];
    snprintf(what, sizeof what, "the %s reads: %u raised, %u pending", port_name(port), flags_in(bytes, first),
             flags_in(before.pending, first));
    tell_event(&demo->ports, minute, what);
}

static void take(struct demo *demo, const uint8_t *sample)
{
    uint32_t answer = zikhrodan_dd_sample(demo->state.bytes, demo->state.len, sample, ZIKHRODAN_DD_SAMPLE_LEN);
    const unsigned counts[PORTS] = {zikhrodan_operator_count(answer), zikhrodan_recorder_count(answer)};

    for (unsigned i = 0; i < PORTS; i++)
        demo->came[i] += demo->ports.counts[i] == 0 && counts[i] > 0;
    memcpy(demo->ports.counts, counts, sizeof counts);
}

/* Feeds a minute's sample, and says when conditions came or went. */
static void minute_passes(struct demo *demo, unsigned minute)
{
    uint8_t sample[ZIKHRODAN_DD_SAMPLE_LEN];
    char name[NAME_ROOM] = "", what[2 * NAME_ROOM];
    unsigned stood = flags_in(demo->state.bytes, name); /* the state begins with the conditions */

    eight_day_sample(minute, sample);
    take(demo, sample);
    unsigned stand = flags_in(demo->state.bytes, name);
    demo->dark += stand > 0;
    demo->silent += stand > 0 && demo->ports.counts[0] == 0;
    if (minute == 0)
        tell_event(&demo->ports, minute, "the first sample: no condition stands");
    if ((stood > 0) == (stand > 0))
        return;
    snprintf(what, sizeof what, "%s and %u more: their %s", name, (stand ? stand : stood) - 1, stand ? "onset" : "end");
    tell_event(&demo->ports, minute, what);
}

static int end(const struct demo *demo)
{
    int status = tell_read(&EIGHT, &demo->ports);

    if (status != DONE)
        return status;
    printf("\n%sConditions stood in %u of %u samples, and the operator's interrupt came %u\n"
           "time%s%s: at an onset, not at every sample. In %u samples they lasted, already\n"
           "read, and left the operator in peace. The recorder's interrupt came %u time%s, and\n"
           "stood until the recorder read: each reader is told, whoever reads first.\n"
           "That this is always so is proved: docs/EXAMINER.md.\n",
           paint(STRONG), demo->dark, (unsigned)DAY_MINUTES, demo->came[0], plural(demo->came[0]), paint(PLAIN), demo->silent,
           demo->came[1], plural(demo->came[1]));
    return DONE;
}

int demo_eight(void)
{
    static struct demo demo = {.state = {.kind = &EIGHT, .len = ZIKHRODAN_DD_STATE_LEN}};

    uint32_t answer = zikhrodan_dd_reset(demo.state.bytes, demo.state.len);
    if (zikhrodan_refusal_of(answer) != ZIKHRODAN_ACCEPTED)
        return refused(zikhrodan_refusal_of(answer), EIGHT.words(zikhrodan_refusal_of(answer)), "a new module");
    puts("An eight-channel module, with the flags and masks of QSFP-DD revision 2.0, has\n"
         "the same two ports. There a flag interrupts at the onset of its condition. A day\n"
         "of samples, one a minute:\n");
    tell_ports();
    for (unsigned minute = 0; minute < DAY_MINUTES; minute++) {
        minute_passes(&demo, minute);
        if (minute == OPERATOR_READS[0] || minute == OPERATOR_READS[1])
            read_flags(&demo, ZIKHRODAN_OPERATOR, minute);
    }
    read_flags(&demo, ZIKHRODAN_RECORDER, DAY_MINUTES);
    return end(&demo);
}
