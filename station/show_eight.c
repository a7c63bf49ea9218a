/* show_eight.c: the eight-channel module for people, and in hex. Its pending bits and the conditions of its last sample have no
 * address: they are taken from where zikhrodan.h says that they lie. */
#include "dump.h"
#include "say.h"
#include "show.h"
#include "words.h"

#include <stdio.h>

static void title(const char *words)
{
    printf("%s%s%s", paint(STRONG), words, paint(PLAIN));
}

/* ---- in hex */

static void run(const char *words, const uint8_t *bytes, size_t address)
{
    printf("%s\n", words);
    dump(bytes, ZIKHRODAN_DD_FLAG_BYTES, address);
}

/* Each at the address of its flag byte, or of its mask byte. */
static void as_they_lie(const struct shown *shown)
{
    title("an eight-channel module");
    run("\n\nconditions of the last sample, of flag bytes 3 to 16", shown->conditions, ZIKHRODAN_DD_RX_LOS);
    for (unsigned i = 0; i < PORTS; i++) {
        const uint8_t *record = shown->state.bytes + ZIKHRODAN_DD_OPERATOR_AT + i * ZIKHRODAN_DD_RECORD_LEN;
        printf("\n%s%s's record%s", paint(STRONG), port_name(shown->ports[i].number), paint(PLAIN));
        end_title(shown, &shown->ports[i]);
        run("flags", record + ZIKHRODAN_DD_FLAGS_IN, ZIKHRODAN_DD_RX_LOS);
        run("masks", record + ZIKHRODAN_DD_MASKS_IN, ZIKHRODAN_DD_RX_LOS_MASK);
        run("pending, of flag bytes 3 to 16", record + ZIKHRODAN_DD_PENDING_IN, ZIKHRODAN_DD_RX_LOS);
    }
}

static void as_read(const struct shown *shown)
{
    struct state copy = shown->state;
    const struct shown_port *port = &shown->ports[0];
    uint8_t bytes[ZIKHRODAN_DD_ADDRESSES];

    title("an eight-channel module");
    printf(", as the %s reads it", port_name(port->number));
    end_title(shown, port);
    if (!answered(port))
        return;
    uint32_t answer = zikhrodan_dd_read(copy.bytes, copy.len, port->number, 0, sizeof bytes, bytes, sizeof bytes);
    if (zikhrodan_refusal_of(answer) == ZIKHRODAN_ACCEPTED)
        dump(bytes, sizeof bytes, 0);
}

/* ---- */

int show_eight(struct shown *shown, const struct wanted *wanted)
{
    if (wanted->factory)
        return fail("%s: an eight-channel module has no identity for --factory to stand in for", shown->state.name);
    shown->conditions = shown->state.bytes;
    if (wanted->json) {
        show_eight_json(shown);
    } else if (wanted->hex) {
        wanted->port ? as_read(shown) : as_they_lie(shown);
    } else {
        if (!wanted->raised) {
            title("an eight-channel module");
            puts(": the flags and masks of QSFP-DD revision 2.0\n");
        }
        show_flags(shown, which_flags(wanted));
    }
    return DONE;
}
