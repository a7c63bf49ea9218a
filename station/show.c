/* show.c: `zikhrodan show`: a look that clears nothing. Asks the library for all that is shown; one of the forms prints it. */
#include "command.h"
#include "show.h"
#include "why.h"
#include "words.h"

/* The ports wanted; 0, or an exit status with the error said, of a state or a port that the library refuses altogether. */
static int ask_ports(struct shown *shown, const char *name, const char *word)
{
    uint64_t first = ZIKHRODAN_OPERATOR;

    if (word && !port_in(word, &first))
        return USAGE_OR_FILE;
    shown->port_count = word ? 1 : PORTS;
    for (unsigned i = 0; i < shown->port_count; i++) {
        struct shown_port *port = &shown->ports[i];
        *port = (struct shown_port){.number = first + i, .view = ask_port(&shown->state, first + i)};
        ask_masked(&shown->state, port->number, port->masked);
        if (!answered(port) && port->view.refusal != ZIKHRODAN_UNSOUND_RECORD)
            return refused(port->view.refusal, shown->state.kind->words(port->view.refusal), "%s", name);
    }
    return DONE;
}

/* What was refused while the rest was shown; gives the exit status. */
static int refusals(const struct shown *shown, const char *name)
{
    int status = DONE;

    for (const struct shown_port *port = shown->ports; port < shown->ports + shown->port_count; port++)
        if (!answered(port))
            status = refused(port->view.refusal, why_port(shown->state.kind, port->view.refusal, port->number), "%s", name);
    if (shown->identity.refusal != ZIKHRODAN_ACCEPTED)
        status = refused(shown->identity.refusal, zikhrodan_words(shown->identity.refusal), "%s: identity", name);
    return status;
}

enum which_flags which_flags(const struct wanted *wanted)
{
    return wanted->raised ? RAISED_FLAGS : wanted->all ? ALL_FLAGS : TELLING_FLAGS;
}

static int show(int given, char **words)
{
    static struct shown shown;
    struct wanted wanted = {0};
    const struct option options[] = {{"--port", &wanted.port, NULL}, {"--factory", &wanted.factory, NULL},
                                     {"--raised", NULL, &wanted.raised}, {"--all", NULL, &wanted.all},
                                     {"--json", NULL, &wanted.json}, {"--hex", NULL, &wanted.hex}, {NULL, NULL, NULL}};

    if (!words_in(&given, words, options, &SHOW, 1, 1))
        return USAGE_OR_FILE;
    if (wanted.raised + wanted.all + wanted.json + wanted.hex > 1)
        return fail("--raised, --all, --json and --hex are four forms: one at a time");
    int status = state_peek(&shown.state, words[0], NULL);
    status = status ? status : ask_ports(&shown, words[0], wanted.port);
    if (status == DONE)
        status = shown.state.kind == &EIGHT ? show_eight(&shown, &wanted) : show_four(&shown, &wanted);
    return status ? status : refusals(&shown, words[0]);
}

const struct command SHOW = {
    .name = "show",
    .usage = "STATE [--port PORT] [OPTION ..]",
    .brief = "what a module has; clears nothing",
    .help = "Shows the identity, the monitors beside their limits, flags and masks port by\n"
            "port, and whether each port's interrupt stands. It is a look: nothing is\n"
            "cleared and STATE is not written. Flags of which there is nothing to tell are\n"
            "left out, and channels that are alike share a line.\n\n"
            "Of an eight-channel module it shows which conditions stood in the last sample,\n"
            "and what is raised, pending and masked, of 106 flags, by document 002's names.\n\n"
            "  --port PORT        one port alone\n"
            "  --raised           the raised flags alone, and a line for each port\n"
            "  --all              every flag, a line for each\n"
            "  --json             for programs: an array with an object for each port, with\n"
            "                     the keys of `ethtool -j -m` (6.14) where that has the\n"
            "                     fact; what is ours is in the object \"zikhrodan\"; null is\n"
            "                     what is not measured, or refused. An eight-channel module\n"
            "                     has that object alone, and in it each flag with its name,\n"
            "                     its address and its bit\n"
            "  --hex              every byte as it lies; with --port what that port reads\n"
            "  --factory IMAGE    has the identity where the live page 00h is damaged;\n"
            "                     without it the built-in image has. An eight-channel module\n"
            "                     has no identity\n\n"
            "--raised, --all, --json and --hex go one at a time. Where a part is refused, the\n"
            "others are shown, and the exit status is 1.",
    .examples = "    $ zikhrodan show trial/module.state --raised\n"
                "    no flag is raised\n"
                "    operator: 0 flags let through, no interrupt, page 00h selected\n"
                "    recorder: 0 flags let through, no interrupt, page 00h selected\n"
                "    $ zikhrodan sample trial/module.state trial/day.rows\n"
                "    1440 rows taken\n"
                "    operator: 3 flags let through, interrupt\n"
                "    recorder: 3 flags let through, interrupt\n"
                "    $ zikhrodan show trial/module.state --raised\n"
                "    flags                        operator        recorder\n"
                "      Rx3 loss of signal         raised          raised\n"
                "      Rx power 3 low alarm       raised          raised\n"
                "      Rx power 3 low warning     raised          raised\n"
                "    operator: 3 flags let through, interrupt, page 00h selected\n"
                "    recorder: 3 flags let through, interrupt, page 00h selected\n"
                "    $ zikhrodan show trial/module.state --json | grep rx_loss_of_signal\n"
                "        \"rx_loss_of_signal\": [false, false, true, false],\n"
                "        \"rx_loss_of_signal\": [false, false, true, false],\n"
                "    $ zikhrodan demo --eight --keep trial | tail -n 2\n"
                "    Kept in trial: eight.rows, the day's rows, and eight.state, an eight-channel\n"
                "    module that is reset and has been fed nothing yet.\n"
                "    $ head -c 7840 trial/eight.rows | zikhrodan sample trial/eight.state -\n"
                "    560 rows taken\n"
                "    operator (eight channels): 4 pending flags let through, interrupt\n"
                "    recorder (eight channels): 4 pending flags let through, interrupt\n"
                "    $ zikhrodan write trial/eight.state recorder 104 0xFF\n"
                "    recorder (eight channels): 3 pending flags let through, interrupt\n"
                "    $ zikhrodan show trial/eight.state --raised\n"
                "    flags                        condition  operator                 recorder\n"
                "      Rx5 LOS                    stands     raised, pending          raised, pending\n"
                "      Rx5 CDR LOL                stands     raised, pending          raised, pending, masked\n"
                "      Rx5 Power Low Warning      stands     raised, pending          raised, pending\n"
                "      Rx5 Power Low Alarm        stands     raised, pending          raised, pending\n"
                "    operator (eight channels): 4 pending flags let through, interrupt\n"
                "    recorder (eight channels): 3 pending flags let through, interrupt\n"
                "    $ zikhrodan show trial/eight.state --json --port recorder | grep 'Rx5 LOS'\n"
                "                {\"name\": \"Rx5 LOS\", \"address\": 3, \"bit\": 4, \"mask_address\": 102, "
                "\"condition\": true, \"raised\": true, \"pending\": true, \"masked\": false},\n",
    .run = show,
};
