/* died.c: zikhrodan died: when a line died, as the library answers. */
#include "command.h"
#include "died.h"
#include "logcalls.h"
#include "why.h"
#include "words.h"

#include <inttypes.h>
#include <stdlib.h>

/* When the sample at a position was taken. */
static int find_moment(const struct died_view *view, uint64_t position, struct moment *moment)
{
    uint64_t last;

    moment->or_later = power_ups_before(&view->seen, position, &last) > 0;
    return !view->moments.known || moment_of(&view->moments, position, moment->local, moment->utc) ? DONE : USAGE_OR_FILE;
}

/* Asks of one line. */
static int ask(struct died_view *view, uint64_t bit)
{
    const struct logfile *log = &view->log;
    uint64_t answer = log_first(log, bit);
    if (zikhrodan_log_refusal(answer) != ZIKHRODAN_ACCEPTED)
        return refused(zikhrodan_log_refusal(answer), why_line(zikhrodan_log_refusal(answer)), "%s: line %" PRIu64, log->name, bit);

    struct death *death = &view->deaths[view->lines++];
    *death = (struct death){.bit = (unsigned)bit, .died = zikhrodan_log_value(answer) > 0};
    if (!death->died)
        return DONE;
    death->position = zikhrodan_log_value(answer) - 1;
    death->number = log_number(log, place_of(&view->counts, death->position));
    death->power_ups = power_ups_before(&view->seen, death->position, &death->last);
    death->while_off = death->power_ups > 0 && death->last == death->position;
    int status = death->position > 0 ? find_moment(view, death->position - 1, &death->lit) : DONE;
    return status ? status : find_moment(view, death->position, &death->dark);
}

void died_lines(const struct died_view *view, bool died[LINES])
{
    for (unsigned i = 0; i < view->lines; i++)
        died[view->deaths[i].bit] = view->deaths[i].died;
}

/* Asks of the line that is named, or of all. */
static int ask_all(struct died_view *view, const char *name, bool all, uint64_t bit)
{
    int status = log_look(&view->log, name);

    status = status ? status : counts_in(&view->counts, &view->log);
    status = status ? status : power_ups_in(&view->seen, &view->counts, name);
    for (unsigned i = 0; i < (all ? LINES : 1) && status == DONE; i++)
        status = ask(view, all ? i : bit);
    return status;
}

static int died(int given, char **words)
{
    static struct died_view view;
    const char *period = NULL, *start = NULL;
    bool json = false;
    const struct option options[] = {{"--period", &period, NULL}, {"--start", &start, NULL}, {"--json", NULL, &json},
                                     {NULL, NULL, NULL}};
    uint64_t bit = 0;

    if (!words_in(&given, words, options, &DIED, 1, 2) || (given > 1 && !line_in(words[1], &bit)) ||
        !moments_in(period, start, &view.moments))
        return USAGE_OR_FILE;
    int status = ask_all(&view, words[0], given == 1, bit);
    if (status == DONE)
        (json ? died_json : died_text)(&view);
    free(view.seen.at);
    free(view.counts.of);
    log_close(&view.log);
    return status;
}

const struct command DIED = {
    .name = "died",
    .usage = "LOG [LINE] [OPTION ..]",
    .brief = "when a line died, by a log",
    .help = "Says when a line died: which sample of a log is the first in which the line's\n"
            "status bit is 1, by its position, from 0 on, and its block. There are four lanes\n"
            "each way, and 24 status bits of them. Without LINE all 24 are told, with how many\n"
            "power-ups are seen before each. It is a look: LOG is not written. LINE is\n\n"
            "  rx1 to rx4, tx1 to tx4      loss of signal\n"
            "  rx1-lock.., tx1-lock..      loss of lock\n"
            "  tx1-fault.., tx1-eq..       fault, equaliser fault\n\n"
            "or a name such as 'Rx3 loss of signal', or the bit's number, 0 to 23: 8 times\n"
            "the status byte, 0 to 2, and the bit.\n\n"
            "  --period SECONDS    from one sample to the next, such as 60 or 0.5\n"
            "  --start TIME        of the first sample: 2026-11-15T08:00, in local time, or\n"
            "                      with Z for UTC or an offset such as +01:00 at its end\n"
            "  --json              for programs: an object with what is told, and with the\n"
            "                      positions before which a power-up is seen\n\n"
            "With --period and --start, which go together, hours are told too, and they are\n"
            "bounds: the line was lit in the sample before, and is dark in this one. Nobody\n"
            "knows how long the station was off before a power-up: the hour of a sample after\n"
            "one is the one told, or later, and a line that is dark in the first sample after\n"
            "one died while the station was off or after. Before the log began a line may\n"
            "have been dark too. A power-up is seen by its block, which was opened though the\n"
            "one before it had room, or has no sample. One that came just when a block was\n"
            "full, with samples after it, is not seen.",
    .examples = "    $ zikhrodan died trial/day.log rx3\n"
                "    Rx3 loss of signal: receive lane 3 lost light at position 827, in block 52; the log has 1440 samples\n"
                "    lit in the sample before; dark in this one\n"
                "    before the log began it may have been dark too\n"
                "    $ zikhrodan died trial/day.log tx1-fault\n"
                "    Tx1 fault: not in any of the 1440 samples\n"
                "    $ TZ=Europe/Oslo zikhrodan died trial/day.log rx3 --period 60 --start 2026-11-15T00:00\n"
                "    Rx3 loss of signal: receive lane 3 lost light at position 827, in block 52; the log has 1440 samples\n"
                "    lit in the sample before, at 2026-11-15T13:46:00+01:00, in UTC 2026-11-15T12:46:00Z;\n"
                "    dark in this one, at 2026-11-15T13:47:00+01:00, in UTC 2026-11-15T12:47:00Z\n"
                "    before the log began it may have been dark too\n"
                "    $ zikhrodan died trial/day.log | head -n 8\n"
                "    trial/day.log: 1440 samples in 90 of 100 blocks\n"
                "    1 of 4 receive lanes lost light\n"
                "    before the log began a lane may have been dark, or at fault, too\n"
                "\n"
                "    line       name                    position      block  power-ups before\n"
                "    rx1        Rx1 loss of signal             -          -                 -\n"
                "    rx2        Rx2 loss of signal             -          -                 -\n"
                "    rx3        Rx3 loss of signal           827         52                 0\n",
    .run = died,
};
