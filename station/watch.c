/* watch.c: zikhrodan watch. */
#include "ask.h"
#include "command.h"
#include "feed.h"
#include "words.h"

#include <inttypes.h>
#include <limits.h>
#include <stdio.h>
#include <string.h>

/* What has come with a row for a port, and what is said of it. */
struct told {
    const char *words;
    enum colour colour;
    uint8_t flags[MOST_FLAG_BYTES];
};

/* The names of flags, with commas between them. */
static void print_flags(const struct kind *kind, const uint8_t flags[MOST_FLAG_BYTES])
{
    char name[NAME_ROOM];
    const char *between = "";

    for (unsigned i = 0; i < 8 * kind->flag_bytes; i++) {
        struct place at = place_shown(kind, i);
        if (!bit_at(flags, at))
            continue;
        printf("%s%s", between, flag_name(kind->flag_at(at.byte, at.bit), name, sizeof name));
        between = ", ";
    }
}

/* A line, where there is a flag to tell. */
static void tell_flags(const struct feed *feed, uint64_t port, const struct told *told)
{
    static const uint8_t none[MOST_FLAG_BYTES];

    if (memcmp(told->flags, none, sizeof none) == 0)
        return;
    wipe();
    printf("%s row %" PRIu64 ", %s: %s%s%s", feed->rows.name, feed->rows.row, port_name(port), paint(told->colour), told->words,
           paint(PLAIN));
    print_flags(feed->kind, told->flags);
    putchar('\n');
}

/* A line, where a port's interrupt stood after the row before this one, and another command has read meanwhile. */
static void tell_gone(const struct feed *feed, uint64_t port, const struct port_view *old, const struct port_view *new)
{
    static bool stood[PORTS];
    bool *own = &stood[port - ZIKHRODAN_OPERATOR];

    if (*own && old->count == 0) {
        wipe();
        printf("%s before row %" PRIu64 ", %s: the interrupt is gone\n", feed->rows.name, feed->rows.row, port_name(port));
    }
    *own = new->count > 0;
}

/* A line for a port where bits have come that its count is of, and one where flags have risen without: an eight-channel module's,
 * of a condition that had its onset before. */
static void tell_port(const struct feed *feed, const struct state *before, uint64_t port)
{
    struct port_view old = ask_port(before, port), new = ask_port(&feed->state, port);
    bool comes = old.count == 0 && new.count > 0;
    struct told onset = {comes ? "INTERRUPT, " : new.count > old.count ? "" : "masked, ", comes ? BAD : PLAIN, {0}};
    struct told again = {"lasts, ", PLAIN, {0}};

    for (unsigned i = 0; i < feed->kind->flag_bytes; i++) {
        onset.flags[i] = new.pending[i] & (uint8_t)~old.pending[i];
        again.flags[i] = new.flags[i] & (uint8_t)~old.flags[i] & (uint8_t)~onset.flags[i];
    }
    tell_gone(feed, port, &old, &new);
    tell_flags(feed, port, &onset);
    tell_flags(feed, port, &again);
}

static int tell(const struct feed *feed, const struct state *before)
{
    tell_port(feed, before, ZIKHRODAN_OPERATOR);
    tell_port(feed, before, ZIKHRODAN_RECORDER);
    return finished(DONE);
}

static int watch(int given, char **words)
{
    static struct feed feed = {.log = {.fd = -1}, .tell = tell};
    static const struct option options[] = {{.name = "--raw", .flag = &feed.raw}, {0}};

    if (!words_in(&given, words, options, &WATCH, 1, INT_MAX))
        return USAGE_OR_FILE;
    feed.name = words[0];
    return feed_all(&feed, words + 1, given - 1);
}

const struct command WATCH = {
    .name = "watch",
    .usage = "[--raw] STATE [ROWS.. | -]",
    .brief = "feeds samples, and tells what rises",
    .help = "Feeds rows as `sample` does, and prints a line for a port whenever flags rise\n"
            "for it that were not raised, with the row's number: what an alert would have\n"
            "said. INTERRUPT stands where the port's interrupt comes with it, 'masked' where\n"
            "the port's masks hold all of them back. A flag that is raised and not yet read\n"
            "rises no second time. Where somebody has read meanwhile, and a port's interrupt\n"
            "no longer stands, a line before the next row says that it is gone.\n\n"
            "Of an eight-channel module it tells what becomes pending, which is at the onset\n"
            "of a condition. 'lasts' stands where a flag that was read rises again, since\n"
            "its condition still stands: that is no onset, and no interrupt comes of it.\n\n"
            RAW_HELP,
    .examples = "    $ zikhrodan watch trial/module.state trial/day.rows\n"
                "    trial/day.rows row 828, operator: INTERRUPT, "
                "Rx3 loss of signal, Rx power 3 low alarm, Rx power 3 low warning\n"
                "    trial/day.rows row 828, recorder: INTERRUPT, "
                "Rx3 loss of signal, Rx power 3 low alarm, Rx power 3 low warning\n"
                "    1440 rows taken\n"
                "    operator: 3 flags let through, interrupt\n"
                "    recorder: 3 flags let through, interrupt\n"
                "    $ zikhrodan demo --eight --keep trial | tail -n 2\n"
                "    Kept in trial: eight.rows, the day's rows, and eight.state, an eight-channel\n"
                "    module that is reset and has been fed nothing yet.\n"
                "    $ head -c 7840 trial/eight.rows | zikhrodan watch trial/eight.state -\n"
                "    standard input row 553, operator: INTERRUPT, "
                "Rx5 LOS, Rx5 CDR LOL, Rx5 Power Low Warning, Rx5 Power Low Alarm\n"
                "    standard input row 553, recorder: INTERRUPT, "
                "Rx5 LOS, Rx5 CDR LOL, Rx5 Power Low Warning, Rx5 Power Low Alarm\n"
                "    560 rows taken\n"
                "    operator (eight channels): 4 pending flags let through, interrupt\n"
                "    recorder (eight channels): 4 pending flags let through, interrupt\n"
                "    $ zikhrodan read trial/eight.state operator 3 14\n"
                "        3 003  10 00 10 00 00 00 00 10 10 00 00 00 00 00        |..............|\n"
                "    operator (eight channels): 0 pending flags let through, no interrupt\n"
                "    $ tail -c +7841 trial/eight.rows | head -c 140 | zikhrodan watch trial/eight.state -\n"
                "    standard input row 1, operator: lasts, "
                "Rx5 LOS, Rx5 CDR LOL, Rx5 Power Low Warning, Rx5 Power Low Alarm\n"
                "    10 rows taken\n"
                "    operator (eight channels): 0 pending flags let through, no interrupt\n"
                "    recorder (eight channels): 4 pending flags let through, interrupt\n",
    .run = watch,
};
