/* report_tables.c: the numbers behind the pictures. See report.h. */
#include "logcalls.h"
#include "html.h"
#include "report.h"

#include <inttypes.h>
#include <string.h>

/* "2026-11-15T13:47:00+01:00" as "2026-11-15 13:47:00 +01:00". */
static void put_apart(FILE *page, const char *moment, const char *zone)
{
    enum { DAY = 10, SECONDS = 19 };
    size_t clock = SECONDS + strcspn(moment + SECONDS, "+-Z");

    put(page, "%.*s %.*s %s", DAY, moment, (int)clock - DAY - 1, moment + DAY + 1, zone ? zone : moment + clock);
}

void put_moment(FILE *page, const struct report *report, uint64_t position)
{
    char local[MOMENT_ROOM], utc[MOMENT_ROOM];

    if (!moment_of(&report->moments, position, local, utc))
        return; /* it has been seen that the last sample has one, and so have those before it */
    put(page, "<time datetime=\"%s\">", local);
    put_apart(page, local, NULL);
    put(page, "</time>%s <span class=\"utc\">(", or_later(report, position) ? " or\u00A0later" : "");
    put_apart(page, utc, "UTC");
    put(page, ")</span>");
}

void put_between(FILE *page, const struct report *report, unsigned bit)
{
    uint64_t position = report->bands[bit].first - 1;
    struct lane lane = lane_of(bit);

    if (position > 0) {
        put(page, "%s in the sample before", lane.before);
        if (report->moments.known) {
            put(page, ", at ");
            put_moment(page, report, position - 1);
        }
        put(page, "; %s in this one", lane.after);
    } else {
        put(page, "%s in the log\u2019s first sample", lane.after);
    }
    if (report->moments.known) {
        put(page, ", at ");
        put_moment(page, report, position);
    }
    if (position == 0)
        put(page, ", and maybe before the log began");
    if (after_power_up(report, position))
        put(page, "; while the station was off or after");
}

/* A line that died, and all that is known of the moment. */
static void put_died(FILE *page, const struct report *report, unsigned bit)
{
    const struct band *band = &report->bands[bit];
    uint64_t position = band->first - 1, last;
    char name[NAME_ROOM];

    put(page, "<tr><th scope=\"row\">%s</th><td>%" PRIu64 "</td><td>%" PRIu64 "</td>", line_name(bit, name, sizeof name),
        position, log_number(&report->log, place_of(&report->counts, position)));
    put(page, "<td class=\"when\">");
    put_between(page, report, bit);
    put(page, "</td><td>%" PRIu64 "</td><td>%" PRIu64 "</td><td>%" PRIu64 "</td></tr>\n",
        power_ups_before(&report->power_ups, position, &last), band->stretches, band->dark);
}

static void put_all_died(FILE *page, const struct report *report)
{
    unsigned order[LINES], died = lines_in_order(report, order);

    put(page, "<section class=\"died\">\n<h2>The first dark sample of each line</h2>\n");
    if (died > 0) {
        put(page, "<div class=\"scroll\"><table class=\"deaths\">\n<thead><tr>");
        put_columns(page, (const char *const[]){"line", "position", "block", NULL});
        put(page, "<th scope=\"col\" class=\"when\">%s</th>", report->moments.known ? "when, local time and UTC" : "when");
        put_columns(page, (const char *const[]){"power-ups before", "dark stretches", "dark samples", NULL});
        put(page, "</tr></thead>\n<tbody>\n");
        for (unsigned i = 0; i < died; i++)
            put_died(page, report, order[i]);
        put(page, "</tbody></table></div>\n");
    }
    if (died < LINES)
        put(page, died ? "<p>The other %u status bits are 1 in no sample.</p>\n"
                       : "<p>None of the %u status bits is 1 in any sample.</p>\n", LINES - died);
    put(page, "</section>\n");
}

static void put_stretch(FILE *page, const struct report *report, const struct stretch *stretch)
{
    char name[NAME_ROOM];

    put(page, "<tr><th scope=\"row\">%s</th><td>%" PRIu64 "</td><td>%" PRIu64 "</td><td>%" PRIu64 "</td>",
        line_name(stretch->bit, name, sizeof name), stretch->from, stretch->last, stretch->last - stretch->from + 1);
    if (report->moments.known) {
        put(page, "<td class=\"when\">");
        put_moment(page, report, stretch->from);
        put(page, "</td><td class=\"when\">");
        put_moment(page, report, stretch->last);
        put(page, "</td>");
    }
    put(page, "</tr>\n");
}

static void put_left_out(FILE *page, uint64_t listed, uint64_t all, const char *who)
{
    put(page, " The first %" PRIu64 " of %" PRIu64 " are listed; the other %" PRIu64 " are not: <code>zikhrodan %s.", listed, all,
        all - listed, who);
}

static void put_stretches(FILE *page, const struct report *report)
{
    uint64_t listed = report->stretch_count < LISTED ? report->stretch_count : LISTED;

    put(page, "<section class=\"stretches\">\n<h2>Dark stretches</h2>\n<p>In the order in which they begin.");
    if (listed < report->stretch_count)
        put_left_out(page, listed, report->stretch_count, "log show --csv</code> has every sample");
    put(page, "</p>\n<div class=\"scroll\"><table class=\"runs\">\n<thead><tr>");
    put_columns(page, (const char *const[]){"line", "from position", "to position", "samples", NULL});
    if (report->moments.known)
        put(page, "<th scope=\"col\" class=\"when\">from, local time and UTC</th><th scope=\"col\" class=\"when\">to</th>");
    put(page, "</tr></thead>\n<tbody>\n");
    for (uint64_t i = 0; i < listed; i++)
        put_stretch(page, report, &report->stretches[i]);
    put(page, "</tbody></table></div>\n</section>\n");
}

void put_tables(FILE *page, const struct report *report)
{
    put_all_died(page, report);
    if (report->stretch_count > 0)
        put_stretches(page, report);
}

static void put_power_up(FILE *page, const struct report *report, uint64_t position, uint64_t place)
{
    put(page, "<tr><th scope=\"row\">%" PRIu64 "</th><td>%" PRIu64 "</td>", position, log_number(&report->log, place));
    if (report->moments.known) {
        put(page, "<td class=\"when\">");
        if (position < report->counts.samples)
            put_moment(page, report, position);
        else
            put(page, "there is none yet");
        put(page, "</td>");
    }
    put(page, "</tr>\n");
}

void put_listed_power_ups(FILE *page, const struct report *report)
{
    const struct power_ups *seen = &report->power_ups;
    uint64_t listed = seen->number < LISTED ? seen->number : LISTED;

    put(page, "<section class=\"power-ups\">\n<h2>Power-ups</h2>\n<p>Each one came just before its position, and opened its"
              " block.");
    if (listed < seen->number)
        put_left_out(page, listed, seen->number, "died --json</code> has the positions of all");
    put(page, "</p>\n<div class=\"scroll\"><table class=\"ups\">\n<thead><tr>");
    put_columns(page, (const char *const[]){"before position", "block", NULL});
    if (report->moments.known)
        put(page, "<th scope=\"col\" class=\"when\">first sample after it, local time and UTC</th>");
    put(page, "</tr></thead>\n<tbody>\n");
    for (uint64_t i = 0; i < listed; i++)
        put_power_up(page, report, seen->at[i], seen->place[i]);
    put(page, "</tbody></table></div>\n</section>\n");
}
