/* report_head.c: the head of the page: what it is of, and the answer. See report.h. */
#include "html.h"
#include "report.h"
#include "say.h"

#include <inttypes.h>
#include <string.h>

enum { NAMED = 4, BILLION = 1000000000 };

/* "Rx3 loss of signal at position 827: lit in the sample before, at ..; dark in this one, at ..", or with so many others that came
 * in it. */
static void put_death(FILE *page, const struct report *report, unsigned bit, unsigned others)
{
    char name[NAME_ROOM];
    uint64_t position = report->bands[bit].first - 1;

    put(page, "<b>%s</b>", line_name(bit, name, sizeof name));
    if (others > 0) {
        put(page, " and ");
        put_count(page, others, "other");
    }
    put(page, " at position %" PRIu64 ": ", position);
    put_between(page, report, bit);
}

/* The lines that are dark in the last sample; gives how many. */
static unsigned dark_at_end(const struct report *report, bool lines[LINES])
{
    unsigned dark = 0;

    for (unsigned bit = 0; bit < LINES; bit++) {
        const struct band *band = &report->bands[bit];
        lines[bit] = band->made > 0 && band->marks[band->made - 1].until == report->counts.samples;
        dark += lines[bit];
    }
    return dark;
}

/* Of few lines each. */
static void put_few(FILE *page, const struct report *report, const unsigned *order, unsigned died)
{
    for (unsigned i = 0; i < died; i++) {
        put_death(page, report, order[i], 0);
        put(page, ". ");
    }
}

/* Of many the first one, and how many came with it. */
static void put_many(FILE *page, const struct report *report, const unsigned *order, unsigned died)
{
    unsigned others = 0;

    while (others + 1 < died && report->bands[order[others + 1]].first == report->bands[order[0]].first)
        others++;
    put(page, "The first %s ", others > 0 ? "were" : "was");
    put_death(page, report, order[0], others);
    put(page, ". ");
}

static void put_deaths(FILE *page, const struct report *report, const unsigned *order, unsigned died)
{
    bool lines[LINES];
    unsigned dark = dark_at_end(report, lines);
    char text[LINES_ROOM];

    put(page, "%s. ", lost_in(report, text));
    if (died <= NAMED)
        put_few(page, report, order, died);
    else
        put_many(page, report, order, died);
    if (dark == 0)
        put(page, "In the last sample none is dark. ");
    else
        put(page, "In the last sample there %s: %s. ", dark == 1 ? "is" : "are", lines_words(lines, text));
    put(page, "Before the log began a lane may have been dark, or at fault, too.");
}

static void put_answer(FILE *page, const struct report *report)
{
    unsigned order[LINES], died = lines_in_order(report, order);
    uint64_t samples = report->counts.samples;

    put(page, "<p class=\"answer%s\">", died > 0 ? " bad" : "");
    if (samples == 0)
        put(page, "There is nothing to tell: the log has no samples.");
    else if (died == 0)
        put(page, "No status bit is 1 in %s: " NOTHING_LOST ".", samples == 1 ? "the one sample" : "any sample");
    else
        put_deaths(page, report, order, died);
    put(page, "</p>\n");
}

static void put_period(FILE *page, uint64_t nanoseconds)
{
    char text[48];
    size_t len = (size_t)snprintf(text, sizeof text, "%" PRIu64 ".%09" PRIu64, nanoseconds / BILLION, nanoseconds % BILLION);

    while (text[len - 1] == '0')
        len--;
    len -= text[len - 1] == '.';
    put(page, "<div><dt>from one sample to the next</dt><dd>%.*s s</dd></div>\n", (int)len, text);
}

static void put_facts(FILE *page, const struct report *report)
{
    uint64_t samples = report->counts.samples;

    put(page, "<dl class=\"facts\">\n<div><dt>samples</dt><dd>%" PRIu64 "</dd></div>\n", samples);
    put(page, "<div><dt>blocks used</dt><dd>%" PRIu64 " of %" PRIu64 "</dd></div>\n", report->log.used, report->log.held.blocks);
    put(page, "<div><dt>power-ups seen</dt><dd>%" PRIu64 "</dd></div>\n", report->power_ups.number);
    if (report->moments.known && samples > 0) {
        put(page, "<div><dt>first sample</dt><dd>");
        put_moment(page, report, 0);
        put(page, "</dd></div>\n<div><dt>last sample</dt><dd>");
        put_moment(page, report, samples - 1);
        put(page, "</dd></div>\n");
    }
    if (report->moments.known)
        put_period(page, report->moments.period);
    put(page, "</dl>\n");
    if (report->log.damaged)
        put(page, "<p class=\"note\">A slot of the log's head is damaged%s.</p>\n",
            report->log.ahead ? ", and a block has more samples on the disk than in the other slot's copy: those on the disk are taken"
                              : ": unless a write was cut off, rows of the last commit may be missing");
}

void put_head(FILE *page, const struct report *report)
{
    put(page, PAGE_FRONT "\n<html lang=\"en-GB\">\n<head>\n<meta charset=\"utf-8\">\n"
              "<meta http-equiv=\"Content-Security-Policy\" content=\"default-src 'none'; style-src 'unsafe-inline'; "
              "base-uri 'none'; form-action 'none'\">\n"
              "<meta name=\"viewport\" content=\"width=device-width, initial-scale=1\">\n<title>The lines of ");
    put_text(page, report->log.name);
    put(page, "</title>\n<style>\n%s</style>\n</head>\n<body>\n<header>\n<p class=\"of\">Report of a log of samples</p>\n"
              "<h1>What happened on the lines of ", REPORT_STYLE);
    put_text(page, report->log.name);
    put(page, "</h1>\n");
    put_answer(page, report);
    put_facts(page, report);
    put(page, "</header>\n<main>\n");
}

void put_foot(FILE *page, const struct report *report)
{
    static const char hours[] = " Hours are counted from the first sample; on the axes they are local time. Nobody knows how long"
                                " the station was off before a power-up: from there on an hour is that, or later (\u2265).";

    put(page, "</main>\n<footer>\n<p>There are four lanes each way, and 24 status bits of them. A bit that is 1 in a sample is drawn"
              " as dark, whether light, signal or lock is lost or there is a fault. Which sample is the first of these the proved"
              " library has answered. Positions of samples are counted from 0. An hour is a bound: it came after the sample before"
              " and not after this one. The log cannot tell what was before its first sample.</p>\n");
    put(page, "<p>A power-up is seen as a block that was begun though the one before it had room, or that is empty. One that came"
              " just after a block was full, and was followed by samples, leaves no trace.%s</p>\n",
        report->moments.known ? hours : "");
    put(page, "</footer>\n</body>\n</html>\n");
}
