/* report_axis.c: the axis below a picture: positions and, where they are known, hours; and the lines that go up from it. See
 * report.h. */
#include "html.h"
#include "report.h"

#include <inttypes.h>
#include <string.h>
#include <time.h>

/* Of more than CROWD power-ups each is drawn thinner. */
enum { TICKS = 8, CROWD = 40, POSITIONS_HIGH = 22, HOURS_HIGH = 46, LABEL_ROOM = 64 };
enum { BILLION = 1000000000, MINUTE = 60, HOUR = 3600, DAY = 86400 };

double across(const struct report *report, uint64_t position)
{
    return report->counts.samples ? 100.0 * (double)position / (double)report->counts.samples : 0;
}

unsigned axis_height(const struct report *report)
{
    return report->moments.known ? POSITIONS_HIGH + HOURS_HIGH : POSITIONS_HIGH;
}

/* 1, 2 or 5 and zeros: the least that makes no more than TICKS steps. */
static uint64_t position_step(uint64_t samples)
{
    uint64_t step = 1;

    for (unsigned i = 0; samples / step > TICKS; i++)
        step = i % 3 == 1 ? step / 2 * 5 : 2 * step;
    return step;
}

/* A round number of seconds, minutes, hours or days: the least that makes no more than TICKS steps. */
static int64_t hour_step(double seconds)
{
    static const int64_t steps[] = {1, 2, 5, 10, 15, 30, MINUTE, 2 * MINUTE, 5 * MINUTE, 10 * MINUTE, 15 * MINUTE, 30 * MINUTE,
                                    HOUR, 2 * HOUR, 3 * HOUR, 6 * HOUR, 12 * HOUR, DAY, 2 * DAY, 7 * DAY, 14 * DAY, 28 * DAY};
    size_t last = sizeof steps / sizeof steps[0] - 1, i = 0;

    while (i < last && seconds / (double)steps[i] > TICKS)
        i++;
    int64_t step = steps[i];
    while (seconds / (double)step > TICKS)
        step *= 2;
    return step;
}

/* On a narrow page every other label is left out. */
static const char *label_class(unsigned number)
{
    return number % 2 ? " class=\"odd\"" : "";
}

static void put_positions(FILE *page, const struct report *report, unsigned top)
{
    uint64_t samples = report->counts.samples, step = position_step(samples);
    unsigned number = 0;

    put(page, "<g class=\"axis\"><text x=\"-10\" y=\"%u\" class=\"end\">position</text>\n", top + 16);
    for (uint64_t at = 0; at < samples; at += step)
        put(page, "<text x=\"%.3f%%\" y=\"%u\"%s>%" PRIu64 "</text>\n", across(report, at), top + 16, label_class(number++), at);
    put(page, "</g>\n");
}

static struct tm local_at(time_t instant)
{
    struct tm tm = {0};

    localtime_r(&instant, &tm);
    return tm;
}

/* A label of the hours, and below it the day, or the year, where that is another than at the label before. */
static void put_hour(FILE *page, const struct report *report, time_t instant, int64_t step, unsigned top, unsigned number)
{
    static char before[LABEL_ROOM];
    char label[LABEL_ROOM], below[LABEL_ROOM];
    __int128 passed = (__int128)(instant - report->moments.start) * BILLION;
    uint64_t position = (uint64_t)(passed / report->moments.period); /* of the last sample until then */
    double x = 100.0 * (double)passed / (double)report->moments.period / (double)report->counts.samples;
    struct tm tm = local_at(instant);

    strftime(label, sizeof label, step >= DAY ? "%e %b" : step % MINUTE ? "%H:%M:%S" : "%H:%M", &tm);
    strftime(below, sizeof below, step >= DAY ? "%Y" : "%e %b<tspan class=\"year\"> %Y</tspan>", &tm);
    const char *sign = or_later(report, position) ? "\u2265\u202F" : "";
    put(page, "<line x1=\"%.3f%%\" x2=\"%.3f%%\" y1=\"%u\" y2=\"%u\"/>", x, x, top, top + 4);
    put(page, "<text x=\"%.3f%%\" y=\"%u\"%s>%s%s</text>\n", x, top + 16, label_class(number), sign, label);
    if (number == 0 || strcmp(before, below) != 0)
        put(page, "<text x=\"%.3f%%\" y=\"%u\">%s</text>\n", x, top + 31, below);
    snprintf(before, sizeof before, "%s", below);
}

/* At round hours of local time, but for those that the clocks skip; where there is none, at the first sample. */
static void put_hours(FILE *page, const struct report *report, unsigned top)
{
    double seconds = (double)report->counts.samples * ((double)report->moments.period / BILLION);
    unsigned number = 0;
    time_t instant = report->moments.start;
    int64_t step = hour_step(seconds), shown = instant + local_at(instant).tm_gmtoff;

    put(page, "<g class=\"axis\"><text x=\"-31\" y=\"%u\" class=\"end\">local</text>\n", top + 16);
    for (shown += (step - shown % step) % step; ; shown += step) {
        time_t next = shown - local_at(instant).tm_gmtoff;
        next = shown - local_at(next).tm_gmtoff;
        if (difftime(next, report->moments.start) >= seconds)
            break;
        if (next < instant || (next == instant && number > 0))
            continue;
        put_hour(page, report, next, step, top, number++);
        instant = next;
    }
    if (number == 0)
        put_hour(page, report, report->moments.start, 1, top, 0);
    put(page, "</g>\n");
}

void put_axis(FILE *page, const struct report *report, unsigned top)
{
    put_positions(page, report, top);
    if (report->moments.known)
        put_hours(page, report, top + POSITIONS_HIGH);
}

void put_grid(FILE *page, const struct report *report, unsigned top, unsigned bottom)
{
    uint64_t samples = report->counts.samples, step = position_step(samples);

    put(page, "<path class=\"grid\" d=\"");
    for (uint64_t at = 0; at < samples; at += step)
        put(page, "M%" PRIu64 " %uV%u", at, top, bottom);
    put(page, "\"/>\n");
}

void put_power_ups(FILE *page, const struct report *report, unsigned top, unsigned bottom)
{
    const struct power_ups *seen = &report->power_ups;
    uint64_t drawn = 0;

    if (seen->number == 0)
        return;
    put(page, "<path class=\"power%s\" d=\"", seen->number > CROWD ? " crowd" : "");
    for (uint64_t i = 0; i < seen->number; i++)
        if (i == 0 || seen->at[i] - drawn >= report->part) {
            drawn = seen->at[i];
            put(page, "M%" PRIu64 " %uV%u", drawn, top, bottom);
        }
    put(page, "\"/>\n");
}

void put_power_up_sign(FILE *page, const struct report *report)
{
    if (report->power_ups.number > CROWD)
        put_sign(page, "<path class=\"power crowd\" d=\"M11 0V14\"/>", "the station was powered up");
    else if (report->power_ups.number > 0)
        put_sign(page, "<path class=\"power\" d=\"M11 0V14\"/>", "the station was powered up");
}
