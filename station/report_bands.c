/* report_bands.c: the picture of the 24 lines: a band for each, over the samples. See report.h. */
#include "html.h"
#include "report.h"
#include "say.h"

#include <inttypes.h>
#include <string.h>

enum { TOP = 20, HEADING = 22, PITCH = 18, BAND = 12, LOW = 7, KIND = HEADING + LANES * PITCH + 4,
       BOTTOM = TOP + LINE_KINDS * KIND };

/* Where a line's band begins. */
static unsigned top_of(unsigned bit)
{
    return TOP + bit / LANES * KIND + HEADING + bit % LANES * PITCH;
}

/* Marks of one sort, each a rectangle, the next one's place counted from the one's before. */
static void put_marks(FILE *page, const struct band *band, bool several, unsigned top, unsigned height)
{
    uint64_t before = 0;
    size_t drawn = 0;

    for (size_t i = 0; i < band->made; i++) {
        const struct mark *mark = &band->marks[i];
        uint64_t length = mark->until - mark->from;
        if (mark->several != several)
            continue;
        if (drawn++ == 0)
            put(page, "<path class=\"dark\" d=\"M%" PRIu64 " %u", mark->from, top);
        else
            put(page, "m%" PRIu64 " 0", mark->from - before);
        put(page, "h%" PRIu64 "v%uh-%" PRIu64 "z", length, height, length);
        before = mark->from;
    }
    if (drawn > 0)
        put(page, "\"/>\n");
}

static bool any_several(const struct report *report)
{
    bool any = false;

    for (unsigned bit = 0; bit < LINES; bit++)
        for (size_t i = 0; i < report->bands[bit].made && !any; i++)
            any = report->bands[bit].marks[i].several;
    return any;
}

static void put_stretched(FILE *page, const struct report *report)
{
    put(page, "<svg class=\"wide\" width=\"100%%\" height=\"%u\" viewBox=\"0 0 %" PRIu64 " %u\" preserveAspectRatio=\"none\">\n"
              "<path class=\"lane\" d=\"", BOTTOM, report->counts.samples, BOTTOM);
    for (unsigned bit = 0; bit < LINES; bit++)
        put(page, "M0 %uh%" PRIu64 "v%uH0z", top_of(bit), report->counts.samples, BAND);
    put(page, "\"/>\n");
    put_grid(page, report, TOP - 6, BOTTOM + 4);
    for (unsigned bit = 0; bit < LINES; bit++) {
        put_marks(page, &report->bands[bit], true, top_of(bit) + BAND - LOW, LOW);
        put_marks(page, &report->bands[bit], false, top_of(bit), BAND);
    }
    put_power_ups(page, report, TOP - 6, BOTTOM);
    put(page, "</svg>\n");
}

/* A line's label and, where it died, the moment's mark and position. */
static void put_line(FILE *page, const struct report *report, unsigned bit)
{
    const struct band *band = &report->bands[bit];
    unsigned top = top_of(bit), text = top + BAND - 2;
    char name[NAME_ROOM];

    line_name(bit, name, sizeof name);
    put(page, "<text x=\"-8\" y=\"%u\" class=\"end%s\">%.3s</text>\n", text, band->first ? " died" : "", name);
    if (band->first == 0)
        return;
    put(page, "<svg x=\"%.4f%%\" y=\"%u\" class=\"wide\"><path class=\"moment\" d=\"M0 1l-5-7.5h10z\">"
              "<title>%s at position %" PRIu64 "</title></path></svg>\n", across(report, band->first - 1), top, name,
        band->first - 1);
    put(page, "<text x=\"100%%\" dx=\"8\" y=\"%u\" class=\"at died\">%" PRIu64 "</text>\n", text, band->first - 1);
}

/* "Rx loss of signal": a line's name without its number. */
static void put_kind(FILE *page, unsigned kind)
{
    char name[NAME_ROOM];

    line_name(kind * LANES, name, sizeof name);
    put(page, "<text x=\"0\" y=\"%u\" class=\"kind\">%.2s%s</text>\n", TOP + kind * KIND + HEADING - 8, name, name + 3);
}

static void put_words(FILE *page, const struct report *report)
{
    const struct power_ups *seen = &report->power_ups;
    char name[NAME_ROOM];
    unsigned order[LINES];

    put(page, "<title id=\"bands-title\">The 24 status bits over ");
    put_count(page, report->counts.samples, "sample");
    put(page, "</title>\n<desc id=\"bands-desc\">");
    if (lines_in_order(report, order) == 0)
        put(page, "No line has a dark sample.");
    for (unsigned bit = 0; bit < LINES; bit++)
        if (report->bands[bit].first > 0) {
            uint64_t stretches = report->bands[bit].stretches;
            put(page, "%s: %" PRIu64 " dark stretch%s, the first from position %" PRIu64 ". ", line_name(bit, name, sizeof name),
                stretches, stretches == 1 ? "" : "es", report->bands[bit].first - 1);
        }
    if (seen->number == 0)
        put(page, " No power-up is seen.");
    else
        put(page, " %" PRIu64 " power-up%s seen,%s just before position %" PRIu64 ".", seen->number,
            seen->number == 1 ? " is" : "s are", seen->number == 1 ? "" : " the last", seen->at[seen->number - 1]);
    put(page, "</desc>\n");
}

static void put_key(FILE *page, const struct report *report)
{
    put(page, "<ul class=\"key\">\n");
    put_sign(page, "<path class=\"lane\" d=\"M0 1h22v12H0z\"/>", "the line's bit is 0");
    put_sign(page, "<path class=\"dark\" d=\"M1 2h20v10H1z\"/>", "dark: it is 1");
    if (any_several(report))
        put_sign(page, "<path class=\"lane\" d=\"M0 1h22v12H0z\"/><path class=\"dark\" d=\"M1 6h20v6H1z\"/>",
                 "dark stretches too short and too close to part");
    put_sign(page, "<path class=\"moment\" d=\"M11 11l-5-7.5h10z\"/>", "the first dark sample");
    put_power_up_sign(page, report);
    put(page, "</ul>\n");
}

void put_bands(FILE *page, const struct report *report)
{
    unsigned order[LINES];

    put(page, "<section class=\"bands\">\n<h2>The 24 status bits</h2>\n");
    put_key(page, report);
    put(page, "<div class=\"plot\"><svg class=\"chart\" width=\"100%%\" height=\"%u\" role=\"img\" "
              "aria-labelledby=\"bands-title bands-desc\">\n", BOTTOM + axis_height(report));
    put_words(page, report);
    put_stretched(page, report);
    if (lines_in_order(report, order) > 0)
        put(page, "<text x=\"100%%\" dx=\"8\" y=\"%u\" class=\"at\">first at position</text>\n", TOP - 2);
    for (unsigned kind = 0; kind < LINE_KINDS; kind++)
        put_kind(page, kind);
    for (unsigned bit = 0; bit < LINES; bit++)
        put_line(page, report, bit);
    put_axis(page, report, BOTTOM);
    put(page, "</svg></div>\n</section>\n");
}
