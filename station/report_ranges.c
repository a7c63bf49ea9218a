/* report_ranges.c: the table of the light levels: the least, the most, and the limits. See report.h. */
#include "html.h"
#include "report.h"

const unsigned LIMIT_ORDER[LIMITS] = {ZIKHRODAN_HIGH_ALARM, ZIKHRODAN_HIGH_WARNING, ZIKHRODAN_LOW_WARNING, ZIKHRODAN_LOW_ALARM};

double limit_of(const struct report *report, unsigned quantity, unsigned which)
{
    return zikhrodan_limit(report->module.bytes, report->module.len, quantity, which);
}

static void put_range(FILE *page, const struct report *report, const struct column *whole, unsigned quantity, unsigned monitor)
{
    char name[NAME_ROOM];

    put(page, "<tr><th scope=\"row\">%s</th>", monitor_name(monitor, name, sizeof name));
    if (whole->measured)
        put(page, "<td>%.4f</td><td>%.4f</td>", whole->least, whole->most);
    else
        put(page, "<td>-</td><td>-</td>");
    for (unsigned i = 0; i < LIMITS; i++)
        put(page, "<td>%.4f</td>", limit_of(report, quantity, LIMIT_ORDER[i]));
    put(page, "</tr>\n");
}

void put_ranges(FILE *page, const struct report *report)
{
    enum { OF_A_KIND = LEVELS / 2 };

    put(page, "<h3>Light levels and their limits, in mW</h3>\n<div class=\"scroll\"><table class=\"ranges\">\n<thead><tr>");
    put_columns(page, (const char *const[]){"level", "least", "most", LIMIT_NAMES[LIMIT_ORDER[0]], LIMIT_NAMES[LIMIT_ORDER[1]],
                                            LIMIT_NAMES[LIMIT_ORDER[2]], LIMIT_NAMES[LIMIT_ORDER[3]], NULL});
    put(page, "</tr></thead>\n<tbody>\n");
    for (unsigned i = 0; i < OF_A_KIND; i++)
        put_range(page, report, &report->levels[i].whole, ZIKHRODAN_OF_RX_POWER, ZIKHRODAN_RX_POWER_1 + i);
    for (unsigned i = 0; i < OF_A_KIND; i++)
        put_range(page, report, &report->levels[OF_A_KIND + i].whole, ZIKHRODAN_OF_TX_POWER, ZIKHRODAN_TX_POWER_1 + i);
    put(page, "</tbody></table></div>\n");
}
