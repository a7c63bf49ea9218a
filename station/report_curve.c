/* report_curve.c: a light level over the samples. See report.h. */
#include "html.h"
#include "report.h"

#include <inttypes.h>

/* Along a column, forth or back, and then to the height of the next one. */
static void put_step(FILE *page, int along, unsigned *height, unsigned next)
{
    put(page, "h%dv%d", along, (int)next - (int)*height);
    *height = next;
}

/* A run of columns that have something, from one on, as steps: a line where each has one number, else the area from the least to
 * the most. Gives the column after it. */
static size_t put_run(FILE *page, const struct level *level, const struct scale *scale, size_t from, bool area)
{
    const struct column *columns = level->columns;
    unsigned height = scale_height(scale, columns[from].most);
    size_t at = from;

    put(page, "M%zu %u", from, height);
    while (++at < COLUMNS && columns[at].measured)
        put_step(page, 1, &height, scale_height(scale, columns[at].most));
    put(page, "h1");
    for (size_t back = at; area && back-- > from;)
        put(page, "V%uh-1", scale_height(scale, columns[back].least));
    if (area)
        put(page, "z");
    return at;
}

void put_curve(FILE *page, const struct report *report, const struct level *level, const struct scale *scale)
{
    bool area = report->width > 1;

    put(page, "<path class=\"%s\" transform=\"scale(%" PRIu64 " 1)\" d=\"", area ? "area" : "curve", report->width);
    for (size_t at = 0; at < COLUMNS;)
        at = level->columns[at].measured ? put_run(page, level, scale, at, area) : at + 1;
    put(page, "\"/>\n");
}

void put_zeros(FILE *page, const struct report *report, const struct level *level)
{
    put(page, "<path class=\"dark\" transform=\"scale(%" PRIu64 " 1)\" d=\"", report->width);
    for (size_t at = 0; at < COLUMNS; at++) {
        size_t from = at;
        while (at < COLUMNS && level->columns[at].dark)
            at++;
        if (at > from)
            put(page, "M%zu %uH%zuv%uH%zuz", from, ZERO - ZERO_HALF + TENTHS, at, 2 * ZERO_HALF - 2 * TENTHS, from);
    }
    put(page, "\"/>\n");
}
