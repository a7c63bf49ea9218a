/* report_levels.c: the pictures of the light levels, received and sent, beside their limits. See report.h. */
#include "html.h"
#include "report.h"

#include <inttypes.h>

enum { TITLE = 22, PLOT = SCALE_HIGH / TENTHS, BELOW = 8, OF_A_KIND = LEVELS / 2, LETTER = 9 };

/* A picture of one level. */
struct panel {
    const struct report *report;
    const struct level *level;
    unsigned quantity, monitor, top; /* the top of its plot */
    struct scale scale;
};

/* All four of a kind have the same scale. */
static struct scale scale_of(const struct report *report, unsigned quantity, const struct level *levels)
{
    struct scale scale = {0, 0};

    for (unsigned which = 0; which < LIMITS; which++)
        scale_include(&scale, limit_of(report, quantity, which));
    for (unsigned i = 0; i < OF_A_KIND; i++) {
        scale_include(&scale, levels[i].faintest);
        scale_include(&scale, levels[i].whole.most);
    }
    scale.foot -= scale.foot == scale.top;
    return scale;
}

static void put_limits(FILE *page, const struct panel *panel)
{
    static const char *const classes[LIMITS] = {"alarm", "alarm", "warning", "warning"};

    for (unsigned which = 0; which < LIMITS; which++)
        put(page, "<path class=\"%s\" d=\"M0 %uH%" PRIu64 "\"/>\n", classes[which],
            scale_height(&panel->scale, limit_of(panel->report, panel->quantity, which)), panel->report->counts.samples);
}

/* What is stretched to the page's width. */
static void put_stretched(FILE *page, const struct panel *panel)
{
    uint64_t samples = panel->report->counts.samples;

    put(page, "<svg class=\"wide\" y=\"%u\" width=\"100%%\" height=\"%u\" viewBox=\"0 0 %" PRIu64 " %u\" "
              "preserveAspectRatio=\"none\">\n", panel->top, PLOT, samples, SCALE_HIGH);
    put(page, "<path class=\"lane\" d=\"M0 0h%" PRIu64 "v%uH0zM0 %uh%" PRIu64 "v%uH0z\"/>\n<path class=\"decade\" d=\"", samples,
        SCALE_FOOT + 2 * TENTHS, ZERO - ZERO_HALF, samples, 2 * ZERO_HALF);
    for (int at = panel->scale.foot; at <= panel->scale.top; at++)
        put(page, "M0 %uH%" PRIu64, scale_decade(&panel->scale, at), samples);
    put(page, "\"/>\n");
    put_grid(page, panel->report, 0, SCALE_HIGH);
    put_power_ups(page, panel->report, 0, SCALE_HIGH);
    put_limits(page, panel);
    put_curve(page, panel->report, panel->level, &panel->scale);
    put_zeros(page, panel->report, panel->level);
    put(page, "</svg>\n");
}

/* A limit's words, and the height of their foot below the plot's top. */
struct label {
    unsigned which;
    int height;
};

/* The words of an upper line stand a little above it, those of a lower line below it; then they are moved apart, and into the
 * plot, from its top to its foot and back. */
static void place_labels(const struct panel *panel, struct label labels[LIMITS])
{
    for (unsigned i = 0; i < LIMITS; i++) {
        int line = (int)(scale_height(&panel->scale, limit_of(panel->report, panel->quantity, LIMIT_ORDER[i])) / TENTHS);
        struct label label = {LIMIT_ORDER[i], i % 2 ? line + LETTER : line - 1};
        unsigned at = i;
        for (; at > 0 && labels[at - 1].height > label.height; at--)
            labels[at] = labels[at - 1];
        labels[at] = label;
    }
    for (int i = 0, least = LETTER - 2; i < LIMITS; least = labels[i++].height + LETTER + 1)
        labels[i].height = labels[i].height < least ? least : labels[i].height;
    for (int i = LIMITS - 1, most = PLOT; i >= 0; most = labels[i--].height - LETTER - 1)
        labels[i].height = labels[i].height > most ? most : labels[i].height;
}

static void put_limit_words(FILE *page, const struct panel *panel)
{
    struct label labels[LIMITS];

    place_labels(panel, labels);
    for (unsigned i = 0; i < LIMITS; i++)
        put(page, "<text x=\"100%%\" y=\"%u\" class=\"limit\">%s %.4f</text>\n", panel->top + (unsigned)labels[i].height,
            LIMIT_NAMES[labels[i].which], limit_of(panel->report, panel->quantity, labels[i].which));
}

/* The numbers beside the scale. */
static void put_decades(FILE *page, const struct panel *panel)
{
    double value = 1;

    for (int i = 0; i > panel->scale.foot; i--)
        value /= 10;
    for (int at = panel->scale.foot; at <= panel->scale.top; at++, value *= 10)
        put(page, "<text x=\"-8\" y=\"%u\" class=\"end\">%g</text>\n",
            panel->top + scale_decade(&panel->scale, at) / TENTHS + 4, value);
    put(page, "<text x=\"-8\" y=\"%u\" class=\"end\">0</text>\n", panel->top + ZERO / TENTHS + 4);
}

static void put_panel(FILE *page, const struct panel *panel)
{
    const struct column *whole = &panel->level->whole;
    char name[NAME_ROOM];

    put(page, "<text x=\"0\" y=\"%u\" class=\"kind\">%s <tspan class=\"range\" dx=\"6\">", panel->top - 7,
        monitor_name(panel->monitor, name, sizeof name));
    if (!whole->measured) {
        put(page, "nothing is measured</tspan></text>\n");
        return;
    }
    put(page, "%.4f to %.4f mW</tspan></text>\n", whole->least, whole->most);
    put_stretched(page, panel);
    put_limit_words(page, panel);
    put_decades(page, panel);
}

static void put_words(FILE *page, const struct level *levels, const char *id, unsigned monitor)
{
    char name[NAME_ROOM];

    put(page, "<title id=\"%s-title\">%s to 4 over the samples, in mW, on a scale of decades</title>\n<desc id=\"%s-desc\">", id,
        monitor_name(monitor, name, sizeof name), id);
    for (unsigned i = 0; i < OF_A_KIND; i++)
        if (levels[i].whole.measured)
            put(page, "%s: from %.4f to %.4f mW. ", monitor_name(monitor + i, name, sizeof name), levels[i].whole.least,
                levels[i].whole.most);
        else
            put(page, "%s: nothing is measured. ", monitor_name(monitor + i, name, sizeof name));
    put(page, "</desc>\n");
}

/* With its title; where nothing is measured, of the title alone. */
static unsigned height_of(const struct level *level)
{
    return level->whole.measured ? TITLE + PLOT + BELOW : TITLE;
}

/* The four of a kind, one below the other, and one axis. */
static void put_kind(FILE *page, const struct report *report, const struct level *levels, unsigned quantity, unsigned monitor)
{
    const char *id = quantity == ZIKHRODAN_OF_RX_POWER ? "rx" : "tx";
    struct panel panel = {report, levels, quantity, monitor, TITLE, scale_of(report, quantity, levels)};
    unsigned height = 0;

    for (unsigned i = 0; i < OF_A_KIND; i++)
        height += height_of(&levels[i]);
    put(page, "<div class=\"figure\">\n<h3>Light %s, in mW</h3>\n", quantity == ZIKHRODAN_OF_RX_POWER ? "received" : "sent");
    put(page, "<div class=\"plot\"><svg class=\"chart\" width=\"100%%\" height=\"%u\" role=\"img\" "
              "aria-labelledby=\"%s-title %s-desc\">\n", height + axis_height(report), id, id);
    put_words(page, levels, id, monitor);
    for (unsigned i = 0; i < OF_A_KIND; i++, panel.top += height_of(panel.level++), panel.monitor++)
        put_panel(page, &panel);
    if (height > OF_A_KIND * TITLE)
        put_axis(page, report, height - BELOW / 2);
    put(page, "</svg></div>\n</div>\n");
}

static void put_key(FILE *page, const struct report *report)
{
    put(page, "<ul class=\"key\">\n");
    if (report->width > 1)
        put_sign(page, "<path class=\"area\" d=\"M1 3h20v8H1z\"/>", "from the least to the most");
    else
        put_sign(page, "<path class=\"curve\" d=\"M1 9h7V5h6v3h7\"/>", "the light");
    put_sign(page, "<path class=\"dark\" d=\"M1 4h20v6H1z\"/>", "0 mW");
    put_sign(page, "<path class=\"alarm\" d=\"M0 7h22\"/>", "alarm limit");
    put_sign(page, "<path class=\"warning\" d=\"M0 7h22\"/>", "warning limit");
    put_power_up_sign(page, report);
    put(page, "</ul>\n");
}

void put_levels(FILE *page, const struct report *report)
{
    put(page, "<section class=\"levels\">\n<h2>Light levels</h2>\n<p>On a scale of decades, with a strip of its own for 0. The"
              " limits are those of %s", report->module_name ? "the module in " : "the built-in factory image");
    if (report->module_name)
        put_text(page, report->module_name);
    if (report->width > 1)
        put(page, ". A column of the picture has %" PRIu64 " samples: what is drawn is the range of their numbers",
            report->width);
    put(page, ".</p>\n");
    put_key(page, report);
    put_kind(page, report, report->levels, ZIKHRODAN_OF_RX_POWER, ZIKHRODAN_RX_POWER_1);
    put_kind(page, report, report->levels + OF_A_KIND, ZIKHRODAN_OF_TX_POWER, ZIKHRODAN_TX_POWER_1);
    put_ranges(page, report);
    put(page, "</section>\n");
}
