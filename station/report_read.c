/* report_read.c: the samples of a log, one after the other, gathered for the page. See report.h. */
#include "logcalls.h"
#include "measure.h"
#include "report.h"
#include "say.h"
#include "why.h"

/* The stretch that just ended is a mark of its own, or is drawn as one with those before it. */
static void mark(struct band *band, uint64_t part, uint64_t until)
{
    struct mark *last = band->made > 0 ? &band->marks[band->made - 1] : NULL;
    bool was_short = last && (last->several || last->until - last->from < part);

    if (was_short && until - band->from < part && band->from - last->until < part) {
        last->until = until;
        last->several = true;
    } else {
        band->marks[band->made++] = (struct mark){band->from, until, false};
    }
}

static void begin_stretch(struct report *report, unsigned bit, uint64_t position)
{
    struct band *band = &report->bands[bit];

    band->open = true;
    band->from = position;
    band->stretches++;
    band->listed = report->stretch_count++;
}

static void end_stretch(struct report *report, unsigned bit, uint64_t until)
{
    struct band *band = &report->bands[bit];

    band->open = false;
    band->dark += until - band->from;
    mark(band, report->part, until);
    if (band->listed < LISTED)
        report->stretches[band->listed] = (struct stretch){bit, band->from, until - 1};
}

static void take_status(struct report *report, uint64_t position, const uint8_t *sample)
{
    for (unsigned bit = 0; bit < LINES; bit++) {
        bool dark = line_of(sample, bit), was = report->bands[bit].open;
        if (dark && !was)
            begin_stretch(report, bit, position);
        else if (was && !dark)
            end_stretch(report, bit, position);
    }
}

static void widen(struct column *column, double value)
{
    column->least = !column->measured || value < column->least ? value : column->least;
    column->most = !column->measured || value > column->most ? value : column->most;
    column->dark = column->dark || value == 0;
    column->measured = true;
}

const char *module_words(const struct report *report)
{
    return report->module_name ? report->module_name : "the built-in module";
}

static int take_levels(struct report *report, uint64_t position, const uint8_t *sample)
{
    static const unsigned first[] = {ZIKHRODAN_RX_POWER_1, ZIKHRODAN_TX_POWER_1};
    enum zikhrodan_kind kinds[MONITORS];
    double values[MONITORS];

    uint32_t refusal = measure(&report->module, sample, kinds, values);
    if (refusal != ZIKHRODAN_ACCEPTED)
        return refused(refusal, why_sample(&report->module, refusal), "%s", module_words(report));
    for (unsigned i = 0; i < LEVELS; i++) {
        struct level *level = &report->levels[i];
        unsigned monitor = first[i / 4] + i % 4;
        double value = values[monitor];
        if (kinds[monitor] == ZIKHRODAN_NOTHING)
            continue;
        widen(&level->whole, value);
        widen(&level->columns[position / report->width], value);
        if (value > 0 && (level->faintest == 0 || value < level->faintest))
            level->faintest = value;
    }
    return DONE;
}

/* When a line died, as the library answers. */
static int ask(const struct logfile *log, struct band *band, unsigned bit)
{
    uint64_t answer = log_first(log, bit);
    uint32_t refusal = zikhrodan_log_refusal(answer);

    band->first = zikhrodan_log_value(answer);
    return refusal == ZIKHRODAN_ACCEPTED ? DONE : refused(refusal, why_line(refusal), "%s", log->name);
}

int report_read(struct report *report)
{
    uint64_t position = 0, samples = report->counts.samples;
    int status = DONE;

    report->width = samples > COLUMNS ? (samples + COLUMNS - 1) / COLUMNS : 1;
    report->part = samples > PARTS ? (samples + PARTS - 1) / PARTS : 1;
    for (uint64_t place = 0; place < report->log.used; place++)
        for (unsigned i = 0; i < report->counts.of[place] && status == DONE; i++, position++) {
            const uint8_t *sample = log_sample(&report->log, place, i);
            take_status(report, position, sample);
            status = take_levels(report, position, sample);
        }
    for (unsigned bit = 0; bit < LINES && status == DONE; bit++) {
        if (report->bands[bit].open)
            end_stretch(report, bit, samples);
        status = ask(&report->log, &report->bands[bit], bit);
    }
    return status;
}

unsigned lines_in_order(const struct report *report, unsigned order[LINES])
{
    unsigned died = 0;

    for (unsigned bit = 0; bit < LINES; bit++) {
        unsigned at = died;
        if (report->bands[bit].first == 0)
            continue;
        for (; at > 0 && report->bands[order[at - 1]].first > report->bands[bit].first; at--)
            order[at] = order[at - 1];
        order[at] = bit;
        died++;
    }
    return died;
}

char *lost_in(const struct report *report, char text[LINES_ROOM])
{
    bool died[LINES];

    for (unsigned bit = 0; bit < LINES; bit++)
        died[bit] = report->bands[bit].first > 0;
    return lost_words(died, text);
}

bool after_power_up(const struct report *report, uint64_t position)
{
    uint64_t last;

    return power_ups_before(&report->power_ups, position, &last) > 0 && last == position;
}

bool or_later(const struct report *report, uint64_t position)
{
    uint64_t last;

    return power_ups_before(&report->power_ups, position, &last) > 0;
}
