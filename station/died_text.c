/* died_text.c: the form of `zikhrodan died` for people: a sentence or two of one line, a table of all. */
#include "died.h"
#include "say.h"

#include <inttypes.h>
#include <stdio.h>
#include <string.h>

/* "2 power-ups are seen before it, the last just before position 820: ..". */
static void print_power_ups(const char *before, uint64_t number, uint64_t last)
{
    printf("%" PRIu64 " power-up%s seen%s,%s just before position %" PRIu64 ": nobody knows how long the station was off\n",
           number, number == 1 ? " is" : "s are", before, number == 1 ? "" : " the last", last);
}

static const char NO_SAMPLES[] = "nothing is known: the log has no samples\n";

/* ", at 2026-11-15T13:47:00+01:00, in UTC 2026-11-15T12:47:00Z, or later"; nothing where that is not known. */
static void print_moment(const struct moment *moment)
{
    if (moment->local[0])
        printf(", at %s, in UTC %s%s", moment->local, moment->utc, moment->or_later ? ", or later" : "");
}

/* Between which two samples it was; the hours are bounds. */
static void print_between(const struct death *death)
{
    struct lane lane = lane_of(death->bit);

    if (death->position > 0) {
        printf("%s in the sample before", lane.before);
        print_moment(&death->lit);
        printf("%s%s in this one", death->lit.local[0] ? ";\n" : "; ", lane.after);
        print_moment(&death->dark);
        printf("\nbefore the log began it may have been %s too\n", lane.after);
    } else {
        printf("%s in the log's first sample", lane.after);
        print_moment(&death->dark);
        putchar('\n');
    }
    if (death->while_off)
        printf("that came while the station was off or after: a power-up is seen between the two\n");
    if (death->power_ups)
        print_power_ups(" before it", death->power_ups, death->last);
}

static void print_line(const struct died_view *view, const struct death *death)
{
    struct lane lane = lane_of(death->bit);
    uint64_t samples = view->counts.samples;
    char name[NAME_ROOM];

    printf("%s%s%s: ", paint(STRONG), line_name(death->bit, name, sizeof name), paint(PLAIN));
    if (samples == 0) {
        printf("%s", NO_SAMPLES);
    } else if (!death->died) {
        printf("not in any of the %" PRIu64 " sample%s\n", samples, plural(samples));
    } else {
        printf("%s%s lane %u %s%s at position %" PRIu64 ", in block %" PRIu64 "%s; the log has %" PRIu64 " sample%s\n", paint(BAD),
               lane.side, lane.number, lane.lost, paint(PLAIN), death->position, death->number,
               death->position > 0 ? "" : ", or before the log began", samples, plural(samples));
        print_between(death);
    }
}

/* How wide a column of local times is, under a heading. */
static int width_of(const struct died_view *view, bool lit, const char *heading)
{
    size_t width = strlen(heading);

    for (unsigned i = 0; i < view->lines; i++) {
        size_t own = strlen(lit ? view->deaths[i].lit.local : view->deaths[i].dark.local);
        width = own > width ? own : width;
    }
    return (int)width;
}

/* A colour, and the columns that there always are. */
#define ROW "%s%-11s%-24s%8s%11s%18s"
static const char LIT[] = "0 in the sample before", DARK[] = "1 in this one";

/* The columns of hours. */
static void print_hours(const struct died_view *view, const struct death *death)
{
    int lit = width_of(view, true, LIT), dark = width_of(view, false, DARK);
    bool more = death->dark.or_later;

    if (!view->moments.known)
        return;
    printf("  %-*s  %-*s", lit, death->lit.local[0] ? death->lit.local : "-", more ? dark : 0,
           death->died ? death->dark.local : "-");
    if (more)
        printf("  or later%s", death->while_off ? ", while the station was off or after" : "");
}

static void print_row(const struct died_view *view, const struct death *death)
{
    char word[LINE_WORD_ROOM], name[NAME_ROOM], position[24] = "-", number[24] = "-", before[24] = "-";

    if (death->died) {
        snprintf(position, sizeof position, "%" PRIu64, death->position);
        snprintf(number, sizeof number, "%" PRIu64, death->number);
        snprintf(before, sizeof before, "%" PRIu64, death->power_ups);
    }
    printf(ROW, paint(death->died ? BAD : PLAIN), line_word(death->bit, word, sizeof word),
           line_name(death->bit, name, sizeof name), position, number, before);
    print_hours(view, death);
    printf("%s\n", paint(PLAIN));
}

/* What is said of all lines above the table. */
static void print_summary(const struct died_view *view)
{
    bool died[LINES] = {false}, first = false;
    char summary[LINES_ROOM];

    died_lines(view, died);
    for (unsigned i = 0; i < view->lines; i++)
        first |= view->deaths[i].died && view->deaths[i].position == 0;
    if (lost_words(died, summary)[0] == '\0') {
        puts(NOTHING_LOST);
        return;
    }
    printf("%s%s%s\n", paint(BAD), summary, paint(PLAIN));
    printf("before the log began a lane may have been dark, or at fault, too\n");
    if (first)
        printf("position 0: it was so in the log's first sample already\n");
}

static void print_table(const struct died_view *view)
{
    const struct power_ups *seen = &view->seen;

    say_samples(&view->counts, &view->log);
    if (seen->number > 0)
        print_power_ups("", seen->number, seen->at[seen->number - 1]);
    if (view->counts.samples == 0) {
        printf("%s", NO_SAMPLES);
        return;
    }
    print_summary(view);
    printf("\n" ROW, paint(STRONG), "line", "name", "position", "block", "power-ups before");
    if (view->moments.known)
        printf("  %-*s  %s", width_of(view, true, LIT), LIT, DARK);
    printf("%s\n", paint(PLAIN));
    for (unsigned i = 0; i < view->lines; i++)
        print_row(view, &view->deaths[i]);
}

void died_text(const struct died_view *view)
{
    if (view->lines == 1)
        print_line(view, &view->deaths[0]);
    else
        print_table(view);
}
