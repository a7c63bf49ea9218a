/* log_text.c: the forms of a log for people: a line that sums it up, and a table of 80 columns, or a wide one with all numbers. */
#include "decimals.h"
#include "log_show.h"
#include "say.h"

#include <inttypes.h>
#include <stdio.h>
#include <string.h>

/* Of more than MANY samples, the LAST ones are shown. */
enum { MANY = 40, LAST = 20 };

/* The columns of the first so many quantities, each as wide as the greatest number needs. */
struct columns {
    const char *heading;
    unsigned quantities;
    struct { int width, decimals; } of[QUANTITIES];
};
static const struct columns NARROW = {
    "                                    Rx power mW\n"
    "position      block   temp C      V      1      2      3      4  status",
    3, {{9, 2}, {7, 4}, {7, 4}},
}, WIDE = {
    "                                       Rx power mW                 Tx bias mA                      Tx power mW\n"
    "position      block      temp C      V      1      2      3      4"
    "       1       2       3       4      1      2      3      4  status",
    QUANTITIES, {{12, 4}, {7, 4}, {7, 4}, {8, 3}, {7, 4}},
};

static void begin(struct log_view *view, const struct columns *columns)
{
    say_samples(&view->counts, &view->log);
    if (view->all && view->counts.samples > MANY) {
        view->from = view->counts.samples - LAST;
        printf("the last %d of them; --from 0 shows all, --from N --count N some\n", LAST);
    }
    if (view->from < view->until)
        printf("\n%s%s%s\n", paint(STRONG), columns->heading, paint(PLAIN));
}

static void print_numbers(const struct log_row *row, const struct columns *columns)
{
    printf("%8" PRIu64 "%11" PRIu64, row->position, row->number);
    for (unsigned m = 0; m < MONITORS && quantity_of(m) < columns->quantities; m++) {
        int width = columns->of[quantity_of(m)].width;
        if (row->kinds[m] == ZIKHRODAN_NOTHING)
            printf("%*s", width, "-");
        else
            print_fixed(width, columns->of[quantity_of(m)].decimals, row->values[m]);
    }
}

/* ---- 80 columns: a status line by its word, as `zikhrodan died` takes it */

static void begin_narrow(struct log_view *view)
{
    begin(view, &NARROW);
}

/* "rx3, tx1-4-fault", from a column on; what has no room before the end goes on below. */
static void print_words(const bool lines[LINES])
{
    enum { FROM = 65, END = 80 };
    int at = FROM - 2;
    char word[LINE_WORD_ROOM];

    for (unsigned bit = 0; bit < LINES; bit++) {
        bool all = of_kind(lines, bit / LANES) == LANES;
        if (!lines[bit] || (all && bit % LANES > 0))
            continue;
        line_word(bit, word, sizeof word);
        int wide = (int)strlen(word) + 2 * all;
        if (at > FROM && at + 2 + wide + 1 >= END) { /* a comma may follow */
            printf(",\n%*s", FROM, "");
            at = FROM;
        } else {
            fputs(at < FROM ? "  " : ", ", stdout);
            at += 2;
        }
        at += printf("%.3s%s%s", word, all ? "-4" : "", word + 3);
    }
}

static void narrow_line(const struct log_row *row)
{
    bool lines[LINES];

    print_numbers(row, &NARROW);
    fputs(paint(BAD), stdout);
    print_words(lines_of(row->sample, lines));
    printf("%s\n", paint(PLAIN));
}

const struct log_form LOG_TEXT = {.begin = begin_narrow, .row = narrow_line};

/* ---- every number, and names */

static void begin_wide(struct log_view *view)
{
    begin(view, &WIDE);
}

static void wide_line(const struct log_row *row)
{
    char names[LINES_ROOM];
    bool lines[LINES];

    print_numbers(row, &WIDE);
    lines_words(lines_of(row->sample, lines), names);
    printf("%s%s%s%s\n", paint(BAD), names[0] ? "  " : "", names, paint(PLAIN));
}

const struct log_form LOG_WIDE = {.begin = begin_wide, .row = wide_line};
