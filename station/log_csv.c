/* log_csv.c: the form of a log for spreadsheets: RFC 4180, with a line of names. No field has a comma, a quote or a line's end in
 * it, so that none is quoted. */
#include "decimals.h"
#include "log_show.h"

#include <inttypes.h>
#include <stdio.h>

static void begin(struct log_view *view)
{
    char name[NAME_ROOM];

    (void)view;
    fputs("position,block", stdout);
    for (unsigned m = 0; m < MONITORS; m++)
        printf(",%s %s", monitor_name(m, name, sizeof name), UNIT_NAMES[QUANTITY_KINDS[quantity_of(m)]]);
    fputs(",status\r\n", stdout);
}

static void row_line(const struct log_row *row)
{
    const char *between = "";

    printf("%" PRIu64 ",%" PRIu64, row->position, row->number);
    for (unsigned m = 0; m < MONITORS; m++) {
        putchar(',');
        if (row->kinds[m] != ZIKHRODAN_NOTHING)
            print_number(row->values[m]);
    }
    putchar(',');
    for (unsigned bit = 0; bit < LINES; bit++)
        if (line_of(row->sample, bit)) {
            fputs(between, stdout);
            fputs(line_kept(bit), stdout);
            between = "; ";
        }
    fputs("\r\n", stdout);
}

const struct log_form LOG_CSV = {.begin = begin, .row = row_line};
