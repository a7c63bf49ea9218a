/* show_flags.c: flags port by port, in the document's order, and a line for each port. */
#include "say.h"
#include "show_rows.h"
#include "why.h"
#include "words.h"

#include <stdio.h>
#include <string.h>

/* "Rx power 1 low alarm" is, for all channels, "Rx power 1-4 low alarm". */
static void row_name(const struct kind *kind, const struct row *row)
{
    char name[NAME_ROOM], all[8] = "", whole[sizeof name + sizeof all];

    flag_name(kind->flag_at(row->at.byte, row->at.bit), name, sizeof name);
    const char *rest = row->all ? strchr(name, '1') + 1 : name + strlen(name);
    if (row->all)
        snprintf(all, sizeof all, "-%u", kind->channels);
    snprintf(whole, sizeof whole, "%.*s%s%s", (int)(rest - name), name, all, rest);
    printf("  %-27s", whole);
}

/* A column of a port: `words` padded, but not at the end of a line. */
static void column(const struct shown *shown, unsigned port, enum colour colour, const char *words)
{
    bool last = port + 1 == shown->port_count || !answered(&shown->ports[port + 1]);

    printf("%s%-*s%s", paint(colour), last ? 0 : shown->state.kind->cell, words, paint(PLAIN));
}

static void print_row(const struct shown *shown, const struct row *row)
{
    row_name(shown->state.kind, row);
    if (shown->conditions)
        printf("%-11s", stands(shown, row->at) ? "stands" : "-");
    for (unsigned i = 0; i < shown->port_count; i++) {
        const struct shown_port *port = &shown->ports[i];
        if (answered(port))
            column(shown, i, bit_at(port->view.flags, row->at) ? BAD : FAINT, cell(shown, port, row->at));
    }
    putchar('\n');
}

static void table(const struct shown *shown, const struct row *rows, unsigned count)
{
    printf("%s%-29s%s%s", paint(STRONG), "flags", shown->conditions ? "condition  " : "", paint(PLAIN));
    for (unsigned i = 0; i < shown->port_count; i++)
        if (answered(&shown->ports[i]))
            column(shown, i, STRONG, port_name(shown->ports[i].number));
    putchar('\n');
    for (unsigned i = 0; i < count; i++)
        print_row(shown, &rows[i]);
}

static unsigned answers(const struct shown *shown)
{
    unsigned count = 0;

    for (unsigned i = 0; i < shown->port_count; i++)
        count += answered(&shown->ports[i]);
    return count;
}

static void port_line(const struct kind *kind, const struct shown_port *port)
{
    const struct port_view *view = &port->view;

    if (!answered(port)) {
        printf("%s%s%s%s: ", paint(STRONG), port_name(port->number), paint(PLAIN), kind->aside);
        say_refusal(view->refusal, why_port(kind, view->refusal, port->number));
        return;
    }
    say_count(kind, port->number, view->count);
    if (kind == &FOUR)
        printf(", page %02Xh selected", view->page);
    putchar('\n');
}

/* What is said where there is no row, or, of the eight-channel module, of the flags that have none. */
static void rest_line(const struct shown *shown, enum which_flags which, unsigned rows, unsigned others)
{
    const char *whose = answers(shown) < shown->port_count ? " (of the port that is not refused)" : "";

    if (rows == 0 && which == RAISED_FLAGS)
        printf("no flag is raised%s\n", whose);
    else if (rows == 0 && !shown->conditions)
        printf("flags: none raised, none masked%s\n", whose);
    else if (rows == 0)
        printf("flags: no condition stands, none of %u raised, pending or masked%s\n", others, whose);
    else if (shown->conditions && which == TELLING_FLAGS && others > 0)
        printf("  %u other flag%s: no condition stands, none raised, pending or masked (--all lists them)\n", others, plural(others));
}

void show_flags(const struct shown *shown, enum which_flags which)
{
    struct row rows[MOST_FLAGS];
    unsigned others, count = rows_of(shown, which, rows, &others);

    if (count > 0)
        table(shown, rows, count);
    if (answers(shown) > 0)
        rest_line(shown, which, count, others);
    if (answers(shown) > 0 && which != RAISED_FLAGS)
        putchar('\n');
    for (unsigned i = 0; i < shown->port_count; i++)
        port_line(shown->state.kind, &shown->ports[i]);
}
