/* show_hex.c: the form for the papers: all bytes, at the documents' addresses: lower memory 0 to 127, a page 128 to 255. */
#include "dump.h"
#include "say.h"
#include "show.h"
#include "why.h"
#include "words.h"

#include <stdio.h>

static void page_title(unsigned page)
{
    printf("\n%spage %02Xh: %s%s\n", paint(STRONG), page, PAGE_TITLES[page], paint(PLAIN));
}

void end_title(const struct shown *shown, const struct shown_port *port)
{
    if (answered(port)) {
        putchar('\n');
    } else {
        fputs(": ", stdout);
        say_refusal(port->view.refusal, why_port(shown->state.kind, port->view.refusal, port->number));
    }
}

static void as_they_lie(const struct shown *shown)
{
    const uint8_t *bytes = shown->state.bytes;

    printf("%slower memory%s\n", paint(STRONG), paint(PLAIN));
    dump(bytes, ZIKHRODAN_PAGE_LEN, 0);
    for (unsigned page = 0; page < PAGES; page++) {
        page_title(page);
        dump(bytes + ZIKHRODAN_PAGE_00_AT + page * ZIKHRODAN_PAGE_LEN, ZIKHRODAN_PAGE_LEN, ZIKHRODAN_PAGE_LEN);
    }
    for (unsigned i = 0; i < PORTS; i++) {
        printf("\n%s%s's record%s", paint(STRONG), port_name(shown->ports[i].number), paint(PLAIN));
        end_title(shown, &shown->ports[i]);
        dump(bytes + FOUR.flags_at + i * FOUR.record_len, FOUR.record_len, 0);
    }
}

/* What the port reads at `address`, if it is not refused; the copy's flags are cleared by it. */
static bool read_run(struct state *copy, uint64_t port, uint64_t address, uint8_t *out, uint64_t count)
{
    uint32_t answer = zikhrodan_read(copy->bytes, copy->len, port, address, count, out, count);

    return zikhrodan_refusal_of(answer) == ZIKHRODAN_ACCEPTED;
}

/* Selects the page in a copy of its own; where another is selected after that, this one cannot be. */
static void page_as_read(const struct shown *shown, uint8_t page)
{
    struct state copy = shown->state;
    uint64_t port = shown->ports[0].number;
    uint8_t selected, bytes[ZIKHRODAN_PAGE_LEN];

    uint32_t answer = zikhrodan_write(copy.bytes, copy.len, port, ZIKHRODAN_REG_PAGE_SELECT, &page, 1);
    if (zikhrodan_refusal_of(answer) != ZIKHRODAN_ACCEPTED ||
        !read_run(&copy, port, ZIKHRODAN_REG_PAGE_SELECT, &selected, 1) || selected != page) {
        printf("\n%spage %02Xh%s cannot be selected\n", paint(STRONG), page, paint(PLAIN));
        return;
    }
    page_title(page);
    if (read_run(&copy, port, ZIKHRODAN_PAGE_LEN, bytes, sizeof bytes))
        dump(bytes, sizeof bytes, ZIKHRODAN_PAGE_LEN);
}

static void as_read(const struct shown *shown)
{
    struct state copy = shown->state;
    const struct shown_port *port = &shown->ports[0];
    uint8_t lower[ZIKHRODAN_PAGE_LEN];

    printf("%slower memory%s, as the %s reads it", paint(STRONG), paint(PLAIN), port_name(port->number));
    end_title(shown, port);
    if (!answered(port) || !read_run(&copy, port->number, 0, lower, sizeof lower))
        return;
    dump(lower, sizeof lower, 0);
    for (unsigned page = 0; page < PAGES; page++)
        page_as_read(shown, (uint8_t)page);
}

void show_hex(const struct shown *shown, bool one_port)
{
    if (one_port)
        as_read(shown);
    else
        as_they_lie(shown);
}
