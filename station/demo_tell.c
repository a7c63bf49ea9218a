/* demo_tell.c: see demo_tell.h. */
#include "demo_tell.h"
#include "ask.h"
#include "say.h"

#include <stdio.h>
#include <string.h>

void tell_ports(void)
{
    printf("%-53soperator      recorder\n", "");
}

static void print_interrupt(unsigned count, int width)
{
    printf("%s%-*s%s", paint(count ? BAD : PLAIN), width, count ? "INTERRUPT" : "no interrupt", paint(PLAIN));
}

void tell_event(const struct told_ports *ports, unsigned minute, const char *what)
{
    printf("  %02u:%02u  %-44s", minute / 60, minute % 60, what);
    print_interrupt(ports->counts[0], 14);
    print_interrupt(ports->counts[1], 0);
    putchar('\n');
}

int tell_read(const struct kind *kind, const struct told_ports *ports)
{
    char name[NAME_ROOM];

    printf("\nWhat each of them read:%-30soperator      recorder\n", "");
    for (unsigned i = 0; i < 8 * kind->flag_bytes; i++) {
        struct place at = place_shown(kind, i);
        bool mine = bit_at(ports->read[0], at), its = bit_at(ports->read[1], at);
        if (mine || its)
            printf("  %-51s%-14s%s\n", flag_name(kind->flag_at(at.byte, at.bit), name, sizeof name), mine ? "raised" : "-",
                   its ? "raised" : "-");
    }
    if (memcmp(ports->read[0], ports->read[1], sizeof ports->read[0]) != 0)
        return fail("the two were not told the same, and should have been");
    return DONE;
}
