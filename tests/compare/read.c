/* read.c: every address 0 to 300 by every count 0 to 140 by ports 0 to 3, on several states. */
#include "cases.h"
#include "check.h"
#include "groups.h"
#include "random.h"

#include <string.h>

/* All flags of a port raised, and random or full masks. */
static void raise_flags(uint8_t *state, unsigned port, bool masked)
{
    uint8_t *record = record_of(state, port);
    memset(record, 0xff, 12);
    if (masked)
        memset(record + 12, 0xff, 11);
    else
        random_fill(record + 12, 11);
}

/* Each port has each page selected in one of them. */
enum { STATES = 7 };
static void state_number(uint8_t *state, int number)
{
    static const uint8_t pages[STATES][2] = { { 0, 0 }, { 3, 2 }, { 0, 0 }, { 1, 3 }, { 2, 1 }, { 0, 0 }, { 3, 2 } };
    random_state(state, pages[number][0], pages[number][1]);
    if (number == 0)
        real_state(state);
    if (number == 1 || number == 2) {
        raise_flags(state, OPERATOR, false);
        raise_flags(state, RECORDER, false);
    }
    if (number == 2)
        set_configuration(state, 7);
    if (number == 5)
        raise_flags(state, RECORDER, true);
    if (number == 6) {
        raise_flags(state, OPERATOR, true);
        memset(record_of(state, RECORDER), 0, 12);
    }
    make_sound(state, OPERATOR, 0);
    make_sound(state, RECORDER, 0);
    if (number == 5)
        record_of(state, OPERATOR)[5] = 1;
}

void group_read(void)
{
    uint8_t state[STATE_LEN];
    random_seed(options.seed);
    for (int number = 0; number < STATES; number++) {
        state_number(state, number);
        for (unsigned port = 0; port <= 3; port++)
            for (unsigned address = 0; address <= 300; address++)
                for (unsigned count = 0; count <= 140; count++) {
                    begin(state);
                    try(a_read(port, address, count, number % 2 ? count + 11 : count));
                }
    }
}
