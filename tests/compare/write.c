/* write.c: every write of 0 to 6 bytes at every address 0 to 300 on every page; every page number under every configuration. */
#include "cases.h"
#include "check.h"
#include "groups.h"
#include "random.h"

#include <string.h>

enum pattern { ZEROS, ONES, RANDOM, PATTERNS };

static void fill(uint8_t *at, size_t len, int pattern)
{
    if (pattern == RANDOM)
        random_fill(at, len);
    else
        memset(at, pattern == ONES ? 0xff : 0, len);
}

/* All writes by ports 0 to 3 on a state. */
static void writes_on(const uint8_t *state, unsigned port)
{
    uint8_t data[6];
    for (unsigned address = 0; address <= 300; address++)
        for (size_t len = 0; len <= sizeof data; len++)
            for (int pattern = 0; pattern < PATTERNS; pattern++) {
                fill(data, len, pattern);
                begin(state);
                try(a_write(port, address, (struct bytes){ data, len }));
            }
}

void group_write(void)
{
    uint8_t state[STATE_LEN];
    random_seed(options.seed);
    for (unsigned page = 0; page <= 3; page++)
        for (int pattern = 0; pattern < PATTERNS; pattern++)
            for (unsigned port = 0; port <= 3; port++) {
                fill(state, STATE_LEN, pattern);
                set_configuration(state, 6);
                record_of(state, OPERATOR)[SELECTED] = (uint8_t)(port == RECORDER ? (page + 1) % 4 : page);
                record_of(state, RECORDER)[SELECTED] = (uint8_t)(port == RECORDER ? page : (page + 1) % 4);
                make_sound(state, OPERATOR, 0);
                make_sound(state, RECORDER, 0);
                writes_on(state, port);
            }
}

/* Every page number written from `old`, as the last byte of writes of 1 to 4, and seen by a read. */
static void select_from(uint8_t *state, unsigned port, unsigned old)
{
    uint8_t data[4];
    record_of(state, port)[SELECTED] = (uint8_t)old;
    for (unsigned page = 0; page <= 255; page++)
        for (size_t len = 1; len <= sizeof data; len++) {
            random_fill(data, sizeof data);
            data[len - 1] = (uint8_t)page;
            begin(state);
            try(a_write(port, 128 - len, (struct bytes){ data, len }));
            try(a_read(port, 120, 12, 12));
        }
}

void group_select(void)
{
    uint8_t state[STATE_LEN];
    random_seed(options.seed);
    for (unsigned configuration = 0; configuration < CONFIGURATIONS; configuration++)
        for (unsigned port = OPERATOR; port <= RECORDER; port++) {
            random_state(state, 0, 0);
            set_configuration(state, configuration);
            for (unsigned old = 0; old <= 3; old++)
                if (is_supported(state, old))
                    select_from(state, port, old);
        }
}
