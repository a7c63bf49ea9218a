/* records.c: each byte of each record at all 256 values under every configuration of pages, by every call: sound and unsound. */
#include "cases.h"
#include "check.h"
#include "groups.h"
#include "random.h"

#include <string.h>

static uint8_t image[IMAGE_LEN], sample[SAMPLE_LEN];

/* Every call that looks at a record, and by turns those that must not: ports 0 and 3, monitors, limits. The address depends on
 * the turn too, so that every part of memory is looked at. */
static void every_call(const uint8_t *state, unsigned turn)
{
    static const struct { uint8_t address, count; } reads[] = { { 0, 16 }, { 2, 1 }, { 96, 128 }, { 128, 128 }, { 240, 8 } };
    static const uint8_t writes[] = { 100, 127, 242, 86, 234 };
    const uint8_t data[2] = { (uint8_t)turn, (uint8_t)~turn };
    const uint64_t ports[] = { OPERATOR, RECORDER, turn % 2 ? 0 : 3 };
    for (size_t i = 0; i < COUNT(ports); i++) {
        uint64_t port = ports[i];
        begin(state);
        try(a_read(port, reads[turn % COUNT(reads)].address, reads[turn % COUNT(reads)].count, 128));
        begin(state);
        try(a_write(port, writes[turn % COUNT(writes)], (struct bytes){ data, 1 + (writes[turn % COUNT(writes)] < 127) }));
    }
    begin(state);
    try(a_sample((struct bytes){ sample, SAMPLE_LEN }));
    begin(state);
    if (turn % 4 < 3)
        try(of_number((enum kind)(KIND + turn % 4), turn % NUMBERS));
    else
        try(a_limit(turn % 5, turn / 4 % 4));
    try(a_reset((struct bytes){ image, IMAGE_LEN }));
}

void group_records(void)
{
    uint8_t state[STATE_LEN];
    unsigned turn = 0;
    random_seed(options.seed);
    random_image(image);
    random_fill(sample, SAMPLE_LEN);
    for (unsigned configuration = 0; configuration < CONFIGURATIONS; configuration++)
        for (unsigned port = OPERATOR; port <= RECORDER; port++)
            for (unsigned place = 0; place < RECORD_LEN; place++) {
                random_state(state, 3, 3);
                set_configuration(state, configuration);
                make_sound(state, OPERATOR, random_below(4));
                make_sound(state, RECORDER, random_below(4));
                turn++;
                for (unsigned value = 0; value <= 255; value++) {
                    record_of(state, port)[place] = (uint8_t)value;
                    every_call(state, turn++);
                }
            }
}
