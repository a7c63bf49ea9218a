/* ends.c: ports, addresses, counts, fields, numbers, quantities and limits at the ends of what 7 to 64 bits hold, combined. */
#include "cases.h"
#include "check.h"
#include "groups.h"
#include "lengths.h"
#include "random.h"

size_t find_ends(uint64_t *ends)
{
    static const unsigned powers[] = { 7, 8, 16, 31, 32, 63, 64 };
    size_t count = 0;
    for (uint64_t i = 0; i <= 4; i++)
        ends[count++] = i;
    for (size_t i = 0; i < COUNT(powers); i++)
        for (uint64_t step = 0; step < 5; step++)
            if (powers[i] < 64)
                ends[count++] = ((uint64_t)1 << powers[i]) + step - 2;
            else if (step < 2)
                ends[count++] = step - 2;
    return count;
}

/* A read and a write that were narrowed to fewer bits would be accepted: so both need something to do. */
static void by_port(const uint8_t *state, uint64_t port, const uint64_t *ends, size_t count)
{
    static const uint8_t data[4] = { 0x5a, 0xc3, 0x7f, 0xf0 };
    for (size_t i = 0; i < count; i++) {
        for (size_t j = 0; j < count; j++) {
            begin(state);
            try(a_read(port, ends[i], ends[j], 130));
            try(a_read(port, ends[i], ends[j], 2));
        }
        for (size_t len = 0; len <= sizeof data; len++)
            for (unsigned place = 0; place <= 100; place += 50) {
                begin(state);
                try(a_write(port, ends[i] + place, (struct bytes){ data, len }));
            }
    }
}

void group_ends(void)
{
    uint8_t state[STATE_LEN], live[PAGE_LEN], factory[PAGE_LEN];
    uint64_t ends[MOST_ENDS];
    size_t count = find_ends(ends);
    random_seed(options.seed);
    random_fill(live, PAGE_LEN);
    random_fill(factory, PAGE_LEN);
    for (unsigned page = 2; page <= 3; page++) {
        random_state(state, page, page);
        for (size_t i = 0; i < count; i++)
            by_port(state, ends[i], ends, count);
    }
    for (int sound = 0; sound <= 1; sound++, set_codes(live))
        for (size_t i = 0; i < count; i++) {
            begin(state);
            try(an_identity((struct bytes){ live, PAGE_LEN }, (struct bytes){ factory, PAGE_LEN }, ends[i]));
        }
    state[2] &= 0xfe;
    for (size_t i = 0; i < count; i++) {
        begin(state);
        try(of_number(KIND, ends[i]));
        try(of_number(VALUE, ends[i]));
        try(of_number(LIMITS, ends[i]));
        for (size_t j = 0; j < count; j++)
            try(a_limit(ends[i], ends[j]));
    }
}
