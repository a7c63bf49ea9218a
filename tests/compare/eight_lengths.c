/* eight_lengths.c: every length of what is lent to the eight-channel module from 0 to beyond its limit, large and vast ones, no
 * bytes also at a null pointer; ports, addresses and counts at the ends of what 7 to 64 bits hold. */
#include "check.h"
#include "eight_cases.h"
#include "groups.h"
#include "lengths.h"
#include "random.h"

#include <string.h>

static uint8_t state[REGION], sample[REGION], data[REGION];

/* Long memory, a state with what can be cleared at its front. */
static void fill_all(void)
{
    uint8_t *all[] = { state, sample, data };
    for (size_t i = 0; i < COUNT(all); i++)
        random_fill(all[i], REGION);
    memset(state, 0xff, EIGHT_LEN);
    make_eight_sound(state, OPERATOR);
    make_eight_sound(state, RECORDER);
}

static void every_call(struct bytes lent)
{
    for (uint64_t port = OPERATOR; port <= RECORDER; port++) {
        begin_with(lent);
        try(of_eight(a_read(port, 0, 128, 128)));
        begin_with(lent);
        try(of_eight(a_write(port, 106, (struct bytes){ data, 4 })));
    }
    begin_with(lent);
    try(of_eight(a_sample((struct bytes){ sample, EIGHT_SAMPLE_LEN })));
    try(a_reset_of_eight());
}

static void output_lengths(void)
{
    struct bytes all[MOST];
    size_t lengths = each_length(all, data, 132);
    for (uint64_t port = OPERATOR; port <= RECORDER; port++)
        for (uint64_t count = 0; count <= 132; count += count < 20 || count > 124 ? 1 : 8)
            for (size_t i = 0; i < lengths; i++) {
                struct call call = of_eight(a_read(port, count < 20 ? count : 0, count, all[i].len));
                call.out_null = !all[i].at;
                begin_eight(state);
                try(call);
            }
}

static void input_lengths(void)
{
    struct bytes all[MOST];
    size_t lengths = each_length(all, data, 20);
    for (uint64_t port = OPERATOR; port <= RECORDER; port++)
        for (uint64_t address = 98; address <= 130; address++)
            for (size_t i = 0; i < lengths; i++) {
                begin_eight(state);
                try(of_eight(a_write(port, address, all[i])));
            }
    lengths = each_length(all, sample, 100);
    for (size_t i = 0; i < lengths; i++) {
        begin_eight(state);
        try(of_eight(a_sample(all[i])));
    }
}

/* A call that were narrowed to fewer bits would be accepted: so there is something to do. */
static void numbers_of(uint64_t port, const uint64_t *ends, size_t count)
{
    for (size_t i = 0; i < count; i++) {
        for (size_t j = 0; j < count; j++) {
            begin_eight(state);
            try(of_eight(a_read(port, ends[i], ends[j], 130)));
            try(of_eight(a_read(port, ends[i] + 5, ends[j], 2)));
        }
        for (size_t len = 0; len <= 4; len++)
            for (unsigned place = 0; place <= 104; place += 52) {
                begin_eight(state);
                try(of_eight(a_write(port, ends[i] + place, (struct bytes){ data, len })));
            }
    }
}

/* Lengths whose low 32 bits alone would be accepted. */
static void vast(void)
{
    for (size_t more = 0; more <= EIGHT_LEN; more += 14)
        every_call((struct bytes){ NULL, VAST + more });
    for (size_t more = 0; more <= 2 * EIGHT_SAMPLE_LEN; more++) {
        struct bytes zeros = { NULL, VAST + more };
        begin_eight(state);
        try(of_eight(a_sample(zeros)));
        try(of_eight(a_write(OPERATOR, 90 + more, zeros)));
        try(of_eight(a_write(RECORDER, 102, zeros)));
        try(of_eight(a_read(OPERATOR, more, 100 + more, VAST + more)));
        try(of_eight(a_read(RECORDER, 0, 128, VAST + more)));
    }
}

void group_eight_lengths(void)
{
    struct bytes all[MOST];
    uint64_t ends[MOST_ENDS];
    random_seed(options.seed);
    fill_all();
    vast();
    for (size_t i = 0, lengths = each_length(all, state, 220); i < lengths; i++)
        every_call(all[i]);
    every_call((struct bytes){ state, 688 });
    input_lengths();
    output_lengths();
    for (size_t i = 0, count = find_ends(ends); i < count; i++)
        numbers_of(ends[i], ends, count);
}
