/* lengths.c: every length of what is lent from 0 to beyond its limit, large and vast ones; no bytes also at a null pointer. */
#include "cases.h"
#include "check.h"
#include "groups.h"
#include "lengths.h"
#include "random.h"

#include <string.h>

static uint8_t state[REGION], image[REGION], sample[REGION], data[REGION], live[REGION], factory[REGION];

/* Long memory, each with what is right at its front. */
static void fill_all(void)
{
    uint8_t *all[] = { state, image, sample, data, live, factory };
    for (size_t i = 0; i < COUNT(all); i++)
        random_fill(all[i], REGION);
    random_state(state, 2, 3);
    set_codes(image + PAGE_00_AT);
    set_codes(live);
    set_codes(factory);
}

size_t each_length(struct bytes *all, const uint8_t *memory, size_t most)
{
    static const size_t large[] = { 1376, 4096, 32768, REGION };
    size_t count = 0;
    all[count++] = (struct bytes){ NULL, 0 };
    for (size_t len = 0; len <= most; len++)
        all[count++] = (struct bytes){ memory, len };
    for (size_t i = 0; i < COUNT(large); i++)
        all[count++] = (struct bytes){ memory, large[i] };
    return count;
}

/* Every call that is lent the state. */
static void every_call(struct bytes lent)
{
    for (uint64_t port = OPERATOR; port <= RECORDER; port++) {
        begin_with(lent);
        try(a_read(port, 0, 128, 128));
        begin_with(lent);
        try(a_write(port, 100, (struct bytes){ data, 4 }));
    }
    begin_with(lent);
    try(a_sample((struct bytes){ sample, SAMPLE_LEN }));
    try(of_number(KIND, 3));
    try(of_number(VALUE, 3));
    try(of_number(LIMITS, 2));
    try(a_limit(2, 1));
    try(a_reset((struct bytes){ image, IMAGE_LEN }));
}

static void output_lengths(void)
{
    struct bytes all[MOST];
    size_t lengths = each_length(all, data, 140);
    for (uint64_t port = OPERATOR; port <= RECORDER; port++)
        for (uint64_t count = 0; count <= 140; count++)
            for (size_t i = 0; i < lengths; i++) {
                struct call call = a_read(port, count % 20, count, all[i].len);
                call.out_null = !all[i].at;
                begin(state);
                try(call);
            }
}

static void data_lengths(void)
{
    struct bytes all[MOST];
    size_t lengths = each_length(all, data, 20);
    for (uint64_t port = OPERATOR; port <= RECORDER; port++)
        for (uint64_t address = 84; address <= 128; address++)
            for (size_t i = 0; i < lengths; i++) {
                begin(state);
                try(a_write(port, address, all[i]));
            }
}

static void page_lengths(void)
{
    uint8_t wrong[PAGE_LEN];
    memcpy(wrong, live, PAGE_LEN);
    wrong[63]++;
    const struct bytes others[] = {
        { factory, PAGE_LEN }, { wrong, PAGE_LEN }, { factory, 0 }, { NULL, 0 }, { factory, PAGE_LEN + 1 },
    };
    struct bytes all[MOST];
    size_t lengths = each_length(all, live, 200);
    for (size_t other = 0; other < COUNT(others); other++)
        for (uint64_t field = 0; field <= 7; field++)
            for (size_t i = 0; i < lengths; i++) {
                begin(state);
                try(an_identity(all[i], others[other], field));
                try(an_identity(others[other], all[i], field));
            }
}

void group_lengths(void)
{
    struct bytes all[MOST];
    random_seed(options.seed);
    fill_all();
    for (size_t i = 0, lengths = each_length(all, state, 700); i < lengths; i++)
        every_call(all[i]);
    for (size_t i = 0, lengths = each_length(all, image, 700); i < lengths; i++) {
        begin(state);
        try(a_reset(all[i]));
    }
    for (size_t i = 0, lengths = each_length(all, sample, 100); i < lengths; i++) {
        begin(state);
        try(a_sample(all[i]));
    }
    data_lengths();
    output_lengths();
    page_lengths();
}

/* Lengths whose low 32 bits alone would be accepted. */
void group_vast(void)
{
    random_seed(options.seed);
    fill_all();
    for (size_t more = 0; more <= STATE_LEN; more += 16)
        every_call((struct bytes){ NULL, VAST + more });
    for (size_t more = 0; more <= IMAGE_LEN; more++) {
        begin(state);
        try(a_reset((struct bytes){ NULL, VAST + more }));
        try(a_sample((struct bytes){ NULL, VAST + more }));
        try(a_write(OPERATOR, more % 256, (struct bytes){ NULL, VAST + more }));
        try(a_write(RECORDER, 100, (struct bytes){ NULL, VAST + more }));
        try(an_identity((struct bytes){ NULL, VAST + more }, (struct bytes){ factory, PAGE_LEN }, 1 + more % 6));
        try(an_identity((struct bytes){ live, PAGE_LEN - 1 }, (struct bytes){ NULL, VAST + more }, 1 + more % 6));
        try(a_read(OPERATOR, more % 128, more % 131, VAST + more));
        try(a_read(RECORDER, 0, 128, VAST + more));
    }
}
