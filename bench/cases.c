/* cases.c: the calls that are measured. See cases.h. */
#include "cases.h"
#include "eight.h"
#include "logs.h"

#include <string.h>

uint8_t state[ZIKHRODAN_STATE_LEN], out[ZIKHRODAN_READ_MAX], records[RECORDS_LEN];
uint8_t image[ZIKHRODAN_IMAGE_LEN] = {
#include "factory-image.h" /* made of data/factory-image.hex by bench/run */
};

/* 30 degrees, 3.3 V, 1 mW, 6 mA, 0.9 mW: within all limits of the factory image. */
static const uint8_t in_range[ZIKHRODAN_SAMPLE_LEN] = {
    0, 0, 0, 0x1e, 0x00, 0x80, 0xe8, 0x27, 0x10, 0x27, 0x10, 0x27, 0x10, 0x27, 0x10,
    0x0b, 0xb8, 0x0b, 0xb8, 0x0b, 0xb8, 0x0b, 0xb8, 0x23, 0x28, 0x23, 0x28, 0x23, 0x28, 0x23, 0x28,
};
static const uint8_t all_ff[ZIKHRODAN_SAMPLE_LEN] = {
    0xff, 0xff, 0xff, 0xff, 0xff, 0xff, 0xff, 0xff, 0xff, 0xff, 0xff, 0xff, 0xff, 0xff, 0xff, 0xff,
    0xff, 0xff, 0xff, 0xff, 0xff, 0xff, 0xff, 0xff, 0xff, 0xff, 0xff, 0xff, 0xff, 0xff, 0xff,
};
static const uint8_t nothing[ZIKHRODAN_DD_SAMPLE_LEN];
/* Every status bit but Rx3's loss of signal. */
static const uint8_t all_but_rx3[ZIKHRODAN_SAMPLE_LEN] = {0xfb, 0xff, 0xff};
/* Page 02h is the first byte, so that a write of it at 127 selects what was selected. */
const uint8_t written[ZIKHRODAN_WRITE_MAX] = {2, 0x50, 0xa0, 0xf0};

#define OF_LOWER(n) READ, .port = 1, .address = 0, .count = n
#define OF_PAGE(p, n) READ, .page = p, .port = 1, .address = 128, .count = n
#define WRITTEN(p, a, n) WRITE, .page = p, .port = 1, .address = a, .count = n
#define EIGHT(what, a, n) EIGHT_##what, .port = 1, .address = a, .count = n
#define A_LOG_OF(s, n, l) .sample = s, .used = 1, .each = n, .last = l
#define A_LOG(n, l) A_LOG_OF(in_range, n, l)
#define OF_FULL A_LOG(16, 16)
#define OF_HALF A_LOG(8, 8)
#define OF_EMPTY A_LOG(0, 0)
#define PAST .position = PAST_THE_LAST, .refusal = 17
#define BLOCKS_OF(n) {"log sample, blocks of " #n ": refused 17", LOG_SAMPLE, A_LOG(n, n), PAST}
#define OLD_BLOCKS_OF(n) {"log sample, old blocks of " #n ": refused 17", LOG_SAMPLE, A_LOG(n, n), PAST, .summaries = OLD}
#define FOR_RX3 .bit = 2 /* loss of signal */
#define NO_SAMPLE .position = PAST_THE_LAST

const struct one_call cases[] = {
    {"reset", .call = RESET},
    {"sample, in range", SAMPLE, .sample = in_range},
    {"sample, all FFh", SAMPLE, .sample = all_ff},
    {"read 1, lower memory", OF_LOWER(1)},
    {"read 12, lower memory", OF_LOWER(12)},
    {"read 128, lower memory", OF_LOWER(128)},
    {"read 12, the flags at 3", READ, .port = 1, .address = 3, .count = 12},
    {"read 1, page 00h", OF_PAGE(0, 1)},
    {"read 12, page 00h", OF_PAGE(0, 12)},
    {"read 128, page 00h", OF_PAGE(0, 128)},
    {"read 1, page 01h", OF_PAGE(1, 1)},
    {"read 12, page 01h", OF_PAGE(1, 12)},
    {"read 128, page 01h", OF_PAGE(1, 128)},
    {"read 1, page 02h", OF_PAGE(2, 1)},
    {"read 12, page 02h", OF_PAGE(2, 12)},
    {"read 128, page 02h", OF_PAGE(2, 128)},
    {"read 1, page 03h", OF_PAGE(3, 1)},
    {"read 12, page 03h", OF_PAGE(3, 12)},
    {"read 128, page 03h", OF_PAGE(3, 128)},
    {"read 128, at 64 across 127", READ, .page = 3, .port = 1, .address = 64, .count = 128},
    {"write 1, at 86", WRITTEN(0, 86, 1)},
    {"write 1, page select at 127", WRITTEN(2, 127, 1)},
    {"write 1, mask at 100", WRITTEN(0, 100, 1)},
    {"write 1, page 02h", WRITTEN(2, 128, 1)},
    {"write 1, page 03h mask at 242", WRITTEN(3, 242, 1)},
    {"write 1, recorder at 86: refused 7", WRITE, .port = 2, .address = 86, .count = 1, .refusal = 7},
    {"write 4, page 02h", WRITTEN(2, 128, 4)},
    {"write 4, masks at 100", WRITTEN(0, 100, 4)},
    {"identity, vendor name", IDENTITY, .number = ZIKHRODAN_VENDOR_NAME},
    {"identity, OUI", IDENTITY, .number = ZIKHRODAN_VENDOR_OUI},
    {"identity, part number", IDENTITY, .number = ZIKHRODAN_PART_NUMBER},
    {"identity, revision", IDENTITY, .number = ZIKHRODAN_REVISION},
    {"identity, serial number", IDENTITY, .number = ZIKHRODAN_SERIAL_NUMBER},
    {"identity, date code", IDENTITY, .number = ZIKHRODAN_DATE_CODE},
    {"identity, vendor name: live unsound", IDENTITY, .unsound = 1, .number = ZIKHRODAN_VENDOR_NAME},
    {"identity, vendor name: refused 11", IDENTITY, .unsound = 2, .number = ZIKHRODAN_VENDOR_NAME, .refusal = 11},
    {"monitor kind, temperature", KIND, .number = ZIKHRODAN_TEMPERATURE},
    {"monitor kind, Rx power 3", KIND, .number = ZIKHRODAN_RX_POWER_1 + 2},
    {"monitor value, temperature", VALUE, .number = ZIKHRODAN_TEMPERATURE},
    {"monitor value, Rx power 3", VALUE, .number = ZIKHRODAN_RX_POWER_1 + 2},
    {"limits refusal, temperature", LIMITS, .number = ZIKHRODAN_OF_TEMPERATURE},
    {"limit, temperature", LIMIT, .number = ZIKHRODAN_OF_TEMPERATURE},
    {"limit, Tx power", LIMIT, .number = ZIKHRODAN_OF_TX_POWER},
    {"eight reset", .call = EIGHT_RESET},
    {"eight reset: refused 1", EIGHT_RESET, .wrong = STATE_SIZE, .refusal = 1},
    {"eight sample, no condition", EIGHT_SAMPLE, .sample = nothing},
    {"eight sample, all FFh", EIGHT_SAMPLE, .sample = all_ff},
    {"eight sample, all FFh again", EIGHT_SAMPLE, .sample = all_ff, .again = true},
    {"eight sample: refused 3", EIGHT_SAMPLE, .sample = all_ff, .wrong = RECORD_BIT, .refusal = 3},
    {"eight sample: refused 8", EIGHT_SAMPLE, .sample = all_ff, .wrong = SAMPLE_SIZE, .refusal = 8},
    {"eight read 1, at 60", EIGHT(READ, 60, 1)},
    {"eight read 1, the flags at 3", EIGHT(READ, 3, 1)},
    {"eight read 14, the flags at 3", EIGHT(READ, 3, 14)},
    {"eight read 14, the masks at 102", EIGHT(READ, 102, 14)},
    {"eight read 128, at 0", EIGHT(READ, 0, 128)},
    {"eight read: refused 2", EIGHT_READ, .port = 3, .count = 1, .refusal = 2},
    {"eight read: refused 3", EIGHT(READ, 0, 1), .wrong = RECORD_BIT, .refusal = 3},
    {"eight read: refused 4", EIGHT(READ, 0, 0), .refusal = 4},
    {"eight read: refused 5", EIGHT(READ, 127, 2), .refusal = 5},
    {"eight read: refused 6", EIGHT(READ, 0, 128), .wrong = OUT_SIZE, .refusal = 6},
    {"eight write 1, at 60", EIGHT(WRITE, 60, 1)},
    {"eight write 1, mask at 102", EIGHT(WRITE, 102, 1)},
    {"eight write 1, recorder at 101: refused 7", EIGHT_WRITE, .port = 2, .address = 101, .count = 1, .refusal = 7},
    {"eight write 4, masks at 102", EIGHT(WRITE, 102, 4)},
    {"log add, full blocks, into a new one", LOG_ADD, OF_FULL},
    {"log add, full blocks but for the last", LOG_ADD, A_LOG(16, 15)},
    {"log add, half-full blocks", LOG_ADD, OF_HALF},
    {"log add, empty blocks", LOG_ADD, OF_EMPTY},
    {"log add, half-full blocks, all FFh", LOG_ADD, A_LOG_OF(all_ff, 8, 8)},
    {"log add, old full blocks, into a new one", LOG_ADD, OF_FULL, .summaries = OLD},
    {"log add, old full blocks but for the last", LOG_ADD, A_LOG(16, 15), .summaries = OLD},
    {"log add: refused 8", LOG_ADD, OF_FULL, .wrong = SAMPLE_SIZE, .refusal = 8},
    {"log add: refused 15, size", LOG_ADD, OF_FULL, .wrong = LOG_SIZE, .refusal = 15},
    {"log add: refused 15, first block", LOG_ADD, OF_FULL, .wrong = FIRST_BLOCK, .refusal = 15},
    {"log add: refused 15, last block", LOG_ADD, OF_FULL, .wrong = LAST_BLOCK, .refusal = 15},
    {"log add: refused 14", LOG_ADD, OF_FULL, .wrong = NONE_UNUSED, .refusal = 14},
    {"log power-up, full blocks", LOG_POWER_UP, OF_FULL},
    {"log power-up, half-full blocks", LOG_POWER_UP, OF_HALF},
    {"log power-up, empty blocks", LOG_POWER_UP, OF_EMPTY},
    {"log power-up, old full blocks", LOG_POWER_UP, OF_FULL, .summaries = OLD},
    {"log power-up: refused 14", LOG_POWER_UP, OF_FULL, .wrong = NONE_UNUSED, .refusal = 14},
    {"log sample, full blocks, the first", LOG_SAMPLE, OF_FULL, .position = THE_FIRST},
    {"log sample, full blocks, the last", LOG_SAMPLE, OF_FULL, .position = THE_LAST},
    {"log sample, half-full blocks, the first", LOG_SAMPLE, OF_HALF, .position = THE_FIRST},
    {"log sample, half-full blocks, the last", LOG_SAMPLE, OF_HALF, .position = THE_LAST},
    {"log sample: refused 17", LOG_SAMPLE, OF_FULL, PAST},
    BLOCKS_OF(0), BLOCKS_OF(1), BLOCKS_OF(2), BLOCKS_OF(3), BLOCKS_OF(4), BLOCKS_OF(5), BLOCKS_OF(6), BLOCKS_OF(7), BLOCKS_OF(8),
    BLOCKS_OF(9), BLOCKS_OF(10), BLOCKS_OF(11), BLOCKS_OF(12), BLOCKS_OF(13), BLOCKS_OF(14), BLOCKS_OF(15), BLOCKS_OF(16),
    OLD_BLOCKS_OF(0), OLD_BLOCKS_OF(1), OLD_BLOCKS_OF(2), OLD_BLOCKS_OF(3), OLD_BLOCKS_OF(4), OLD_BLOCKS_OF(5), OLD_BLOCKS_OF(6),
    OLD_BLOCKS_OF(7), OLD_BLOCKS_OF(8), OLD_BLOCKS_OF(9), OLD_BLOCKS_OF(10), OLD_BLOCKS_OF(11), OLD_BLOCKS_OF(12),
    OLD_BLOCKS_OF(13), OLD_BLOCKS_OF(14), OLD_BLOCKS_OF(15), OLD_BLOCKS_OF(16),
    {"log first, full blocks, none", LOG_FIRST, OF_FULL, FOR_RX3, NO_SAMPLE},
    {"log first, full blocks, none, bit 12", LOG_FIRST, OF_FULL, .bit = 12, NO_SAMPLE},
    {"log first, full blocks, none, bit 23", LOG_FIRST, OF_FULL, .bit = 23, NO_SAMPLE},
    {"log first, full blocks, none, all other bits", LOG_FIRST, A_LOG_OF(all_but_rx3, 16, 16), FOR_RX3, NO_SAMPLE},
    {"log first, half-full blocks, none", LOG_FIRST, OF_HALF, FOR_RX3, NO_SAMPLE},
    {"log first, empty blocks, none", LOG_FIRST, OF_EMPTY, FOR_RX3, NO_SAMPLE},
    {"log first, full blocks, the first", LOG_FIRST, OF_FULL, FOR_RX3, .position = THE_FIRST},
    {"log first, full blocks, the last", LOG_FIRST, OF_FULL, FOR_RX3, .position = THE_LAST},
    {"log first, old full blocks, none", LOG_FIRST, OF_FULL, FOR_RX3, NO_SAMPLE, .summaries = OLD},
    {"log first, old half-full blocks, none", LOG_FIRST, OF_HALF, FOR_RX3, NO_SAMPLE, .summaries = OLD},
    {"log first, old empty blocks, none", LOG_FIRST, OF_EMPTY, FOR_RX3, NO_SAMPLE, .summaries = OLD},
    {"log first, old full blocks, the last", LOG_FIRST, OF_FULL, FOR_RX3, .position = THE_LAST, .summaries = OLD},
    {"log first, full blocks with every bit, none", LOG_FIRST, OF_FULL, FOR_RX3, NO_SAMPLE, .summaries = EVERY_BIT},
    {"log first: refused 15, size", LOG_FIRST, OF_FULL, FOR_RX3, NO_SAMPLE, .wrong = LOG_SIZE, .refusal = 15},
    {"log first: refused 15, last block", LOG_FIRST, OF_FULL, FOR_RX3, NO_SAMPLE, .wrong = LAST_COUNT, .refusal = 15},
    {"log first, the first: refused 15, last block", LOG_FIRST, OF_FULL, FOR_RX3, .wrong = LAST_COUNT, .refusal = 15},
    {"log first: refused 17", LOG_FIRST, OF_FULL, .bit = 24, NO_SAMPLE, .refusal = 17},
};
const unsigned many_cases = sizeof cases / sizeof cases[0];

bool set_up(const struct one_call *c)
{
    uint32_t refused = zikhrodan_reset(state, sizeof state, image, sizeof image) & 0xff;

    if (c->call != SAMPLE)
        refused |= zikhrodan_sample(state, sizeof state, all_ff, sizeof all_ff) & 0xff;
    for (uint64_t port = ZIKHRODAN_OPERATOR; port <= ZIKHRODAN_RECORDER; port++)
        refused |= zikhrodan_write(state, sizeof state, port, 127, &c->page, 1) & 0xff;
    memcpy(records, state + RECORDS_AT, sizeof records);
    state[ZIKHRODAN_PAGE_00_AT] += c->unsound >= 1;
    image[ZIKHRODAN_PAGE_00_AT] += c->unsound >= 2;
    if (is_eight(c))
        refused |= set_up_eight(c);
    if (c->used)
        set_up_log(c);
    return refused == 0;
}

void put_back(const struct one_call *c)
{
    memcpy(state + RECORDS_AT, records, sizeof records);
    if (is_eight(c))
        put_back_eight();
    if (c->used)
        put_back_log(c);
}

static uint64_t bits(double number)
{
    uint64_t same;

    memcpy(&same, &number, sizeof same);
    return same;
}

uint64_t make(const struct one_call *c)
{
    const uint8_t *live = state + ZIKHRODAN_PAGE_00_AT, *factory = image + ZIKHRODAN_PAGE_00_AT;

    switch (c->call) {
    case RESET: return zikhrodan_reset(state, sizeof state, image, sizeof image);
    case SAMPLE: return zikhrodan_sample(state, sizeof state, c->sample, ZIKHRODAN_SAMPLE_LEN);
    case READ: return zikhrodan_read(state, sizeof state, c->port, c->address, c->count, out, sizeof out);
    case WRITE: return zikhrodan_write(state, sizeof state, c->port, c->address, written, c->count);
    case IDENTITY: return zikhrodan_identity(live, ZIKHRODAN_PAGE_LEN, factory, ZIKHRODAN_PAGE_LEN, c->number);
    case KIND: return zikhrodan_monitor_kind(state, sizeof state, c->number);
    case VALUE: return bits(zikhrodan_monitor_value(state, sizeof state, c->number));
    case LIMITS: return zikhrodan_limits_refusal(state, sizeof state, c->number);
    case LIMIT: return bits(zikhrodan_limit(state, sizeof state, c->number, ZIKHRODAN_HIGH_ALARM));
    default: return is_eight(c) ? make_eight(c) : make_log(c);
    }
}
