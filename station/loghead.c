/* loghead.c: see loghead.h. */
#include "loghead.h"

#include <string.h>

static const char MAGIC[] = "zikhrodan log 1\n";
enum { MAGIC_LEN = sizeof MAGIC - 1, NUMBER_LEN = 8, COPY_AT = MAGIC_LEN + 4 * NUMBER_LEN, CRC_AT = SLOT_LEN - 4 };
const uint8_t WIPED_FRONT[ZIKHRODAN_BLOCK_LEN] = "zikhrodan wiped\n";

off_t log_length(uint64_t blocks)
{
    return HEAD_LEN + (off_t)blocks * ZIKHRODAN_BLOCK_LEN;
}

bool begins_slot(const uint8_t *bytes, size_t len)
{
    size_t some = len < MAGIC_LEN ? len : MAGIC_LEN;

    return len >= ZIKHRODAN_DD_SAMPLE_LEN && (memcmp(bytes, MAGIC, some) == 0 || memcmp(bytes, WIPED_FRONT, some) == 0);
}

/* The CRC-32 of Ethernet, which is zlib's too. */
static uint32_t crc_of(const uint8_t *bytes, size_t len)
{
    uint32_t crc = UINT32_MAX;

    for (size_t i = 0; i < len; i++) {
        crc ^= bytes[i];
        for (unsigned bit = 0; bit < 8; bit++)
            crc = crc >> 1 ^ (crc & 1 ? 0xEDB88320u : 0);
    }
    return ~crc;
}

static void put(uint8_t *at, uint64_t number, size_t len)
{
    while (len-- > 0) {
        at[len] = (uint8_t)number;
        number >>= 8;
    }
}

static uint64_t get(const uint8_t *at, size_t len)
{
    uint64_t number = 0;

    for (size_t i = 0; i < len; i++)
        number = number << 8 | at[i];
    return number;
}

void slot_write(const struct slot *slot, uint8_t bytes[SLOT_LEN])
{
    const uint64_t numbers[] = {slot->serial, slot->blocks, slot->used, slot->place};

    memset(bytes, 0, SLOT_LEN);
    memcpy(bytes, MAGIC, MAGIC_LEN);
    for (unsigned i = 0; i < sizeof numbers / sizeof numbers[0]; i++)
        put(bytes + MAGIC_LEN + i * NUMBER_LEN, numbers[i], NUMBER_LEN);
    memcpy(bytes + COPY_AT, slot->copy, sizeof slot->copy);
    put(bytes + CRC_AT, crc_of(bytes, CRC_AT), SLOT_LEN - CRC_AT);
}

/* The numbers are those of a file of this length. */
static bool fits(const struct slot *slot, off_t length)
{
    return length > HEAD_LEN && (length - HEAD_LEN) % ZIKHRODAN_BLOCK_LEN == 0 &&
           slot->blocks == (uint64_t)(length - HEAD_LEN) / ZIKHRODAN_BLOCK_LEN && slot->used <= slot->blocks &&
           slot->place < slot->blocks;
}

enum verdict slot_read(struct slot *slot, const uint8_t bytes[SLOT_LEN], off_t length)
{
    static const uint8_t unwritten[SLOT_LEN];
    uint64_t *const numbers[] = {&slot->serial, &slot->blocks, &slot->used, &slot->place};

    if (memcmp(bytes, WIPED_FRONT, sizeof WIPED_FRONT) == 0)
        return WIPED;
    if (memcmp(bytes, MAGIC, MAGIC_LEN) != 0)
        return memcmp(bytes, unwritten, SLOT_LEN) == 0 ? UNWRITTEN : NO_SLOT;
    if (get(bytes + CRC_AT, SLOT_LEN - CRC_AT) != crc_of(bytes, CRC_AT))
        return DAMAGED;
    for (unsigned i = 0; i < sizeof numbers / sizeof numbers[0]; i++)
        *numbers[i] = get(bytes + MAGIC_LEN + i * NUMBER_LEN, NUMBER_LEN);
    memcpy(slot->copy, bytes + COPY_AT, sizeof slot->copy);
    return fits(slot, length) ? RIGHT : MISFIT;
}
