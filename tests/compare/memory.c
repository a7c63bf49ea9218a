/* memory.c: regions between unreadable memory, and canary bytes. */
#include "memory.h"

#include <stdio.h>
#include <stdlib.h>
#include <string.h>
#include <sys/mman.h>

const char *const place_words[PLACES] = { "end", "start", "odd" };

/* As much is unreadable as the largest page of any machine: what is protected is whole pages. */
enum { UNREADABLE = 1 << 16, CANARY = 64 };

static struct {
    uint8_t *low, *high;        /* its readable bytes: from low up to, not with, high */
    uint8_t *vast_high;         /* the end of its vast memory, once that is mapped */
    uint8_t *before, *after;    /* the canary bytes beside what was lent last; null for none */
} regions[PARTS];

static uint8_t canary[CANARY];

/* `len` bytes with unreadable memory before and after them; gives their end. */
static uint8_t *mapped(size_t len, int protection)
{
    uint8_t *at = mmap(NULL, len + 2 * UNREADABLE, PROT_NONE, MAP_PRIVATE | MAP_ANONYMOUS | MAP_NORESERVE, -1, 0);
    if (at == MAP_FAILED || mprotect(at + UNREADABLE, len, protection)) {
        perror("compare: memory cannot be mapped");
        exit(2);
    }
    return at + UNREADABLE + len;
}

void memory_prepare(void)
{
    for (int i = 0; i < CANARY; i++)
        canary[i] = (uint8_t)(0xa5 ^ i * 37);
    for (int part = 0; part < PARTS; part++) {
        regions[part].high = mapped(REGION, PROT_READ | PROT_WRITE);
        regions[part].low = regions[part].high - REGION;
    }
}

/* Vast memory; where a call may change it the front, wherever it starts, can be written to. */
static uint8_t *vast_end(enum part part)
{
    uint8_t *end = mapped(VAST + UNREADABLE, PROT_READ);
    if ((part == STATE || part == OUTPUT) && mprotect(end - VAST - UNREADABLE, 2 * UNREADABLE, PROT_READ | PROT_WRITE)) {
        perror("compare: memory cannot be made writable");
        exit(2);
    }
    return end;
}

uint8_t *memory_vast_plain(enum part part, size_t len)
{
    static uint8_t *ends[PARTS];
    if (!ends[part])
        ends[part] = vast_end(part);
    return ends[part] - len;
}

static uint8_t *vast_lent(enum part part, size_t len)
{
    if (!regions[part].vast_high)
        regions[part].vast_high = vast_end(part);
    regions[part].before = regions[part].after = NULL;
    return regions[part].vast_high - len;
}

uint8_t *memory_lend(enum part part, enum place place, size_t len)
{
    if (len > REGION)
        return vast_lent(part, len);
    uint8_t *low = regions[part].low, *high = regions[part].high, *at = place == AT_START ? low : high - len;
    if (place == AT_ODD && len + 3 * CANARY <= REGION)
        at = low + CANARY + 1 + 2 * part;
    regions[part].before = at - low >= CANARY ? at - CANARY : NULL;
    regions[part].after = high - at - (ptrdiff_t)len >= CANARY ? at + len : NULL;
    if (regions[part].before)
        memcpy(regions[part].before, canary, CANARY);
    if (regions[part].after)
        memcpy(regions[part].after, canary, CANARY);
    return at;
}

bool memory_canary_stands(enum part part)
{
    const uint8_t *before = regions[part].before, *after = regions[part].after;
    return (!before || !memcmp(before, canary, CANARY)) && (!after || !memcmp(after, canary, CANARY));
}
