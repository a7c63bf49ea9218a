/* generate.c: random calls. */
#include "generate.h"

#include "cases.h"
#include "check.h"
#include "random.h"

#include <string.h>

struct bytes of_length(const uint8_t *at, size_t right, size_t room, unsigned percent_wrong)
{
    if (!chance(percent_wrong))
        return (struct bytes){ at, right };
    const size_t wrong[] = { 0, right - 1, right + 1, random_below((unsigned)room + 1), 0 };
    unsigned i = random_below(COUNT(wrong));
    return (struct bytes){ i == 4 ? NULL : at, wrong[i] };
}

uint64_t any_number(void)
{
    uint64_t number = random_size();
    return chance(50) ? number : -number;
}

/* A number, or one of the next. */
static uint64_t beside(uint64_t number, unsigned more)
{
    return number + random_below(more);
}

void some_image(uint8_t *image)
{
    if (chance(30))
        random_fill(image, IMAGE_LEN);
    else
        real_image(image);
    for (unsigned i = chance(50) ? random_below(20) : 0; i; i--) {
        unsigned at = random_below(IMAGE_LEN);
        image[at] = (uint8_t)random_number();
    }
    set_configuration(image, chance(60) ? 6 : random_below(CONFIGURATIONS));
    if (chance(30))
        image[OFFERED_AT] ^= 4;
    set_codes(image + PAGE_00_AT);
}

struct bytes some_beginning(void)
{
    static uint8_t state[2 * STATE_LEN];
    random_fill(state, sizeof state);
    if (chance(60))
        some_image(state);
    if (chance(40))
        memset(state + RECORDS_AT, 0, 2 * RECORD_LEN);
    if (chance(25))
        set_configuration(state, random_below(CONFIGURATIONS));
    for (unsigned port = OPERATOR; port <= RECORDER; port++) {
        if (chance(97))
            make_sound(state, port, random_below(4));
        if (chance(4))
            make_unsound(state, port, random_below(UNSOUND));
    }
    return of_length(state, STATE_LEN, sizeof state, 4);
}

struct call some_reset(void)
{
    static uint8_t image[2 * IMAGE_LEN];
    some_image(image);
    if (chance(15)) {
        unsigned at = chance(50) ? 191 : 223;
        image[at] ^= (uint8_t)(1 << random_below(8));
    }
    return a_reset(of_length(image, IMAGE_LEN, sizeof image, 10));
}

struct call some_sample(const uint8_t *state)
{
    static uint8_t sample[3 * SAMPLE_LEN];
    for (unsigned i = 0; i < 3; i++)
        sample[i] = (uint8_t)(chance(50) ? 0 : random_number() & random_number());
    for (unsigned number = 0; number < NUMBERS; number++) {
        unsigned value = (unsigned)random_number();
        if (state && chance(85)) {
            value = number_at(state + limits_place(quantity_of(number)) + 2 * random_below(4)) - 1;
            value += random_below(3);
        }
        put_number(sample + 3 + 2 * number, value);
    }
    return a_sample(of_length(sample, SAMPLE_LEN, sizeof sample, 4));
}

uint64_t some_port(void)
{
    return chance(97) ? OPERATOR + random_below(2) : chance(50) ? 3 * random_below(2) : any_number();
}

/* Runs over flag bytes, byte 2, masks, 127 and 128, the shared and the masked part of page 03h, or anywhere. */
struct call some_read(uint64_t port)
{
    static const struct { uint8_t address, more, count; } likely[] = {
        { 0, 15, 16 }, { 0, 15, 16 }, { 2, 1, 1 }, { 3, 12, 1 }, { 98, 8, 8 }, { 110, 18, 128 }, { 84, 16, 16 }, { 230, 20, 14 },
        { 128, 1, 128 }, { 0, 1, 128 }, { 128, 100, 30 }, { 0, 255, 60 },
    };
    unsigned i = random_below(COUNT(likely));
    uint64_t address = likely[i].address + random_below(likely[i].more), count = 1 + random_below(likely[i].count);
    if (chance(30) && address < 256)
        count = 256 - address < 128 ? 256 - address : 128;
    if (chance(3))
        count = chance(50) ? beside(128 * random_below(3), 2) : any_number();
    if (chance(2))
        address = chance(50) ? 250 + random_below(10) : any_number();
    size_t len = count > 1000 ? random_below(300) : (size_t)count;
    if (chance(25))
        len += random_below(20);
    else if (chance(5))
        len = random_below((unsigned)len + 1);
    struct call call = a_read(port, address, count, len);
    call.out_null = !len && chance(50);
    return call;
}

/* What an operator writes, or mostly what is the recorder's own. Page numbers are mostly good ones. */
struct call some_write(uint64_t port)
{
    static const uint8_t shared[] = { 86, 87, 88, 93, 98, 98, 234, 236, 239, 241 };
    static uint8_t data[16];
    uint64_t address = chance(40) ? 127 : chance(50) ? 100 + random_below(5) : 242 + random_below(6);
    size_t len = 1;
    if (address >= 242)
        len = 1 + random_below(248 - (unsigned)address < 4 ? 248 - (unsigned)address : 4);
    else if (address < 105)
        len = 1 + random_below(105 - (unsigned)address < 4 ? 105 - (unsigned)address : 4);
    if (port == RECORDER ? chance(8) : chance(50)) {
        address = chance(60) ? shared[random_below(COUNT(shared))] : random_below(256);
        len = 1 + random_below(4);
    }
    if (chance(4))
        len = random_below(7);
    if (chance(2))
        address = chance(50) ? beside(120 + 128 * random_below(2), 10) : any_number();
    random_fill(data, sizeof data);
    if (chance(30))
        memset(data, chance(50) ? 0 : 0xff, sizeof data);
    if (address <= 127 && address + len > 127 && chance(90))
        data[127 - address] = (uint8_t)random_below(4);
    return a_write(port, address, (struct bytes){ !len && chance(50) ? NULL : data, len });
}

static struct bytes some_page(const uint8_t *state, uint8_t *page)
{
    random_fill(page, 2 * PAGE_LEN);
    if (state && chance(60))
        memcpy(page, state + PAGE_00_AT, PAGE_LEN);
    for (unsigned i = random_below(3); i; i--) {
        unsigned at = random_below(PAGE_LEN), byte = chance(70) ? 0x20 : 0;
        memset(page + at, (int)byte, random_below(16));
    }
    if (chance(70))
        set_codes(page);
    return of_length(page, PAGE_LEN, 2 * PAGE_LEN, 10);
}

struct call some_identity(const uint8_t *state)
{
    static uint8_t live[2 * PAGE_LEN], factory[2 * PAGE_LEN];
    struct bytes first = some_page(state, live), second = some_page(state, factory);
    return an_identity(first, second, chance(95) ? random_below(8) : any_number());
}

struct call some_call(const uint8_t *state)
{
    unsigned roll = random_below(100);
    if (roll < 5)
        return some_reset();
    if (roll < 28)
        return some_sample(state);
    if (roll < 58)
        return some_read(some_port());
    if (roll < 86)
        return some_write(some_port());
    if (roll < 90)
        return some_identity(state);
    if (roll < 96)
        return of_number(KIND, chance(95) ? random_below(16) : any_number());
    return of_number(LIMITS, chance(95) ? random_below(7) : any_number());
}
