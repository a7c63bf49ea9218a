/* cases.c: states, images and samples to begin with. */
#include "cases.h"

#include "both.h"
#include "check.h"
#include "random.h"

#include <string.h>

uint8_t *record_of(uint8_t *state, unsigned port)
{
    return state + RECORDS_AT + (port == RECORDER ? RECORD_LEN : 0);
}

void set_configuration(uint8_t *state, unsigned configuration)
{
    state[FLAT_AT] = (uint8_t)((state[FLAT_AT] & 0xfbu) | (configuration & 1) << 2);
    state[PAGES_AT] = (uint8_t)((state[PAGES_AT] & 0x3f) | (configuration >> 1 & 3) << 6);
}

bool is_supported(const uint8_t *state, unsigned page)
{
    bool paged = !(state[FLAT_AT] & 4);
    return page == 0 || (paged && (page == 3 || (page == 1 && state[PAGES_AT] & 0x40) || (page == 2 && state[PAGES_AT] & 0x80)));
}

void make_sound(uint8_t *state, unsigned port, unsigned page)
{
    uint8_t *record = record_of(state, port);
    record[3] &= 0xf0;
    record[4] &= 0xf0;
    record[5] = 0;
    record[15] &= 0xf0;
    record[16] &= 0xf0;
    if (!is_supported(state, record[SELECTED]))
        record[SELECTED] = is_supported(state, page) ? (uint8_t)page : 0;
}

void make_unsound(uint8_t *state, unsigned port, unsigned way)
{
    static const uint8_t places[UNSOUND - 2] = { 5, 3, 4, 15, 16 };
    uint8_t *record = record_of(state, port);
    if (way < COUNT(places))
        record[places[way]] |= (uint8_t)(1 << random_below(4));
    else
        record[SELECTED] = way == COUNT(places) ? 4 : 1;
}

void set_codes(uint8_t *page)
{
    page[63] = page[95] = 0;
    for (int i = 0; i < 63; i++)
        page[63] = (uint8_t)(page[63] + page[i]);
    for (int i = 64; i < 95; i++)
        page[95] = (uint8_t)(page[95] + page[i]);
}

void real_image(uint8_t *image)
{
    memcpy(image, options.image, IMAGE_LEN);
}

void random_image(uint8_t *image)
{
    random_fill(image, IMAGE_LEN);
    set_codes(image + PAGE_00_AT);
}

void random_state(uint8_t *state, unsigned operator_page, unsigned recorder_page)
{
    random_fill(state, STATE_LEN);
    set_configuration(state, 6);
    record_of(state, OPERATOR)[SELECTED] = (uint8_t)operator_page;
    record_of(state, RECORDER)[SELECTED] = (uint8_t)recorder_page;
    make_sound(state, OPERATOR, 0);
    make_sound(state, RECORDER, 0);
}

void real_state(uint8_t *state)
{
    uint8_t image[IMAGE_LEN];
    real_image(image);
    random_fill(state, STATE_LEN);
    begin(state);
    try_expecting(a_reset((struct bytes){ image, IMAGE_LEN }), 0);
    memcpy(state, both_state(), STATE_LEN);
}

unsigned number_place(unsigned number)
{
    return number == 0 ? 22 : number == 1 ? 26 : 34 + 2 * (number - 2);
}

unsigned limits_place(unsigned quantity)
{
    static const uint8_t address[] = { 128, 144, 176, 184, 192 };
    return PAGE_03_AT + address[quantity] - 128u;
}

unsigned quantity_of(unsigned number)
{
    return number < 2 ? number : 2 + (number - 2) / 4;
}

void put_number(uint8_t *at, unsigned value)
{
    at[0] = (uint8_t)(value >> 8);
    at[1] = (uint8_t)value;
}

unsigned number_at(const uint8_t *at)
{
    return (unsigned)at[0] << 8 | at[1];
}
