/* identity.c: every field of a sound or damaged live page and a sound or damaged factory page, with runs of blanks and zeros. */
#include "cases.h"
#include "check.h"
#include "groups.h"
#include "random.h"

#include <string.h>

enum { FIELDS = 6, BLANK = 0x20 };

static const struct { uint8_t at, len; } fields[FIELDS + 1] = {
    { 0, 0 }, { 148 - 128, 16 }, { 165 - 128, 3 }, { 168 - 128, 16 }, { 184 - 128, 2 }, { 196 - 128, 16 }, { 212 - 128, 8 },
};

/* A page and one byte more, in which no field has a blank. */
static void sound_page(uint8_t *page)
{
    random_fill(page, PAGE_LEN + 1);
    for (int i = 0; i < PAGE_LEN; i++)
        page[i] |= 0x80;
    set_codes(page);
}

/* Makes a sound page one of eight that are sound or not. */
enum { DAMAGES = 8 };
static struct bytes damaged(uint8_t *page, unsigned damage)
{
    if (damage & 1 && damage < 4)
        page[63]++;
    if (damage & 2 && damage < 4)
        page[95]++;
    static const size_t len[DAMAGES] = { 128, 128, 128, 128, 127, 129, 0, 0 };
    return (struct bytes){ damage == 7 ? NULL : page, len[damage] };
}

/* The state has nothing to do with it: a case is one call. */
static void look(struct bytes live, struct bytes factory, uint64_t field)
{
    begin_with((struct bytes){ NULL, 0 });
    try(an_identity(live, factory, field));
}

static void each_soundness(void)
{
    uint8_t live[PAGE_LEN + 1], factory[PAGE_LEN + 1];
    for (unsigned i = 0; i < DAMAGES * DAMAGES; i++)
        for (uint64_t field = 0; field <= FIELDS + 1; field++) {
            sound_page(live);
            sound_page(factory);
            struct bytes first = damaged(live, i / DAMAGES), second = damaged(factory, i % DAMAGES);
            look(first, second, field);
        }
}

/* Looks for the field in the live page, and in the factory's with a live page that isn't sound. */
static void in_both(uint8_t *page, uint64_t field)
{
    uint8_t other[PAGE_LEN + 1];
    set_codes(page);
    sound_page(other);
    look((struct bytes){ page, PAGE_LEN }, (struct bytes){ other, PAGE_LEN }, field);
    other[63]++;
    look((struct bytes){ other, PAGE_LEN }, (struct bytes){ page, PAGE_LEN }, field);
}

/* A field that ends in `first` bytes of one kind and then `last` of the other, for all such numbers; then any byte at its end. */
static void each_run(uint64_t field)
{
    uint8_t page[PAGE_LEN + 1], *at = page + fields[field].at, *end = at + fields[field].len;
    for (unsigned len = fields[field].len, first = 0; first <= len; first++)
        for (unsigned last = 0; first + last <= len; last++)
            for (int order = 0; order <= 1; order++) {
                sound_page(page);
                memset(end - first - last, order ? BLANK : 0, first);
                memset(end - last, order ? 0 : BLANK, last);
                in_both(page, field);
            }
    for (unsigned value = 0; value <= 255; value++)
        for (int blanks = 0; blanks <= 1; blanks++) {
            sound_page(page);
            if (blanks)
                memset(at, BLANK, fields[field].len);
            end[-1] = (uint8_t)value;
            in_both(page, field);
            end[0] = BLANK;
            in_both(page, field);
        }
}

/* Every byte of a page at every value: in the live page, in the factory's, and in both. */
static void each_byte(unsigned place, uint64_t field)
{
    uint8_t live[PAGE_LEN + 1], factory[PAGE_LEN + 1];
    sound_page(live);
    sound_page(factory);
    for (unsigned value = 0; value <= 255; value++) {
        uint8_t one[PAGE_LEN], two[PAGE_LEN];
        memcpy(one, live, PAGE_LEN);
        memcpy(two, factory, PAGE_LEN);
        one[place] = (uint8_t)value;
        look((struct bytes){ one, PAGE_LEN }, (struct bytes){ factory, PAGE_LEN }, field);
        two[place] = (uint8_t)value;
        look((struct bytes){ one, PAGE_LEN }, (struct bytes){ two, PAGE_LEN }, field);
        one[place] = live[place];
        one[63]++;
        look((struct bytes){ one, PAGE_LEN }, (struct bytes){ two, PAGE_LEN }, field);
    }
}

void group_identity(void)
{
    random_seed(options.seed);
    each_soundness();
    for (uint64_t field = 1; field <= FIELDS; field++) {
        each_run(field);
        for (unsigned place = 0; place < PAGE_LEN; place++)
            each_byte(place, field);
    }
}
