/* refusals_rest.c: every set of refusals that can apply at once to a reset, an identity, a monitor and the limits. Here all sets
 * can exist. */
#include "refusals.h"

#include "cases.h"
#include "random.h"

static const uint16_t state_lengths[] = { 688, 0, 1, 687, 689, 1376 };
static unsigned state_set(size_t len)
{
    return len == 688 ? 0 : R(1);
}

/* An image that ends before its second check code has none to be wrong, but one that is too short by a byte has both. */
static void reset_sets(void)
{
    static const uint16_t lengths[] = { 640, 639, 641, 224, 700, 0 };
    uint8_t image[700];
    for (size_t s = 0; s < COUNT(state_lengths); s++)
        for (size_t i = 0; i < COUNT(lengths); i++)
            for (unsigned wrong = 0; wrong <= 3; wrong++) {
                size_t len = lengths[i];
                if (!len && wrong)
                    continue;
                random_fill(image, sizeof image);
                set_codes(image + PAGE_00_AT);
                image[191] = (uint8_t)(image[191] + (wrong & 1));
                image[223] = (uint8_t)(image[223] + (wrong >> 1));
                begin_unsound(state_lengths[s], wrong & 1, len == 640, (unsigned)i);
                try_set(a_reset((struct bytes){ image, len }),
                        state_set(state_lengths[s]) | (len == 640 ? 0 : R(9)) | (wrong ? R(10) : 0));
            }
    end_of_sets(R(1) | R(9) | R(10), NULL);
}

static const struct { uint64_t number; bool in_range_to_13, in_range_to_4; } numbers[] = {
    { 0, true, true }, { 4, true, true }, { 5, true, false }, { 13, true, false }, { 14, false, false }, { 256, false, false },
    { UINT32_MAX + UINT64_C(1), false, false }, { UINT64_MAX, false, false },
};

static void identity_sets(void)
{
    static const struct { uint64_t field; unsigned set; } fields[] = {
        { 1, 0 }, { 2, 0 }, { 6, 0 }, { 0, R(12) }, { 7, R(12) }, { 257, R(12) }, { UINT32_MAX + UINT64_C(2), R(12) },
        { UINT64_MAX, R(12) },
    };
    static const uint8_t lengths[] = { 128, 0, 127, 129 };
    uint8_t live[PAGE_LEN + 1], factory[PAGE_LEN + 1];
    for (size_t f = 0; f < COUNT(fields); f++)
        for (size_t i = 0; i < COUNT(lengths) * COUNT(lengths); i++)
            for (unsigned wrong = 0; wrong < 16; wrong++) {
                size_t live_len = lengths[i / COUNT(lengths)], factory_len = lengths[i % COUNT(lengths)];
                random_fill(live, sizeof live);
                random_fill(factory, sizeof factory);
                set_codes(live);
                set_codes(factory);
                live[63] ^= wrong & 1;
                live[95] ^= wrong >> 1 & 1;
                factory[63] ^= wrong >> 2 & 1;
                factory[95] ^= wrong >> 3 & 1;
                begin_unsound(STATE_LEN, false, false, 0);
                bool sound = (live_len == 128 && !(wrong & 3)) || (factory_len == 128 && !(wrong & 12));
                try_set(an_identity((struct bytes){ live, live_len }, (struct bytes){ factory, factory_len }, fields[f].field),
                        fields[f].set | (sound ? 0 : R(11)));
            }
    end_of_sets(R(11) | R(12), NULL);
}

static void number_sets(void)
{
    for (size_t s = 0; s < COUNT(state_lengths); s++)
        for (size_t i = 0; i < COUNT(numbers); i++) {
            unsigned set = state_set(state_lengths[s]) | (numbers[i].in_range_to_13 ? 0 : R(13));
            begin_unsound(state_lengths[s], i % 2, i % 3, (unsigned)i % UNSOUND);
            try_set(of_number(KIND, numbers[i].number), set);
            try_set_of_double(of_number(VALUE, numbers[i].number), set);
        }
    end_of_sets(R(1) | R(13), NULL);
    for (size_t s = 0; s < COUNT(state_lengths); s++)
        for (size_t i = 0; i < COUNT(numbers); i++) {
            unsigned set = state_set(state_lengths[s]) | (numbers[i].in_range_to_4 ? 0 : R(13));
            begin_unsound(state_lengths[s], i % 2, i % 3, (unsigned)i % UNSOUND);
            try_set(of_number(LIMITS, numbers[i].number), set);
            for (uint64_t which = 0; which <= 5; which++)
                try_set_of_double(a_limit(numbers[i].number, which), set);
        }
    end_of_sets(R(1) | R(13), NULL);
}

void refusals_of_the_rest(void)
{
    reset_sets();
    identity_sets();
    number_sets();
}
