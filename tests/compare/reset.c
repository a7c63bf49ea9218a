/* reset.c: every byte of the image varied, with check codes made right and left wrong; every byte of the old state. */
#include "cases.h"
#include "check.h"
#include "groups.h"
#include "random.h"

#include <string.h>

static void take(const uint8_t *state, const uint8_t *image)
{
    begin(state);
    try(a_reset((struct bytes){ image, IMAGE_LEN }));
}

/* All values of a byte that a check code covers or that is one; of any other its bits one by one. */
static void vary(const uint8_t *state, const uint8_t *image, unsigned place)
{
    uint8_t varied[IMAGE_LEN];
    bool covered = place >= PAGE_00_AT && place <= PAGE_00_AT + 95;
    for (unsigned i = 0; i < (covered ? 256 : 10); i++) {
        memcpy(varied, image, IMAGE_LEN);
        varied[place] = covered ? (uint8_t)i : i == 8 ? 0 : i == 9 ? 0xff : (uint8_t)(image[place] ^ 1 << i);
        take(state, varied);
        if (covered) {
            set_codes(varied + PAGE_00_AT);
            take(state, varied);
        }
    }
}

/* The old state differs from the image in every bit: so each byte that stays and each that comes shows. */
static void over_its_opposite(const uint8_t *image)
{
    uint8_t state[STATE_LEN];
    memset(state, 0xff, STATE_LEN);
    for (unsigned i = 0; i < IMAGE_LEN; i++)
        state[i] = (uint8_t)~image[i];
    take(state, image);
}

/* The old state's bytes one by one: with page 02h's alone kept. */
static void over_each_byte(const uint8_t *image)
{
    uint8_t state[STATE_LEN] = { 0 };
    for (unsigned place = 0; place < STATE_LEN; place++) {
        for (unsigned bit = 0; bit < 8; bit++) {
            state[place] = (uint8_t)(1 << bit);
            take(state, image);
        }
        state[place] = 0;
    }
}

void group_reset(void)
{
    uint8_t state[STATE_LEN], image[IMAGE_LEN];
    random_seed(options.seed);
    for (int real = 0; real <= 1; real++) {
        random_fill(state, STATE_LEN);
        if (real)
            real_image(image);
        else
            random_image(image);
        for (unsigned place = 0; place < IMAGE_LEN; place++)
            vary(state, image, place);
        for (unsigned configuration = 0; configuration < CONFIGURATIONS; configuration++) {
            set_configuration(image, configuration);
            set_codes(image + PAGE_00_AT);
            over_its_opposite(image);
        }
        over_each_byte(image);
    }
}
