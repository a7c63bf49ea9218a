/* reset.c: zikhrodan reset. */
#include "command.h"
#include "state.h"
#include "why.h"
#include "words.h"

#include <stdio.h>

/* Resets the state to an image; an eight-channel module has none. Gives the exit status, with a refusal said. */
static int reset_to(struct state *state, const char *name, const uint8_t *image, size_t image_len)
{
    bool eight = state->kind == &EIGHT;
    uint32_t answer = eight ? zikhrodan_dd_reset(state->bytes, state->len)
                            : zikhrodan_reset(state->bytes, state->len, image, image_len);
    uint32_t refusal = zikhrodan_refusal_of(answer);

    if (refusal != ZIKHRODAN_ACCEPTED)
        return refused(refusal, eight ? EIGHT.words(refusal) : why_image(refusal, image, image_len), "%s",
                       refusal == ZIKHRODAN_STATE_SIZE || !name ? state->name : name);
    return state_save(state);
}

static int reset(int given, char **words)
{
    bool eight = false;
    const struct option options[] = {{.name = "--eight", .flag = &eight}, {0}};
    struct state state;
    uint8_t image[IMAGE_ROOM];
    size_t image_len;

    if (!words_in(&given, words, options, &RESET, 1, 2))
        return USAGE_OR_FILE;
    const char *name = given == 2 ? words[1] : NULL;
    if (eight && name)
        return fail("'%s' is a word too many: an eight-channel module has no factory image", name);
    int status = image_load(name, image, &image_len);
    if (status != DONE || (status = state_open(&state, words[0], eight ? &EIGHT : &FOUR, IS_ZEROS)) != DONE)
        return status;
    status = reset_to(&state, name, image, image_len);
    state_close(&state);
    if (status == DONE && eight)
        printf("%s is reset, an eight-channel module\n", words[0]);
    else if (status == DONE)
        printf("%s is reset to %s\n", words[0], name ? name : "the built-in factory image");
    return status;
}

const struct command RESET = {
    .name = "reset",
    .usage = "STATE [IMAGE | --eight]",
    .brief = "a module as a factory image has it",
    .help = "Resets the module to a factory image of 640 bytes, or to the one that is built\n"
            "in. Page 02h keeps its bytes. Where there is no file STATE, it is made, and\n"
            "begins as 688 zeros.\n\n"
            "  --eight    an eight-channel module, with the flags and masks of QSFP-DD\n"
            "             revision 2.0, whose state is 98 bytes: no flag, mask or pending bit\n"
            "             stands after it. It has no image",
    .examples = "    $ zikhrodan reset second.state\n"
                "    second.state is reset to the built-in factory image\n"
                "    $ zikhrodan reset second.state trial/factory.image\n"
                "    second.state is reset to trial/factory.image\n"
                "    $ zikhrodan reset second.state trial/day.rows\n"
                "    zikhrodan: trial/day.rows: refused 9, the factory image isn't 640 bytes\n"
                "    [exit status 1]\n"
                "    $ zikhrodan reset --eight eight.state\n"
                "    eight.state is reset, an eight-channel module\n"
                "    $ zikhrodan reset --eight second.state\n"
                "    zikhrodan: second.state: refused 1, the state isn't 98 bytes\n"
                "    [exit status 1]\n",
    .run = reset,
};
