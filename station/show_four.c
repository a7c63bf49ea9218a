/* show_four.c: document 01's module: asks for its identity, monitors and limits; one of the forms prints them. */
#include "say.h"
#include "show.h"

static void ask_identity(struct shown *shown, const uint8_t *image)
{
    struct shown_identity *identity = &shown->identity;
    const uint8_t *live = shown->state.bytes + ZIKHRODAN_PAGE_00_AT, *factory = image + ZIKHRODAN_PAGE_00_AT;

    identity->codes = ask_codes(live);
    for (unsigned field = ZIKHRODAN_VENDOR_NAME; field < FIELDS; field++) {
        uint32_t answer = zikhrodan_identity(live, ZIKHRODAN_PAGE_LEN, factory, ZIKHRODAN_PAGE_LEN, field);
        identity->refusal = zikhrodan_refusal_of(answer);
        identity->page = zikhrodan_identity_page(answer);
        identity->fields[field].bytes = (identity->page == ZIKHRODAN_FACTORY ? factory : live) + zikhrodan_identity_start(answer);
        identity->fields[field].len = zikhrodan_identity_length(answer);
    }
}

static void ask_limits(struct shown *shown)
{
    for (unsigned i = 0; i < QUANTITIES * LIMITS; i++)
        shown->limits[i / LIMITS][i % LIMITS] = zikhrodan_limit(shown->state.bytes, shown->state.len, i / LIMITS, i % LIMITS);
}

static void ask_monitors(struct shown *shown)
{
    const struct state *state = &shown->state;

    for (unsigned m = 0; m < MONITORS; m++) {
        shown->kinds[m] = zikhrodan_kind_of(zikhrodan_monitor_kind(state->bytes, state->len, m));
        shown->values[m] = zikhrodan_monitor_value(state->bytes, state->len, m);
    }
    ask_outside(state, shown->outside);
    for (unsigned i = 0; i < 8 * FLAG_BYTES; i++) {
        struct flag flag = flag_at(FLAGS_AT + i / 8, i % 8);
        if (flag.of && flag.monitor < MONITORS && shown->kinds[flag.monitor] == ZIKHRODAN_NOTHING)
            shown->outside[i / 8] &= (uint8_t)~(1u << i % 8);
    }
}

/* A factory image, judged by a reset of a copy: its length has to be right; wrong check codes are the identity's matter. */
static int load_factory(const struct shown *shown, const char *name, uint8_t image[IMAGE_ROOM])
{
    struct state copy = shown->state;
    size_t len;
    int status = image_load(name, image, &len);

    if (status != DONE)
        return status;
    uint32_t refusal = zikhrodan_refusal_of(zikhrodan_reset(copy.bytes, copy.len, image, len));
    return refusal == ZIKHRODAN_IMAGE_SIZE ? refused(refusal, zikhrodan_words(refusal), "%s", name) : DONE;
}

/* The forms that show more than bytes and flags. */
static void show_more(struct shown *shown, const uint8_t *image, const struct wanted *wanted)
{
    ask_identity(shown, image);
    ask_monitors(shown);
    ask_limits(shown);
    if (wanted->json)
        show_json(shown);
    else
        show_text(shown, which_flags(wanted));
}

int show_four(struct shown *shown, const struct wanted *wanted)
{
    static uint8_t image[IMAGE_ROOM];
    int status = load_factory(shown, wanted->factory, image);

    if (status != DONE)
        return status;
    shown->identity.image = wanted->factory ? wanted->factory : "the built-in image";
    if (wanted->hex)
        show_hex(shown, wanted->port != NULL);
    else if (wanted->raised)
        show_flags(shown, RAISED_FLAGS);
    else
        show_more(shown, image, wanted);
    return DONE;
}
