/* kind.c: see kind.h. */
#include "kind.h"

static const struct masks FOUR_MASKS[] = {
    {0, ZIKHRODAN_REG_LOS_MASKS, 5, FLAGS_AT}, {3, ZIKHRODAN_REG_RX_POWER_12_MASKS, 6, ZIKHRODAN_REG_RX_POWER_12_FLAGS}, {0},
};
static const struct masks EIGHT_MASKS[] = {{0, ZIKHRODAN_DD_RX_LOS_MASK, ZIKHRODAN_DD_FLAG_BYTES, FLAGS_AT}, {0}};

const struct kind FOUR = {
    .aside = "",
    .counted = "",
    .channels = 4,
    .cell = 16,
    .state_len = ZIKHRODAN_STATE_LEN,
    .sample_len = ZIKHRODAN_SAMPLE_LEN,
    .flag_bytes = FLAG_BYTES,
    .flags_at = ZIKHRODAN_OPERATOR_AT + ZIKHRODAN_FLAGS_IN,
    .pending_at = ZIKHRODAN_OPERATOR_AT + ZIKHRODAN_FLAGS_IN,
    .record_len = ZIKHRODAN_RECORD_LEN,
    .masks = FOUR_MASKS,
    .pages = true,
    .sample = zikhrodan_sample,
    .read = zikhrodan_read,
    .write = zikhrodan_write,
    .words = zikhrodan_words,
    .flag_at = flag_at,
};

const struct kind EIGHT = {
    .aside = " (eight channels)",
    .counted = "pending ",
    .channels = 8,
    .cell = 25,
    .state_len = ZIKHRODAN_DD_STATE_LEN,
    .sample_len = ZIKHRODAN_DD_SAMPLE_LEN,
    .flag_bytes = ZIKHRODAN_DD_FLAG_BYTES,
    .flags_at = ZIKHRODAN_DD_OPERATOR_AT + ZIKHRODAN_DD_FLAGS_IN,
    .pending_at = ZIKHRODAN_DD_OPERATOR_AT + ZIKHRODAN_DD_PENDING_IN,
    .record_len = ZIKHRODAN_DD_RECORD_LEN,
    .masks = EIGHT_MASKS,
    .sample = zikhrodan_dd_sample,
    .read = zikhrodan_dd_read,
    .write = zikhrodan_dd_write,
    .words = zikhrodan_dd_words,
    .flag_at = eight_flag_at,
};

const struct kind *kind_of(size_t state_len)
{
    return state_len == FOUR.state_len ? &FOUR : state_len == EIGHT.state_len ? &EIGHT : NULL;
}

struct place place_shown(const struct kind *kind, unsigned number)
{
    unsigned byte = FLAGS_AT + number / 8, bit = number % 8;

    return (struct place){byte, kind->flag_at(byte, 0).channel == 1 ? bit : 7 - bit};
}

unsigned channels_of(const struct kind *kind, struct flag flag, struct place places[MOST_CHANNELS])
{
    unsigned found = 0;

    for (unsigned i = 0; i < 8 * kind->flag_bytes; i++) {
        struct flag other = kind->flag_at(FLAGS_AT + i / 8, i % 8);
        if (other.of != flag.of || other.limit != flag.limit)
            continue;
        places[other.channel ? other.channel - 1 : 0] = (struct place){FLAGS_AT + i / 8, i % 8};
        found++;
    }
    return found;
}
