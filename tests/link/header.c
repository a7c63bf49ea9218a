/* header.c: what zikhrodan.h names and takes apart, compiled as C and as C++. It is compared with the papers' numbers.
 *
 * Prints a line for each check that fails, and 'N passed, M failed'; exit status 1 if M > 0. */
#include "check.h"

#include <string.h>
#include <zikhrodan.h>

/* Each refusal has words of its own, and no other number has; 16 is none. */
static void words(void)
{
    const char *unknown = zikhrodan_words(16);
    for (uint32_t n = 0; n <= 17; n++)
        for (uint32_t other = 0; other < n; other++)
            check("two refusals have different words", strcmp(zikhrodan_words(n), zikhrodan_words(other)) != 0);
    for (uint32_t n = 0; n <= 17; n++)
        check("a refusal has words", strlen(zikhrodan_words(n)) > 0 && (strcmp(zikhrodan_words(n), unknown) != 0) == (n != 16));
    check("18 is no refusal", strcmp(zikhrodan_words(18), unknown) == 0);
    check("255 is no refusal", strcmp(zikhrodan_words(255), unknown) == 0);
    check("2^32 - 1 is no refusal", strcmp(zikhrodan_words(0xffffffff), unknown) == 0);
    check("7 is the recorder's", strstr(zikhrodan_words(7), "recorder") != NULL);
    check("14 is for want of a block", strstr(zikhrodan_words(14), "new block") != NULL);
    check("15 is the log's", strstr(zikhrodan_words(15), "log") != NULL);
    check("17 is the position's", strstr(zikhrodan_words(17), "position") != NULL);
}

/* An answer with another number in each of its four bytes. */
static void parts(void)
{
    uint32_t answer = 0x0a0b010d;
    check("refusal", zikhrodan_refusal_of(answer) == 13);
    check("count", zikhrodan_count(answer) == 1);
    check("operator's count", zikhrodan_operator_count(answer) == 1);
    check("recorder's count", zikhrodan_recorder_count(answer) == 11);
    check("page", zikhrodan_identity_page(answer) == ZIKHRODAN_LIVE);
    check("start", zikhrodan_identity_start(answer) == 11);
    check("length", zikhrodan_identity_length(answer) == 10);
    check("kind", zikhrodan_kind_of(answer) == ZIKHRODAN_DEGREES);
}

/* An answer of the log's calls with all its bits used, and two of one part alone. */
static void parts_of_log(void)
{
    const uint64_t answer = UINT64_C(0xf0e0d0c0b0a09011);
    check("refusal of the log", zikhrodan_log_refusal(answer) == ZIKHRODAN_NO_SUCH_SAMPLE);
    check("value", zikhrodan_log_value(answer) == UINT64_C(0xf0e0d0c0b0a090));
    check("refused", zikhrodan_log_refusal(14) == ZIKHRODAN_LOG_FULL && zikhrodan_log_value(14) == 0);
    check("accepted", zikhrodan_log_refusal(256) == ZIKHRODAN_ACCEPTED && zikhrodan_log_value(256) == 1);
}

/* The names against what the library answers to them. */
static void names(void)
{
    uint8_t state[ZIKHRODAN_STATE_LEN] = {0}, image[ZIKHRODAN_IMAGE_LEN] = {0}, out[ZIKHRODAN_READ_MAX + 1] = {0};
    uint8_t sample[ZIKHRODAN_SAMPLE_LEN + 1] = {0};
    const uint8_t *live = state + ZIKHRODAN_PAGE_00_AT, *factory = image + ZIKHRODAN_PAGE_00_AT;
    const size_t page = ZIKHRODAN_PAGE_LEN;

    check("sizes", zikhrodan_reset(state, sizeof state, image, sizeof image) == ZIKHRODAN_ACCEPTED);
    check("1", zikhrodan_reset(state, sizeof state - 1, image, sizeof image) == ZIKHRODAN_STATE_SIZE);
    check("9", zikhrodan_reset(state, sizeof state, image, sizeof image - 1) == ZIKHRODAN_IMAGE_SIZE);
    check("sample", zikhrodan_sample(state, sizeof state, sample, ZIKHRODAN_SAMPLE_LEN) == ZIKHRODAN_ACCEPTED);
    check("8", zikhrodan_sample(state, sizeof state, sample, sizeof sample) == ZIKHRODAN_SAMPLE_SIZE);
    check("2", zikhrodan_read(state, sizeof state, ZIKHRODAN_RECORDER + 1, 0, 1, out, sizeof out) == ZIKHRODAN_NO_SUCH_PORT);
    check("read", zikhrodan_read(state, sizeof state, ZIKHRODAN_OPERATOR, 0, ZIKHRODAN_READ_MAX, out, sizeof out) == 0);
    check("4", zikhrodan_read(state, sizeof state, ZIKHRODAN_OPERATOR, 0, ZIKHRODAN_READ_MAX + 1, out, sizeof out) == ZIKHRODAN_TRANSFER_SIZE);
    check("5", zikhrodan_read(state, sizeof state, ZIKHRODAN_OPERATOR, 255, 2, out, sizeof out) == ZIKHRODAN_RANGE);
    check("6", zikhrodan_read(state, sizeof state, ZIKHRODAN_OPERATOR, 0, 2, out, 1) == ZIKHRODAN_OUTPUT_SHORT);
    check("write", zikhrodan_write(state, sizeof state, ZIKHRODAN_OPERATOR, 86, out, ZIKHRODAN_WRITE_MAX) == 0);
    check("7", zikhrodan_write(state, sizeof state, ZIKHRODAN_RECORDER, 86, out, 1) == ZIKHRODAN_NOT_ITS_OWN);
    check("12", zikhrodan_identity(live, page, factory, page, ZIKHRODAN_DATE_CODE + 1) == ZIKHRODAN_NO_SUCH_FIELD);
    check("11", zikhrodan_identity(live, 0, factory, 0, ZIKHRODAN_VENDOR_NAME) == ZIKHRODAN_NO_SOUND_PAGE);
    check("live", zikhrodan_identity_page(zikhrodan_identity(live, page, factory, page, ZIKHRODAN_VENDOR_OUI)) == ZIKHRODAN_LIVE);
    check("factory", zikhrodan_identity_page(zikhrodan_identity(live, 0, factory, page, ZIKHRODAN_VENDOR_OUI)) == ZIKHRODAN_FACTORY);
    check("13", zikhrodan_monitor_kind(state, sizeof state, ZIKHRODAN_TX_POWER_1 + 4) == ZIKHRODAN_NO_SUCH_MONITOR);
    check("volts", zikhrodan_kind_of(zikhrodan_monitor_kind(state, sizeof state, ZIKHRODAN_SUPPLY)) == ZIKHRODAN_VOLTS);
    check("milliwatts", zikhrodan_kind_of(zikhrodan_monitor_kind(state, sizeof state, ZIKHRODAN_RX_POWER_1)) == ZIKHRODAN_MILLIWATTS);
    check("milliamperes", zikhrodan_kind_of(zikhrodan_monitor_kind(state, sizeof state, ZIKHRODAN_TX_BIAS_1)) == ZIKHRODAN_MILLIAMPERES);
    check("nothing", zikhrodan_kind_of(zikhrodan_monitor_kind(state, sizeof state, ZIKHRODAN_TX_POWER_1)) == ZIKHRODAN_NOTHING);
    check("limits", zikhrodan_limits_refusal(state, sizeof state, ZIKHRODAN_OF_TX_POWER) == ZIKHRODAN_ACCEPTED);
    check("no limits", zikhrodan_limits_refusal(state, sizeof state, ZIKHRODAN_OF_TX_POWER + 1) == ZIKHRODAN_NO_SUCH_MONITOR);
    image[512 + 192 - 128 + 2 * ZIKHRODAN_LOW_WARNING] = 0x27; /* 2710h is 10000, 1 milliwatt */
    image[512 + 192 - 128 + 2 * ZIKHRODAN_LOW_WARNING + 1] = 0x10;
    check("reset", zikhrodan_reset(state, sizeof state, image, sizeof image) == ZIKHRODAN_ACCEPTED);
    check("limit", zikhrodan_limit(state, sizeof state, ZIKHRODAN_OF_TX_POWER, ZIKHRODAN_LOW_WARNING) == 1.0);
    image[191] = 1;
    check("10", zikhrodan_reset(state, sizeof state, image, sizeof image) == ZIKHRODAN_CHECK_CODE);
    state[640 + 5] = 1;
    check("3", zikhrodan_sample(state, sizeof state, sample, ZIKHRODAN_SAMPLE_LEN) == ZIKHRODAN_UNSOUND_RECORD);
}

/* The log's names likewise: two blocks of memory, filled. The last sample has bit 18, which no other has. */
static void names_of_log(void)
{
    uint8_t none[ZIKHRODAN_BLOCK_LEN] = {0, 0, 0, 1}, sample[ZIKHRODAN_SAMPLE_LEN + 1] = {1, 2, 3};
    uint8_t log[2 * ZIKHRODAN_BLOCK_LEN] = {0};
    uint64_t used = 0, start;

    none[504] = 1;
    none[511] = 2;
    used = zikhrodan_log_value(zikhrodan_log_power_up(log, sizeof log, used));
    check("power-up", used == 1 && memcmp(log, none, sizeof none) == 0);
    for (unsigned n = 0; n <= ZIKHRODAN_BLOCK_SAMPLES; n++) {
        sample[2] = n == ZIKHRODAN_BLOCK_SAMPLES ? 7 : 3;
        used = zikhrodan_log_value(zikhrodan_log_add(log, sizeof log, used, sample, ZIKHRODAN_SAMPLE_LEN));
    }
    check("add", used == 2 && log[4] == ZIKHRODAN_BLOCK_SAMPLES && log[ZIKHRODAN_BLOCK_LEN + 4] == 1);
    start = zikhrodan_log_value(zikhrodan_log_sample(log, sizeof log, used, ZIKHRODAN_BLOCK_SAMPLES));
    check("a position", start == ZIKHRODAN_BLOCK_LEN + 5 && memcmp(log + start, sample, ZIKHRODAN_SAMPLE_LEN) == 0);
    check("17", zikhrodan_log_sample(log, sizeof log, used, ZIKHRODAN_BLOCK_SAMPLES + 1) == ZIKHRODAN_NO_SUCH_SAMPLE);
    check("14", zikhrodan_log_power_up(log, sizeof log, used) == ZIKHRODAN_LOG_FULL);
    check("8, of the log", zikhrodan_log_add(log, sizeof log, used, sample, sizeof sample) == ZIKHRODAN_SAMPLE_SIZE);
    check("15", zikhrodan_log_add(log, sizeof log - 1, used, sample, ZIKHRODAN_SAMPLE_LEN) == ZIKHRODAN_UNSOUND_LOG);
    check("no log", zikhrodan_log_sample(NULL, 0, 0, 0) == ZIKHRODAN_NO_SUCH_SAMPLE);
    check("first", zikhrodan_log_value(zikhrodan_log_first(log, sizeof log, used, 0)) == 1);
    check("first of all in the last", zikhrodan_log_first(log, sizeof log, used, 18) >> 8 == ZIKHRODAN_BLOCK_SAMPLES + 1);
    check("none", zikhrodan_log_first(log, sizeof log, used, 23) == ZIKHRODAN_ACCEPTED);
    check("17, of a bit", zikhrodan_log_first(log, sizeof log, used, 24) == ZIKHRODAN_NO_SUCH_SAMPLE);
    check("15, of the question", zikhrodan_log_first(log, sizeof log, used + 1, 24) == ZIKHRODAN_UNSOUND_LOG);
    check("none in no log", zikhrodan_log_first(NULL, 0, 0, 0) == ZIKHRODAN_ACCEPTED);
}

/* Whether the log's end, from one of its used blocks on, takes each call as the whole does. */
static int same_in_the_end(const uint8_t *whole, size_t len, uint64_t used, uint64_t out, const uint8_t *sample)
{
    uint8_t all[5 * ZIKHRODAN_BLOCK_LEN], end[5 * ZIKHRODAN_BLOCK_LEN];
    const size_t at = (size_t)out * ZIKHRODAN_BLOCK_LEN;
    int same = 1;

    for (int adds = 0; adds <= 1; adds++) {
        memcpy(all, whole, len);
        memcpy(end, whole, len);
        uint64_t right = adds ? zikhrodan_log_add(all, len, used, sample, ZIKHRODAN_SAMPLE_LEN) : zikhrodan_log_power_up(all, len, used);
        uint64_t answer = adds ? zikhrodan_log_add(end + at, len - at, used - out, sample, ZIKHRODAN_SAMPLE_LEN)
                               : zikhrodan_log_power_up(end + at, len - at, used - out);
        same &= zikhrodan_log_refusal(answer) == zikhrodan_log_refusal(right) && memcmp(all, end, len) == 0;
        if (zikhrodan_log_refusal(answer) == ZIKHRODAN_ACCEPTED)
            same &= out + zikhrodan_log_value(answer) == zikhrodan_log_value(right);
    }
    return same;
}

/* The header's way to add without the walk, until the memory is full, with a power-up on the way; beside it each other end. */
static void end_of_log(void)
{
    uint8_t log[5 * ZIKHRODAN_BLOCK_LEN], sample[ZIKHRODAN_SAMPLE_LEN] = {0};
    const size_t log_len = sizeof log;
    uint64_t used = 0, left;
    unsigned added = 0;

    memset(log, 0xa5, sizeof log);
    used = zikhrodan_log_value(zikhrodan_log_power_up(log, log_len, used));
    check("it is sound", zikhrodan_log_sample(log, log_len, used, UINT64_MAX) == ZIKHRODAN_NO_SUCH_SAMPLE);
    for (;; added++) {
        sample[0] = (uint8_t)added;
        for (left = 0; left < used; left++)
            check("an end takes what the whole takes", same_in_the_end(log, log_len, used, left, sample));

        size_t out = (size_t)used - 1, at = out * ZIKHRODAN_BLOCK_LEN;
        uint64_t answer = zikhrodan_log_add(log + at, log_len - at, used - out, sample, ZIKHRODAN_SAMPLE_LEN);
        if (zikhrodan_log_refusal(answer) == ZIKHRODAN_ACCEPTED)
            used = out + zikhrodan_log_value(answer);

        if (zikhrodan_log_refusal(answer) != ZIKHRODAN_ACCEPTED)
            break;
        if (added == 20)
            used = used - 1 + zikhrodan_log_value(zikhrodan_log_power_up(log + (used - 1) * ZIKHRODAN_BLOCK_LEN,
                                                                         log_len - (used - 1) * ZIKHRODAN_BLOCK_LEN, 1));
    }
    check("all are in it", used == 5 && added == 4 * ZIKHRODAN_BLOCK_SAMPLES + 5 &&
                               zikhrodan_log_sample(log, log_len, used, added) == ZIKHRODAN_NO_SUCH_SAMPLE &&
                               zikhrodan_log_refusal(zikhrodan_log_sample(log, log_len, used, added - 1)) == ZIKHRODAN_ACCEPTED);
    log[0] ^= 1;
    check("and a damaged one is seen", zikhrodan_log_sample(log, log_len, used, UINT64_MAX) == ZIKHRODAN_UNSOUND_LOG);
}

int main(void)
{
    words();
    parts();
    parts_of_log();
    names();
    names_of_log();
    end_of_log();
    return checked();
}
