/* eight.c: what zikhrodan.h names of the eight-channel module, compiled as C and as C++: each number against the tables of documents
 * 002 and 02 written out here, the words of each refusal, and a short history of both ports.
 *
 * Prints a line for each check that fails, and 'N passed, M failed'; exit status 1 if M > 0. */
#include "check.h"

#include <string.h>
#include <zikhrodan.h>

/* Each flag byte with its mask byte, by the names of Tables 18 and 27. */
static const struct {
    const char *what;
    enum zikhrodan_dd_flags flags;
    unsigned is_flags;
    enum zikhrodan_dd_masks masks;
    unsigned is_masks;
} BYTES[] = {
    {"Rx LOS", ZIKHRODAN_DD_RX_LOS, 3, ZIKHRODAN_DD_RX_LOS_MASK, 102},
    {"Tx LOS", ZIKHRODAN_DD_TX_LOS, 4, ZIKHRODAN_DD_TX_LOS_MASK, 103},
    {"Rx CDR LOL", ZIKHRODAN_DD_RX_CDR_LOL, 5, ZIKHRODAN_DD_RX_CDR_LOL_MASK, 104},
    {"Tx CDR LOL", ZIKHRODAN_DD_TX_CDR_LOL, 6, ZIKHRODAN_DD_TX_CDR_LOL_MASK, 105},
    {"Tx Fault", ZIKHRODAN_DD_TX_FAULT, 7, ZIKHRODAN_DD_TX_FAULT_MASK, 106},
    {"Temp", ZIKHRODAN_DD_TEMPERATURE, 8, ZIKHRODAN_DD_TEMPERATURE_MASK, 107},
    {"Vcc, TEC, Adaptation, State", ZIKHRODAN_DD_MODULE, 9, ZIKHRODAN_DD_MODULE_MASK, 108},
    {"Rx Power Low Warning", ZIKHRODAN_DD_RX_POWER_LOW_WARNING, 10, ZIKHRODAN_DD_RX_POWER_LOW_WARNING_MASK, 109},
    {"Rx Power Low Alarm", ZIKHRODAN_DD_RX_POWER_LOW_ALARM, 11, ZIKHRODAN_DD_RX_POWER_LOW_ALARM_MASK, 110},
    {"Rx Power High Alarm", ZIKHRODAN_DD_RX_POWER_HIGH_ALARM, 12, ZIKHRODAN_DD_RX_POWER_HIGH_ALARM_MASK, 111},
    {"Tx Bias Low Alarm", ZIKHRODAN_DD_TX_BIAS_LOW_ALARM, 13, ZIKHRODAN_DD_TX_BIAS_LOW_ALARM_MASK, 112},
    {"Tx Bias High Alarm", ZIKHRODAN_DD_TX_BIAS_HIGH_ALARM, 14, ZIKHRODAN_DD_TX_BIAS_HIGH_ALARM_MASK, 113},
    {"Tx Power Low Alarm", ZIKHRODAN_DD_TX_POWER_LOW_ALARM, 15, ZIKHRODAN_DD_TX_POWER_LOW_ALARM_MASK, 114},
    {"Tx Power High Alarm", ZIKHRODAN_DD_TX_POWER_HIGH_ALARM, 16, ZIKHRODAN_DD_TX_POWER_HIGH_ALARM_MASK, 115},
};

static const struct {
    const char *what;
    int number, is;
} NUMBERS[] = {
    {"state", ZIKHRODAN_DD_STATE_LEN, 98},
    {"sample", ZIKHRODAN_DD_SAMPLE_LEN, 14},
    {"addresses", ZIKHRODAN_DD_ADDRESSES, 128},
    {"flag bytes", ZIKHRODAN_DD_FLAG_BYTES, 14},
    {"operator's record", ZIKHRODAN_DD_OPERATOR_AT, 14},
    {"recorder's record", ZIKHRODAN_DD_RECORDER_AT, 56},
    {"record", ZIKHRODAN_DD_RECORD_LEN, 42},
    {"flags in a record", ZIKHRODAN_DD_FLAGS_IN, 0},
    {"masks in a record", ZIKHRODAN_DD_MASKS_IN, 14},
    {"pending bits in a record", ZIKHRODAN_DD_PENDING_IN, 28},
};

static void numbers(void)
{
    const size_t many = sizeof BYTES / sizeof BYTES[0];

    for (size_t i = 0; i < many; i++)
        check(BYTES[i].what, BYTES[i].flags == BYTES[i].is_flags && BYTES[i].masks == BYTES[i].is_masks);
    for (size_t i = 0; i < sizeof NUMBERS / sizeof NUMBERS[0]; i++)
        check(NUMBERS[i].what, NUMBERS[i].number == NUMBERS[i].is);
    check("every flag byte is named", many == ZIKHRODAN_DD_FLAG_BYTES);
}

static void words(void)
{
    for (uint32_t n = 0; n <= 18; n++) {
        int own = n == 1 || n == 5 || n == 8; /* this map has other lengths, and other addresses */
        check("words of a refusal", (strcmp(zikhrodan_dd_words(n), zikhrodan_words(n)) != 0) == own);
    }
    check("words of 1", strcmp(zikhrodan_dd_words(ZIKHRODAN_STATE_SIZE), "the state isn't 98 bytes") == 0);
    check("words of 5", strcmp(zikhrodan_dd_words(ZIKHRODAN_RANGE), "it ends past address 127") == 0);
    check("words of 8", strcmp(zikhrodan_dd_words(ZIKHRODAN_SAMPLE_SIZE), "the sample isn't 14 bytes") == 0);
    check("words of 2^32 - 1", strcmp(zikhrodan_dd_words(0xffffffff), zikhrodan_words(0xffffffff)) == 0);
}

static uint8_t state[ZIKHRODAN_DD_STATE_LEN], sample[ZIKHRODAN_DD_SAMPLE_LEN], out[ZIKHRODAN_DD_ADDRESSES];

static uint32_t take(void)
{
    return zikhrodan_dd_sample(state, sizeof state, sample, sizeof sample);
}

static uint32_t look(uint64_t port, uint64_t address, uint64_t count)
{
    return zikhrodan_dd_read(state, sizeof state, port, address, count, out, sizeof out);
}

static uint32_t put(uint64_t port, uint64_t address, uint8_t byte)
{
    return zikhrodan_dd_write(state, sizeof state, port, address, &byte, 1);
}

static int counts(uint32_t answer, unsigned operators, unsigned recorders)
{
    return zikhrodan_refusal_of(answer) == ZIKHRODAN_ACCEPTED && zikhrodan_operator_count(answer) == operators &&
           zikhrodan_recorder_count(answer) == recorders;
}

/* Byte 9 of a sample is all FFh: six of its bits are flags, and one of these, state changed, has no mask. */
static void history(void)
{
    const uint8_t *record = state + ZIKHRODAN_DD_OPERATOR_AT, *other = state + ZIKHRODAN_DD_RECORDER_AT;
    const size_t at = ZIKHRODAN_DD_MODULE - ZIKHRODAN_DD_RX_LOS;

    memset(state, 0xa5, sizeof state);
    check("a state of anything is reset", zikhrodan_dd_reset(state, sizeof state) == 0 && state[0] == 0 && state[sizeof state - 1] == 0);
    sample[at] = 0xff;
    check("an onset, for both", counts(take(), 6, 6));
    check("flags and pending in the record", record[ZIKHRODAN_DD_FLAGS_IN + at] == 0xcf && record[ZIKHRODAN_DD_PENDING_IN + at] == 0xcf);
    check("and in the recorder's", other[ZIKHRODAN_DD_FLAGS_IN + at] == 0xcf && other[ZIKHRODAN_DD_PENDING_IN + at] == 0xcf);
    check("masks", zikhrodan_count(put(ZIKHRODAN_OPERATOR, ZIKHRODAN_DD_MODULE_MASK, 0xff)) == 1);
    check("a mask in the record", record[ZIKHRODAN_DD_MASKS_IN + at] == 0xce && other[ZIKHRODAN_DD_MASKS_IN + at] == 0);
    check("the operator reads", zikhrodan_count(look(ZIKHRODAN_OPERATOR, ZIKHRODAN_DD_MODULE, 1)) == 0 && out[0] == 0xcf);
    check("no onset, and the recorder has yet to read", counts(take(), 0, 6));
    check("the flag is up again", look(ZIKHRODAN_OPERATOR, 0, ZIKHRODAN_DD_ADDRESSES) == 0 && out[ZIKHRODAN_DD_MODULE] == 0xcf &&
                                      out[ZIKHRODAN_DD_MODULE_MASK] == 0xce);
    check("the recorder reads", zikhrodan_count(look(ZIKHRODAN_RECORDER, ZIKHRODAN_DD_RX_LOS, ZIKHRODAN_DD_FLAG_BYTES)) == 0 &&
                                    out[at] == 0xcf);
    sample[at] = 0;
    check("the condition ends", counts(take(), 0, 0));
    sample[at] = 0xff;
    check("and has its onset", counts(take(), 1, 6));
}

/* Each refusal of the four calls. */
static void refusals(void)
{
    const uint8_t bytes[ZIKHRODAN_DD_SAMPLE_LEN] = {0};

    check("reset: 1", zikhrodan_dd_reset(state, sizeof state - 1) == ZIKHRODAN_STATE_SIZE);
    check("sample: 1", zikhrodan_dd_sample(state, sizeof state - 1, bytes, sizeof bytes) == ZIKHRODAN_STATE_SIZE);
    check("sample: 8", zikhrodan_dd_sample(state, sizeof state, bytes, sizeof bytes - 1) == ZIKHRODAN_SAMPLE_SIZE);
    check("read: 1", zikhrodan_dd_read(state, sizeof state - 1, 1, 0, 1, out, sizeof out) == ZIKHRODAN_STATE_SIZE);
    check("read: 2", look(3, 0, 1) == ZIKHRODAN_NO_SUCH_PORT);
    check("read: 4", look(ZIKHRODAN_OPERATOR, 0, 0) == ZIKHRODAN_TRANSFER_SIZE && look(ZIKHRODAN_OPERATOR, 0, 129) == ZIKHRODAN_TRANSFER_SIZE);
    check("read: 5", look(ZIKHRODAN_OPERATOR, 1, ZIKHRODAN_DD_ADDRESSES) == ZIKHRODAN_RANGE);
    check("read: 6", zikhrodan_dd_read(state, sizeof state, 1, 0, 2, out, 1) == ZIKHRODAN_OUTPUT_SHORT);
    check("write: 1", zikhrodan_dd_write(state, sizeof state - 1, 1, 102, bytes, 1) == ZIKHRODAN_STATE_SIZE);
    check("write: 2", put(0, ZIKHRODAN_DD_RX_LOS_MASK, 0) == ZIKHRODAN_NO_SUCH_PORT);
    check("write: 4", zikhrodan_dd_write(state, sizeof state, 1, 102, bytes, 5) == ZIKHRODAN_TRANSFER_SIZE);
    check("write: 5", put(ZIKHRODAN_OPERATOR, ZIKHRODAN_DD_ADDRESSES, 0) == ZIKHRODAN_RANGE);
    check("write: 7", put(ZIKHRODAN_RECORDER, ZIKHRODAN_DD_TX_POWER_HIGH_ALARM_MASK + 1, 0) == ZIKHRODAN_NOT_ITS_OWN);
    check("a write elsewhere", counts(put(ZIKHRODAN_OPERATOR, ZIKHRODAN_DD_TX_POWER_HIGH_ALARM_MASK + 1, 0xff), 1, 0));
    state[ZIKHRODAN_DD_RECORDER_AT + ZIKHRODAN_DD_PENDING_IN + 5] = 1; /* bit 0 of byte 8 is no flag */
    check("sample: 3", take() == ZIKHRODAN_UNSOUND_RECORD);
    check("read: 3", look(ZIKHRODAN_RECORDER, 0, 1) == ZIKHRODAN_UNSOUND_RECORD);
    check("write: 3", put(ZIKHRODAN_RECORDER, ZIKHRODAN_DD_RX_LOS_MASK, 0) == ZIKHRODAN_UNSOUND_RECORD);
    check("the operator's record is sound", zikhrodan_refusal_of(look(ZIKHRODAN_OPERATOR, 0, 1)) == ZIKHRODAN_ACCEPTED);
}

int main(void)
{
    numbers();
    words();
    history();
    refusals();
    return checked();
}
