/* zikhrodan.h: the register logic of a QSFP28 module with two management ports, and of an eight-channel one, for C and C++.
 *
 * Link libzikhrodan.a (x86-64). The library keeps nothing between calls and allocates nothing: a module is 688 bytes, or 98, that the
 * caller lends. Any bytes, lengths and numbers may be passed; each call refuses what it cannot take, and a refused call changes no byte.
 *
 * What the caller owes, and all of it:
 *   - each pointer is good for as many bytes as the length beside it says (for none where that is 0; it may then be null);
 *   - memory lent to one call does not overlap, and nobody else touches it during the call.
 *
 * The rules of each call, register and log block stand in docs/REGISTERS.md, of the eight-channel module in docs/EIGHT.md. They are
 * proved of the library for every input: docs/EXAMINER.md says how, and what is assumed. The helpers and names of this header are not
 * proved: they take an answer apart, or name a number, and decide nothing. */
#ifndef ZIKHRODAN_H
#define ZIKHRODAN_H

#include <stddef.h>
#include <stdint.h>

/* An answer has the refusal in it: a compiler that can warns where one is dropped. */
#if (defined __cplusplus && __cplusplus >= 201703L) || (defined __STDC_VERSION__ && __STDC_VERSION__ > 201710L)
#define ZIKHRODAN_ANSWER [[nodiscard]]
#elif defined __GNUC__
#define ZIKHRODAN_ANSWER __attribute__((warn_unused_result))
#else
#define ZIKHRODAN_ANSWER
#endif

#ifdef __cplusplus
extern "C" {
#endif

/* ---- sizes and numbers */

enum {
    ZIKHRODAN_STATE_LEN = 688, /* a module's state; it is to grow: docs/REGISTERS.md */
    ZIKHRODAN_IMAGE_LEN = 640, /* a factory image: lower memory and pages 00h to 03h */
    ZIKHRODAN_SAMPLE_LEN = 31, /* three status bytes and fourteen numbers of two bytes, high byte first */
    ZIKHRODAN_PAGE_LEN = 128,
    ZIKHRODAN_READ_MAX = 128,
    ZIKHRODAN_WRITE_MAX = 4,
    ZIKHRODAN_BLOCK_LEN = 512, /* a block of a log */
    ZIKHRODAN_BLOCK_SAMPLES = 16
};

/* The two ports. */
enum {
    ZIKHRODAN_OPERATOR = 1,
    ZIKHRODAN_RECORDER = 2
};

/* Why a call refuses. The lowest that applies is given, but 12 comes before 11, and 15 before 14. 16 is none. */
enum zikhrodan_refusal {
    ZIKHRODAN_ACCEPTED = 0,
    ZIKHRODAN_STATE_SIZE = 1,
    ZIKHRODAN_NO_SUCH_PORT = 2,
    ZIKHRODAN_UNSOUND_RECORD = 3,
    ZIKHRODAN_TRANSFER_SIZE = 4,
    ZIKHRODAN_RANGE = 5,
    ZIKHRODAN_OUTPUT_SHORT = 6,
    ZIKHRODAN_NOT_ITS_OWN = 7,
    ZIKHRODAN_SAMPLE_SIZE = 8,
    ZIKHRODAN_IMAGE_SIZE = 9,
    ZIKHRODAN_CHECK_CODE = 10,
    ZIKHRODAN_NO_SOUND_PAGE = 11,
    ZIKHRODAN_NO_SUCH_FIELD = 12,
    ZIKHRODAN_NO_SUCH_MONITOR = 13,
    ZIKHRODAN_LOG_FULL = 14,
    ZIKHRODAN_UNSOUND_LOG = 15,
    ZIKHRODAN_NO_SUCH_SAMPLE = 17
};

/* A refusal in words; any number may be passed. */
static inline const char *zikhrodan_words(uint32_t refusal)
{
    switch (refusal) {
    case ZIKHRODAN_ACCEPTED: return "accepted";
    case ZIKHRODAN_STATE_SIZE: return "the state isn't 688 bytes";
    case ZIKHRODAN_NO_SUCH_PORT: return "the port is neither 1 (operator) nor 2 (recorder)";
    case ZIKHRODAN_UNSOUND_RECORD: return "a port's record in the state is unsound";
    case ZIKHRODAN_TRANSFER_SIZE: return "a read is of 1 to 128 bytes, a write of 1 to 4";
    case ZIKHRODAN_RANGE: return "it ends past address 255, or it is a write across addresses 127 and 128";
    case ZIKHRODAN_OUTPUT_SHORT: return "the output memory is shorter than the read";
    case ZIKHRODAN_NOT_ITS_OWN: return "a recorder's write touches a byte not its own";
    case ZIKHRODAN_SAMPLE_SIZE: return "the sample isn't 31 bytes";
    case ZIKHRODAN_IMAGE_SIZE: return "the factory image isn't 640 bytes";
    case ZIKHRODAN_CHECK_CODE: return "a check code of the factory image is wrong";
    case ZIKHRODAN_NO_SOUND_PAGE: return "neither page is sound";
    case ZIKHRODAN_NO_SUCH_FIELD: return "the field number isn't 1 to 6";
    case ZIKHRODAN_NO_SUCH_MONITOR: return "the monitor number is above 13, or the quantity above 4";
    case ZIKHRODAN_LOG_FULL: return "a new block is needed, and none is unused or the last one's number is 4294967295";
    case ZIKHRODAN_UNSOUND_LOG: return "the log isn't whole blocks, has fewer than are used, or is unsound";
    case ZIKHRODAN_NO_SUCH_SAMPLE: return "the position is past the last sample, or the status bit is above 23";
    default: return "no refusal has this number";
    }
}

/* ---- the calls that are lent the state to change it
 *
 * Answer: bits 0-7 the refusal (0 accepted); bits 8-15 a count, for reset and sample the operator's, for read and write the calling
 * port's; bits 16-23 for reset and sample the recorder's count, else 0; bits 24-31 are 0. A refusal's counts are 0.
 * A count is the number of raised flags that the port's masks let through, after the call. The port's interrupt stands exactly when
 * the count of an accepted call isn't 0. */

/* Resets the module to a factory image; page 02h keeps its bytes. Refuses 1, 9, 10. */
ZIKHRODAN_ANSWER uint32_t zikhrodan_reset(uint8_t *state, size_t state_len, const uint8_t *image, size_t image_len);

/* Takes a sample: stores its numbers and raises the flags of its conditions for both ports. Refuses 1, 3 (either record), 8. */
ZIKHRODAN_ANSWER uint32_t zikhrodan_sample(uint8_t *state, size_t state_len, const uint8_t *sample, size_t sample_len);

/* Reads `count` bytes at `address` (0 to 127 lower memory, 128 to 255 the port's selected page) into the front of `out`, as the port
 * sees them before the call; the flag bytes read become 0 for this port alone. The rest of `out` stays. Refuses 1 to 6. */
ZIKHRODAN_ANSWER uint32_t zikhrodan_read(uint8_t *state, size_t state_len, uint64_t port, uint64_t address, uint64_t count,
                                         uint8_t *out, size_t out_len);

/* Writes `data` at `address`, the bits that the port may write; other bits stay and the write is still accepted. Refuses 1 to 5, 7. */
ZIKHRODAN_ANSWER uint32_t zikhrodan_write(uint8_t *state, size_t state_len, uint64_t port, uint64_t address, const uint8_t *data,
                                          size_t data_len);

/* Bits `first` to `first` + 7 of an answer. */
static inline uint32_t zikhrodan_bits(uint32_t answer, unsigned first)
{
    return answer >> first & 0xff;
}

static inline enum zikhrodan_refusal zikhrodan_refusal_of(uint32_t answer)
{
    return (enum zikhrodan_refusal)zikhrodan_bits(answer, 0);
}

/* of a read or a write: the calling port's count */
static inline unsigned zikhrodan_count(uint32_t answer)
{
    return zikhrodan_bits(answer, 8);
}

/* of a reset or a sample */
static inline unsigned zikhrodan_operator_count(uint32_t answer)
{
    return zikhrodan_bits(answer, 8);
}

static inline unsigned zikhrodan_recorder_count(uint32_t answer)
{
    return zikhrodan_bits(answer, 16);
}

/* ---- where things lie: names for numbers of docs/REGISTERS.md */

/* Places in a state; the pages stand at the same places of an image. */
enum {
    ZIKHRODAN_PAGE_00_AT = 128,
    ZIKHRODAN_PAGE_01_AT = 256,
    ZIKHRODAN_PAGE_02_AT = 384,
    ZIKHRODAN_PAGE_03_AT = 512,
    ZIKHRODAN_OPERATOR_AT = 640,     /* where the operator's record starts, */
    ZIKHRODAN_RECORDER_AT = 664,     /* and the recorder's; */
    ZIKHRODAN_RECORD_LEN = 24,
    ZIKHRODAN_FLAGS_IN = 0,          /* in a record the flags of 3 to 14, */
    ZIKHRODAN_MASKS_IN = 12,         /* the masks of 100 to 104, */
    ZIKHRODAN_PAGE_03_MASKS_IN = 17, /* those of page 03h 242 to 247, */
    ZIKHRODAN_SELECTED_IN = 23       /* and the selected page */
};

/* Host addresses of lower memory. Numbers are two bytes, high byte first. */
enum zikhrodan_register {
    ZIKHRODAN_REG_IDENTIFIER = 0,
    ZIKHRODAN_REG_STATUS = 2,
    ZIKHRODAN_REG_LOS_FLAGS = 3, /* flags: the port's own; a read clears them */
    ZIKHRODAN_REG_FAULT_FLAGS = 4,
    ZIKHRODAN_REG_LOL_FLAGS = 5,
    ZIKHRODAN_REG_TEMPERATURE_FLAGS = 6,
    ZIKHRODAN_REG_SUPPLY_FLAGS = 7,
    ZIKHRODAN_REG_RX_POWER_12_FLAGS = 9,
    ZIKHRODAN_REG_RX_POWER_34_FLAGS = 10,
    ZIKHRODAN_REG_TX_BIAS_12_FLAGS = 11,
    ZIKHRODAN_REG_TX_BIAS_34_FLAGS = 12,
    ZIKHRODAN_REG_TX_POWER_12_FLAGS = 13,
    ZIKHRODAN_REG_TX_POWER_34_FLAGS = 14,
    ZIKHRODAN_REG_TEMPERATURE = 22,
    ZIKHRODAN_REG_SUPPLY = 26,
    ZIKHRODAN_REG_RX_POWER_1 = 34, /* to 4: 34 to 41 */
    ZIKHRODAN_REG_TX_BIAS_1 = 42,  /* to 4: 42 to 49 */
    ZIKHRODAN_REG_TX_POWER_1 = 50, /* to 4: 50 to 57 */
    ZIKHRODAN_REG_TX_DISABLE = 86, /* controls: both ports see them, the operator writes them */
    ZIKHRODAN_REG_RX_RATE_SELECT = 87,
    ZIKHRODAN_REG_TX_RATE_SELECT = 88,
    ZIKHRODAN_REG_POWER = 93,
    ZIKHRODAN_REG_CDR = 98,
    ZIKHRODAN_REG_LOS_MASKS = 100, /* masks: the port's own; a 1 holds the flag of its bit back */
    ZIKHRODAN_REG_FAULT_MASKS = 101,
    ZIKHRODAN_REG_LOL_MASKS = 102,
    ZIKHRODAN_REG_TEMPERATURE_MASKS = 103,
    ZIKHRODAN_REG_SUPPLY_MASKS = 104,
    ZIKHRODAN_REG_PAGE_SELECT = 127 /* the port's own */
};

/* Of page 00h. */
enum zikhrodan_page_00 {
    ZIKHRODAN_REG_VENDOR_NAME = 148,
    ZIKHRODAN_REG_VENDOR_OUI = 165,
    ZIKHRODAN_REG_PART_NUMBER = 168,
    ZIKHRODAN_REG_REVISION = 184,
    ZIKHRODAN_REG_BASE_CODE = 191,
    ZIKHRODAN_REG_OPTIONS = 195,
    ZIKHRODAN_REG_SERIAL_NUMBER = 196,
    ZIKHRODAN_REG_DATE_CODE = 212,
    ZIKHRODAN_REG_DIAGNOSTICS = 220,
    ZIKHRODAN_REG_EXTENDED_CODE = 223
};

/* Of page 03h. A quantity's limits are four numbers, in the order of enum zikhrodan_which. */
enum zikhrodan_page_03 {
    ZIKHRODAN_REG_TEMPERATURE_LIMITS = 128,
    ZIKHRODAN_REG_SUPPLY_LIMITS = 144,
    ZIKHRODAN_REG_RX_POWER_LIMITS = 176,
    ZIKHRODAN_REG_TX_BIAS_LIMITS = 184,
    ZIKHRODAN_REG_TX_POWER_LIMITS = 192,
    ZIKHRODAN_REG_TX_EQUALISER = 234, /* controls, as those of lower memory */
    ZIKHRODAN_REG_RX_EMPHASIS = 236,
    ZIKHRODAN_REG_RX_AMPLITUDE = 238,
    ZIKHRODAN_REG_SQUELCH_DISABLE = 240,
    ZIKHRODAN_REG_OUTPUT_DISABLE = 241,
    ZIKHRODAN_REG_RX_POWER_12_MASKS = 242, /* masks, as those of lower memory */
    ZIKHRODAN_REG_RX_POWER_34_MASKS = 243,
    ZIKHRODAN_REG_TX_BIAS_12_MASKS = 244,
    ZIKHRODAN_REG_TX_BIAS_34_MASKS = 245,
    ZIKHRODAN_REG_TX_POWER_12_MASKS = 246,
    ZIKHRODAN_REG_TX_POWER_34_MASKS = 247
};

/* Bits, as they stand in their byte. */
enum zikhrodan_bit {
    ZIKHRODAN_DATA_NOT_READY = 0x01, /* of byte 2: nothing is measured yet; */
    ZIKHRODAN_INTL = 0x02,           /* the level of the port's pin, 1 while no interrupt stands; */
    ZIKHRODAN_FLAT_MEMORY = 0x04,    /* there is page 00h alone */
    ZIKHRODAN_HAS_PAGE_02 = 0x80,    /* of ZIKHRODAN_REG_OPTIONS */
    ZIKHRODAN_HAS_PAGE_01 = 0x40,
    ZIKHRODAN_HAS_TX_POWER = 0x04    /* of ZIKHRODAN_REG_DIAGNOSTICS */
};

/* Where the parts of a sample start. */
enum zikhrodan_sample_at {
    ZIKHRODAN_SAMPLE_LOS = 0,
    ZIKHRODAN_SAMPLE_FAULT = 1,
    ZIKHRODAN_SAMPLE_LOL = 2,
    ZIKHRODAN_SAMPLE_TEMPERATURE = 3, /* signed, 1/256 degree C */
    ZIKHRODAN_SAMPLE_SUPPLY = 5,      /* 100 uV */
    ZIKHRODAN_SAMPLE_RX_POWER_1 = 7,  /* to 4; 0.1 uW */
    ZIKHRODAN_SAMPLE_TX_BIAS_1 = 15,  /* to 4; 2 uA */
    ZIKHRODAN_SAMPLE_TX_POWER_1 = 23  /* to 4; 0.1 uW */
};

/* The 24 status bits: bit n % 8 of a sample's byte n / 8, and of flag byte 3 + n / 8. */
enum zikhrodan_status_bit {
    ZIKHRODAN_RX1_LOS = 0, /* loss of signal */
    ZIKHRODAN_RX2_LOS = 1,
    ZIKHRODAN_RX3_LOS = 2,
    ZIKHRODAN_RX4_LOS = 3,
    ZIKHRODAN_TX1_LOS = 4,
    ZIKHRODAN_TX2_LOS = 5,
    ZIKHRODAN_TX3_LOS = 6,
    ZIKHRODAN_TX4_LOS = 7,
    ZIKHRODAN_TX1_FAULT = 8,
    ZIKHRODAN_TX2_FAULT = 9,
    ZIKHRODAN_TX3_FAULT = 10,
    ZIKHRODAN_TX4_FAULT = 11,
    ZIKHRODAN_TX1_EQ_FAULT = 12, /* of the adaptive equaliser */
    ZIKHRODAN_TX2_EQ_FAULT = 13,
    ZIKHRODAN_TX3_EQ_FAULT = 14,
    ZIKHRODAN_TX4_EQ_FAULT = 15,
    ZIKHRODAN_RX1_LOL = 16, /* loss of lock */
    ZIKHRODAN_RX2_LOL = 17,
    ZIKHRODAN_RX3_LOL = 18,
    ZIKHRODAN_RX4_LOL = 19,
    ZIKHRODAN_TX1_LOL = 20,
    ZIKHRODAN_TX2_LOL = 21,
    ZIKHRODAN_TX3_LOL = 22,
    ZIKHRODAN_TX4_LOL = 23
};

/* ---- identity */

enum zikhrodan_field {
    ZIKHRODAN_VENDOR_NAME = 1,
    ZIKHRODAN_VENDOR_OUI = 2,
    ZIKHRODAN_PART_NUMBER = 3,
    ZIKHRODAN_REVISION = 4,
    ZIKHRODAN_SERIAL_NUMBER = 5,
    ZIKHRODAN_DATE_CODE = 6
};

/* Where an identity field lies: in the live page 00h if its length and check codes are right, else in the factory's. `live` is 128
 * bytes, a state's from ZIKHRODAN_PAGE_00_AT on; `factory` likewise an image's. A page of another length is an unsound page.
 * Answer: bits 0-7 the refusal, 12 or 11; bits 8-15 the page, 1 live, 2 factory; bits 16-23 where the field starts in that page;
 * bits 24-31 its length without trailing blanks (the OUI whole). Page, start and length are 0 where it is refused. */
ZIKHRODAN_ANSWER uint32_t zikhrodan_identity(const uint8_t *live, size_t live_len, const uint8_t *factory, size_t factory_len,
                                             uint64_t field);

enum zikhrodan_page {
    ZIKHRODAN_NO_PAGE = 0,
    ZIKHRODAN_LIVE = 1,
    ZIKHRODAN_FACTORY = 2
};

static inline enum zikhrodan_page zikhrodan_identity_page(uint32_t answer)
{
    return (enum zikhrodan_page)zikhrodan_bits(answer, 8);
}

static inline size_t zikhrodan_identity_start(uint32_t answer)
{
    return zikhrodan_bits(answer, 16);
}

static inline size_t zikhrodan_identity_length(uint32_t answer)
{
    return zikhrodan_bits(answer, 24);
}

/* ---- monitors */

/* Monitors 0 to 13, in the order of a sample. */
enum zikhrodan_monitor {
    ZIKHRODAN_TEMPERATURE = 0,
    ZIKHRODAN_SUPPLY = 1,
    ZIKHRODAN_RX_POWER_1 = 2, /* to 4: monitors 2 to 5 */
    ZIKHRODAN_TX_BIAS_1 = 6,  /* to 4: monitors 6 to 9 */
    ZIKHRODAN_TX_POWER_1 = 10 /* to 4: monitors 10 to 13 */
};

enum zikhrodan_kind {
    ZIKHRODAN_NOTHING = 0, /* nothing is measured, or the call is refused */
    ZIKHRODAN_DEGREES = 1,
    ZIKHRODAN_VOLTS = 2,
    ZIKHRODAN_MILLIWATTS = 3,
    ZIKHRODAN_MILLIAMPERES = 4
};

/* The kind of a monitor's value. Answer: bits 0-7 the refusal, 1 or 13; bits 8-15 the kind; the rest is 0. */
ZIKHRODAN_ANSWER uint32_t zikhrodan_monitor_kind(const uint8_t *state, size_t state_len, uint64_t number);

/* The value itself, in the unit of that kind; 0.0 where the kind is 0. */
double zikhrodan_monitor_value(const uint8_t *state, size_t state_len, uint64_t number);

static inline enum zikhrodan_kind zikhrodan_kind_of(uint32_t answer)
{
    return (enum zikhrodan_kind)zikhrodan_bits(answer, 8);
}

/* ---- limits */

/* Quantities 0 to 4; their limits are in the unit of their monitors. */
enum zikhrodan_quantity {
    ZIKHRODAN_OF_TEMPERATURE = 0,
    ZIKHRODAN_OF_SUPPLY = 1,
    ZIKHRODAN_OF_RX_POWER = 2,
    ZIKHRODAN_OF_TX_BIAS = 3,
    ZIKHRODAN_OF_TX_POWER = 4
};

enum zikhrodan_which {
    ZIKHRODAN_HIGH_ALARM = 0,
    ZIKHRODAN_LOW_ALARM = 1,
    ZIKHRODAN_HIGH_WARNING = 2,
    ZIKHRODAN_LOW_WARNING = 3
};

/* Why a quantity's limits are refused, 1 or 13; 0 where they are given. */
ZIKHRODAN_ANSWER uint32_t zikhrodan_limits_refusal(const uint8_t *state, size_t state_len, uint64_t quantity);

/* One limit of a quantity; 0.0 where the limits are refused, or for any other `which`. */
double zikhrodan_limit(const uint8_t *state, size_t state_len, uint64_t quantity, uint64_t which);

/* ---- a log of samples
 *
 * A log is memory of whole blocks of 512 bytes, of which the first `used` are used; unused ones may hold anything. It is no port's
 * memory: no call of the module reads or changes it. With no block used it is sound, whatever the memory holds: a log begins with
 * `used` 0. The caller keeps the used number from call to call.
 * 15 is given exactly when it is due: an add, a power-up or a reading that is not refused sooner looks at all of every used
 * block, and its cost is linear in `used`. A long log need not pay that for each sample: see the end of this part.
 * A block has a summary of its samples' status bytes, by which zikhrodan_log_first passes it over. Blocks of an older library have
 * none: they stay sound, and get one when a sample is added to them.
 * Answer: bits 0-7 the refusal, the rest a value. A refused call changes nothing, its value is 0, and `used` stays what it was: take
 * the value only after looking at the refusal. A `used` that is too low is not refused, and what is added then overwrites blocks. */

/* Adds a sample, in the last used block if that has room, else in a new one. The value is `used` after the call. Refuses 8, 15, 14,
 * in that order. */
ZIKHRODAN_ANSWER uint64_t zikhrodan_log_add(uint8_t *log, size_t log_len, uint64_t used, const uint8_t *sample, size_t sample_len);

/* Opens a new block, as a module that was powered up does. The value is `used` after the call. Refuses 15, 14, in that order. */
ZIKHRODAN_ANSWER uint64_t zikhrodan_log_power_up(uint8_t *log, size_t log_len, uint64_t used);

/* Where the sample at a position, from 0 on, starts in the log; it is 31 bytes. Refuses 15, 17, in that order. */
ZIKHRODAN_ANSWER uint64_t zikhrodan_log_sample(const uint8_t *log, size_t log_len, uint64_t used, uint64_t position);

/* The first sample with a status bit, of enum zikhrodan_status_bit. The value is the sample's position plus 1, or 0 for none. Refuses
 * 15 for memory that isn't whole blocks, a `used` that is too large or a used block's count above 16, then 17 for a bit above 23. A
 * block whose summary excludes the bit is passed over, by three of its bytes. On a sound log the answer is what reading every sample
 * would give. A sound log is not asked for: on another the answer is fixed too, but a damaged summary can hide a sample. */
ZIKHRODAN_ANSWER uint64_t zikhrodan_log_first(const uint8_t *log, size_t log_len, uint64_t used, uint64_t bit);

static inline enum zikhrodan_refusal zikhrodan_log_refusal(uint64_t answer)
{
    return (enum zikhrodan_refusal)(answer & 0xff);
}

static inline uint64_t zikhrodan_log_value(uint64_t answer)
{
    return answer >> 8;
}

/* Adding without the walk. A log is sound if zikhrodan_log_sample of position UINT64_MAX is refused 17, and not 15. From then on, as
 * long as adds and power-ups alone change it, each of these may be lent the log's end instead of the whole:
 *   - it begins with a used block, any one, so that at least one used block is in it;
 *   - it goes to the end of the log's memory, unused blocks and all;
 *   - `used` is less by the blocks left out, and so is the value.
 * It is proved that the call is refused there exactly what it would be refused on the whole, and leaves the same bytes.
 * With `used` at least 1, and all used blocks left out but the last:
 *
 *     size_t out = (size_t)used - 1, at = out * ZIKHRODAN_BLOCK_LEN;
 *     uint64_t answer = zikhrodan_log_add(log + at, log_len - at, used - out, sample, ZIKHRODAN_SAMPLE_LEN);
 *     if (zikhrodan_log_refusal(answer) == ZIKHRODAN_ACCEPTED)
 *         used = out + zikhrodan_log_value(answer);
 */

/* ---- the eight-channel module
 *
 * QSFP-DD revision 2.0's flags and masks with two ports; docs/EIGHT.md has the map. Its state is 98 bytes that the caller lends: the
 * conditions of the last accepted sample, then the operator's record, then the recorder's. Any 98 bytes may be passed;
 * zikhrodan_dd_reset makes a state of them. The answers are those of the four calls above. A count is the number of pending bits that
 * the port's masks let through: a bit is pending from the onset of its condition until the port reads its flag byte. */

enum {
    ZIKHRODAN_DD_STATE_LEN = 98,
    ZIKHRODAN_DD_SAMPLE_LEN = 14,   /* a condition byte for each flag byte, 3 to 16 */
    ZIKHRODAN_DD_ADDRESSES = 128,
    ZIKHRODAN_DD_FLAG_BYTES = 14,
    ZIKHRODAN_DD_OPERATOR_AT = 14,  /* where the operator's record starts in a state, */
    ZIKHRODAN_DD_RECORDER_AT = 56,  /* and the recorder's; */
    ZIKHRODAN_DD_RECORD_LEN = 42,
    ZIKHRODAN_DD_FLAGS_IN = 0,      /* in a record the flags of 3 to 16, */
    ZIKHRODAN_DD_MASKS_IN = 14,     /* the masks of 102 to 115, */
    ZIKHRODAN_DD_PENDING_IN = 28    /* and the pending bits of 3 to 16, which have no address */
};

/* The flag bytes. Where a byte is of channels, bit 0 is channel 1 and bit 7 channel 8. */
enum zikhrodan_dd_flags {
    ZIKHRODAN_DD_RX_LOS = 3,
    ZIKHRODAN_DD_TX_LOS = 4,
    ZIKHRODAN_DD_RX_CDR_LOL = 5,
    ZIKHRODAN_DD_TX_CDR_LOL = 6,
    ZIKHRODAN_DD_TX_FAULT = 7,
    ZIKHRODAN_DD_TEMPERATURE = 8, /* bit 7 high alarm, 6 low alarm, 5 high warning, 4 low warning */
    ZIKHRODAN_DD_MODULE = 9,      /* 7 Vcc high alarm, 6 Vcc low alarm, 3 TEC high alarm, 2 TEC fault, 1 adaptation complete, 0 state changed */
    ZIKHRODAN_DD_RX_POWER_LOW_WARNING = 10,
    ZIKHRODAN_DD_RX_POWER_LOW_ALARM = 11,
    ZIKHRODAN_DD_RX_POWER_HIGH_ALARM = 12,
    ZIKHRODAN_DD_TX_BIAS_LOW_ALARM = 13,
    ZIKHRODAN_DD_TX_BIAS_HIGH_ALARM = 14,
    ZIKHRODAN_DD_TX_POWER_LOW_ALARM = 15,
    ZIKHRODAN_DD_TX_POWER_HIGH_ALARM = 16
};

/* The mask bytes, bit by bit those of the flag bytes; but state changed has no mask. */
enum zikhrodan_dd_masks {
    ZIKHRODAN_DD_RX_LOS_MASK = 102,
    ZIKHRODAN_DD_TX_LOS_MASK = 103,
    ZIKHRODAN_DD_RX_CDR_LOL_MASK = 104,
    ZIKHRODAN_DD_TX_CDR_LOL_MASK = 105,
    ZIKHRODAN_DD_TX_FAULT_MASK = 106,
    ZIKHRODAN_DD_TEMPERATURE_MASK = 107,
    ZIKHRODAN_DD_MODULE_MASK = 108,
    ZIKHRODAN_DD_RX_POWER_LOW_WARNING_MASK = 109,
    ZIKHRODAN_DD_RX_POWER_LOW_ALARM_MASK = 110,
    ZIKHRODAN_DD_RX_POWER_HIGH_ALARM_MASK = 111,
    ZIKHRODAN_DD_TX_BIAS_LOW_ALARM_MASK = 112,
    ZIKHRODAN_DD_TX_BIAS_HIGH_ALARM_MASK = 113,
    ZIKHRODAN_DD_TX_POWER_LOW_ALARM_MASK = 114,
    ZIKHRODAN_DD_TX_POWER_HIGH_ALARM_MASK = 115
};

/* A refusal of these four calls in words; any number may be passed. */
static inline const char *zikhrodan_dd_words(uint32_t refusal)
{
    switch (refusal) {
    case ZIKHRODAN_STATE_SIZE: return "the state isn't 98 bytes";
    case ZIKHRODAN_RANGE: return "it ends past address 127";
    case ZIKHRODAN_SAMPLE_SIZE: return "the sample isn't 14 bytes";
    default: return zikhrodan_words(refusal);
    }
}

/* Resets the module: all 98 bytes become 0. Refuses 1. */
ZIKHRODAN_ANSWER uint32_t zikhrodan_dd_reset(uint8_t *state, size_t state_len);

/* Takes a sample: raises the flags of its conditions for both ports, and where a condition has its onset (it stands here, and did not
 * in the accepted sample before) marks the bit as pending for both. Bits that are no flag are ignored. Refuses 1, 3 (either record), 8. */
ZIKHRODAN_ANSWER uint32_t zikhrodan_dd_sample(uint8_t *state, size_t state_len, const uint8_t *sample, size_t sample_len);

/* Reads `count` bytes at `address`, 0 to 127, into the front of `out`, as the port sees them before the call: its flags at 3 to 16, its
 * masks at 102 to 115, 0 elsewhere. The flag bytes read, and their pending bits, become 0 for this port alone. The rest of `out`
 * stays. Refuses 1 to 6. */
ZIKHRODAN_ANSWER uint32_t zikhrodan_dd_read(uint8_t *state, size_t state_len, uint64_t port, uint64_t address, uint64_t count,
                                            uint8_t *out, size_t out_len);

/* Writes `data` at `address`: the mask bits take it, all other bits stay, and the write is still accepted. The recorder may write 102
 * to 115 alone. Refuses 1 to 5, 7. */
ZIKHRODAN_ANSWER uint32_t zikhrodan_dd_write(uint8_t *state, size_t state_len, uint64_t port, uint64_t address,
                                             const uint8_t *data, size_t data_len);

#ifdef __cplusplus
}
#endif

#endif
