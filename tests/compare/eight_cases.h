/* eight_cases.h: states of the eight-channel module, and calls likely to matter. Bytes go by 0 to 13: flag bytes 3 to 16, mask
 * bytes 102 to 115. */
#ifndef EIGHT_CASES_H
#define EIGHT_CASES_H

#include "call.h"
#include "cases.h"

enum { EIGHT_LEN = 98, EIGHT_SAMPLE_LEN = 14, EIGHT_RECORD_LEN = 42, EIGHT_BYTES = 14, EIGHT_ADDRESSES = 128 };
enum { EIGHT_FLAGS = 0, EIGHT_MASKS = 14, EIGHT_PENDING = 28 };    /* in a record */
enum { EIGHT_FLAGS_AT = 3, EIGHT_MASKS_AT = 102 };                 /* their first addresses */

extern const uint8_t eight_flag_bits[EIGHT_BYTES], eight_mask_bits[EIGHT_BYTES];

/* A port's record in a state. */
uint8_t *eight_record(uint8_t *state, unsigned port);

/* Takes the bits away that make the port's record unsound. */
void make_eight_sound(uint8_t *state, unsigned port);

/* Makes it unsound by one bit: each that is no flag, no mask or pending and no flag, in its way. */
enum { EIGHT_UNSOUND = 19 };
void make_eight_unsound(uint8_t *state, unsigned port, unsigned way);

/* Random bytes with both records sound. */
void random_eight(uint8_t *state);

void begin_eight(const uint8_t *state);

/* Each is mostly one that will be accepted; its bytes lie in memory that the next of that kind takes again. Samples mostly go on
 * from the conditions that stand in `state`, which may be null: they last, end or have their onset. */
struct bytes some_eight_beginning(void);
struct call some_eight_sample(const uint8_t *state);
struct call some_eight_read(uint64_t port);
struct call some_eight_write(uint64_t port);
struct call some_eight_call(const uint8_t *state);

#endif
