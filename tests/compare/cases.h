/* cases.h: states, images and samples that the groups begin with. Places are places in the state, or in the image. */
#ifndef CASES_H
#define CASES_H

#include <stdbool.h>
#include <stddef.h>
#include <stdint.h>

#define COUNT(array) (sizeof(array) / sizeof(array)[0])

enum { OPERATOR = 1, RECORDER = 2 };
enum { STATE_LEN = 688, IMAGE_LEN = 640, SAMPLE_LEN = 31, PAGE_LEN = 128, RECORD_LEN = 24 };
enum { FLAT_AT = 2, PAGE_00_AT = 128, PAGES_AT = 195, OFFERED_AT = 220, PAGE_03_AT = 512, RECORDS_AT = 640 };
enum { SELECTED = 23 };                     /* in a record */
enum { NUMBERS = 14, CONFIGURATIONS = 8 };

/* A port's record in a state. */
uint8_t *record_of(uint8_t *state, unsigned port);

/* Which pages a state or an image has: bit 0 set for flat memory, bits 1 and 2 for pages 01h and 02h offered. */
void set_configuration(uint8_t *state, unsigned configuration);
bool is_supported(const uint8_t *state, unsigned page);

/* Changes as few bits of the port's record as make it sound; an unsupported page becomes `page`, or else 00h. */
void make_sound(uint8_t *state, unsigned port, unsigned page);

/* Makes the port's record unsound, in one of these ways: by a flag of byte 8, by a low bit of another flag or mask byte, by page
 * 04h or, if it isn't supported, by page 01h. */
enum { UNSOUND = 7 };
void make_unsound(uint8_t *state, unsigned port, unsigned way);

/* Makes the check codes of a page 00h right. */
void set_codes(uint8_t *page);

/* The real factory image; random bytes with right check codes. */
void real_image(uint8_t *image);
void random_image(uint8_t *image);

/* Random bytes with all pages offered, sound, and these pages selected. */
void random_state(uint8_t *state, unsigned operator_page, unsigned recorder_page);

/* A state that a reset to the real image has left; page 02h holds random bytes. */
void real_state(uint8_t *state);

/* Where a number of a sample is stored, and where the four limits of its quantity are. */
unsigned number_place(unsigned number);
unsigned limits_place(unsigned quantity);
unsigned quantity_of(unsigned number);
void put_number(uint8_t *at, unsigned value);
unsigned number_at(const uint8_t *at);

#endif
