/* words.h: the words of a line, between blanks. Numbers are decimal, bytes two hexadecimal digits each. */
#ifndef WORDS_H
#define WORDS_H

#include "call.h"

/* What is left of a line. */
struct words {
    const char *rest;
};

bool words_end(struct words *words);

/* Each of these takes what it looks for off the front, or nothing. */
bool words_skip(struct words *words, const char *word);
bool words_number(struct words *words, uint64_t greatest, uint64_t *number);
bool words_byte(struct words *words, uint8_t *byte);

/* Bytes, put into memory of REGION bytes: as many words as are bytes, none too; or `null`, no bytes at a null pointer; or
 * `zeros LENGTH`, vast memory. */
bool words_bytes(struct words *words, uint8_t *into, struct bytes *bytes);

/* One number, or two where a second is asked for, and then the line's end. */
bool words_last_numbers(struct words *words, uint64_t *first, uint64_t *second);

/* Bytes, and then the line's end; the next line's take their place. */
bool words_last_bytes(struct words *words, struct bytes *bytes);

#endif
