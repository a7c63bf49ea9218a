/* utf8.h: text in UTF-8, as a file's name is, or is not. */
#ifndef UTF8_H
#define UTF8_H

#include <stdint.h>

/* How many bytes the character has that begins here, whole and of the shortest form, and which it is; 0 if it is none. What
 * follows ends in a byte 0. */
unsigned utf8_at(const unsigned char *at, uint32_t *code);

/* What stands for bytes that are no character. */
#define NO_CHARACTER "\xEF\xBF\xBD"

#endif
