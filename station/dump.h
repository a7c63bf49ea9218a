/* dump.h: bytes in hex, with addresses and text. */
#ifndef DUMP_H
#define DUMP_H

#include <stdbool.h>
#include <stddef.h>
#include <stdint.h>

/* Whether a byte is printable ASCII. */
static inline bool printable(uint8_t byte)
{
    return byte >= ' ' && byte <= '~';
}

/* Lines of 16 bytes, the first at `address`: the address in decimal and hex, the bytes, and those of them that are printable. */
void dump(const uint8_t *bytes, size_t count, size_t address);

#endif
