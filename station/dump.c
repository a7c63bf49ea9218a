/* dump.c: see dump.h. */
#include "dump.h"
#include "say.h"

#include <stdio.h>

static void line(const uint8_t *bytes, size_t count, size_t address)
{
    printf("%s%5zu %03zX%s ", paint(FAINT), address, address, paint(PLAIN));
    for (size_t i = 0; i < 16; i++)
        if (i < count)
            printf(" %02X", bytes[i]);
        else
            fputs("   ", stdout);
    fputs("  |", stdout);
    for (size_t i = 0; i < count; i++)
        putchar(printable(bytes[i]) ? bytes[i] : '.');
    puts("|");
}

void dump(const uint8_t *bytes, size_t count, size_t address)
{
    for (size_t at = 0; at < count; at += 16)
        line(bytes + at, count - at < 16 ? count - at : 16, address + at);
}
