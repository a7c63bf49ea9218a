/* utf8.c: see utf8.h. */
#include "utf8.h"

/* The least first byte of a character that has one, two or three more, one that is none, and the least that follows. */
enum { ONE_MORE = 0xC0, TWO_MORE = 0xE0, THREE_MORE = 0xF0, NO_FIRST = 0xF5, FOLLOWING = 0x80 };

unsigned utf8_at(const unsigned char *at, uint32_t *code)
{
    static const uint32_t least[] = {0, 0x80, 0x800, 0x10000};
    unsigned more = at[0] >= THREE_MORE ? 3 : at[0] >= TWO_MORE ? 2 : at[0] >= FOLLOWING ? 1 : 0;

    *code = more ? at[0] & (0x3Fu >> more) : at[0];
    if (more && (at[0] < ONE_MORE || at[0] >= NO_FIRST))
        return 0;
    for (unsigned i = 1; i <= more; i++) {
        if ((at[i] & ONE_MORE) != FOLLOWING)
            return 0;
        *code = *code << 6 | (at[i] & 0x3F);
    }
    return *code >= least[more] && *code <= 0x10FFFF && !(*code >= 0xD800 && *code <= 0xDFFF) ? more + 1 : 0;
}
