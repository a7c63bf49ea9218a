/* words.c: see words.h. */
#include "words.h"

#include <ctype.h>
#include <errno.h>
#include <stdlib.h>
#include <string.h>

/* The next word's length, 0 at the end; the blanks before it are gone then. */
static size_t next(struct words *words)
{
    words->rest += strspn(words->rest, " \t\r\n");
    return strcspn(words->rest, " \t\r\n");
}

bool words_end(struct words *words)
{
    return !next(words);
}

bool words_skip(struct words *words, const char *word)
{
    size_t len = next(words);
    if (len != strlen(word) || memcmp(words->rest, word, len))
        return false;
    words->rest += len;
    return true;
}

bool words_number(struct words *words, uint64_t greatest, uint64_t *number)
{
    size_t len = next(words);
    char *end;
    if (!isdigit((unsigned char)words->rest[0]))
        return false;
    errno = 0;
    *number = strtoull(words->rest, &end, 10);
    if (errno || end != words->rest + len || *number > greatest)
        return false;
    words->rest = end;
    return true;
}

bool words_byte(struct words *words, uint8_t *byte)
{
    if (next(words) != 2 || !isxdigit((unsigned char)words->rest[0]) || !isxdigit((unsigned char)words->rest[1]))
        return false;
    char digits[3] = { words->rest[0], words->rest[1], 0 };
    *byte = (uint8_t)strtoul(digits, NULL, 16);
    words->rest += 2;
    return true;
}

bool words_bytes(struct words *words, uint8_t *into, struct bytes *bytes)
{
    uint64_t len = 0;
    uint8_t byte;
    *bytes = (struct bytes){ into, 0 };
    if (words_skip(words, "null")) {
        bytes->at = NULL;
        return true;
    }
    if (words_skip(words, "zeros")) {
        bool right = words_number(words, VAST + VAST_MORE, &len) && len >= VAST;
        bytes->len = (size_t)len;
        return right;
    }
    while (words_byte(words, &byte)) {
        if (bytes->len == REGION)
            return false;
        into[bytes->len++] = byte;
    }
    return true;
}

bool words_last_numbers(struct words *words, uint64_t *first, uint64_t *second)
{
    return words_number(words, UINT64_MAX, first) && (!second || words_number(words, UINT64_MAX, second)) && words_end(words);
}

bool words_last_bytes(struct words *words, struct bytes *bytes)
{
    static uint8_t into[REGION];
    return words_bytes(words, into, bytes) && words_end(words);
}
