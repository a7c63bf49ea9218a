/* html.c: see html.h. */
#include "html.h"
#include "say.h"
#include "utf8.h"

#include <inttypes.h>
#include <stdbool.h>
#include <string.h>

/* Whether a character can be shown. Those that turn the direction of what follows are not: with them a name can look like another
 * one. */
static bool can_show(uint32_t code)
{
    bool turns = (code >= 0x200E && code <= 0x200F) || (code >= 0x2028 && code <= 0x202E) || (code >= 0x2066 && code <= 0x2069);

    return code >= 0x20 && !(code >= 0x7F && code < 0xA0) && !turns && (code & 0xFFFE) != 0xFFFE;
}

void put_text(FILE *page, const char *words)
{
    static const char special[] = "&<>\"'";
    static const char *const escaped[] = {"&amp;", "&lt;", "&gt;", "&quot;", "&#39;"};

    for (const unsigned char *at = (const unsigned char *)words; *at;) {
        const char *found = strchr(special, *at);
        uint32_t code;
        unsigned len = utf8_at(at, &code);
        if (found)
            fputs(escaped[found - special], page);
        else if (len > 0 && can_show(code))
            fwrite(at, 1, len, page);
        else
            fputs(NO_CHARACTER, page);
        at += len ? len : 1;
    }
}

void put_sign(FILE *page, const char *drawn, const char *words)
{
    put(page, "<li><svg width=\"22\" height=\"14\" aria-hidden=\"true\">%s</svg>%s</li>\n", drawn, words);
}

void put_columns(FILE *page, const char *const *names)
{
    for (; *names; names++)
        put(page, "<th scope=\"col\">%s</th>", *names);
}

void put_count(FILE *page, uint64_t number, const char *what)
{
    put(page, "%" PRIu64 " %s%s", number, what, plural(number));
}
