/* lines.c: see lines.h. */
#include "lines.h"
#include "say.h"
#include "words.h"

#include <ctype.h>
#include <stdio.h>
#include <strings.h>

char *line_name(unsigned bit, char *name, size_t room)
{
    return flag_name(flag_at(FLAGS_AT + bit / 8, bit % 8), name, room);
}

const char *line_kept(unsigned bit)
{
    static char names[LINES][NAME_ROOM];

    return names[bit][0] ? names[bit] : line_name(bit, names[bit], sizeof names[bit]);
}

/* Four lines of a kind, one after the other; each name begins with its line's "Rx3". */
char *line_word(unsigned bit, char *word, size_t room)
{
    static const char *const kinds[LINE_KINDS] = {"", "", "-fault", "-eq", "-lock", "-lock"};
    char name[NAME_ROOM];

    line_name(bit, name, sizeof name);
    snprintf(word, room, "%c%.2s%s", tolower((unsigned char)name[0]), name + 1, kinds[bit / LANES]);
    return word;
}

static const struct lane KINDS[LINE_KINDS] = {
    {.side = "receive", .lost = "lost light", .before = "lit", .after = "dark"},
    {.side = "transmit", .lost = "lost signal", .before = "with a signal", .after = "without a signal"},
    {.side = "transmit", .lost = "had a fault", .before = "without a fault", .after = "with a fault"},
    {.side = "transmit", .lost = "had an equaliser fault", .before = "without an equaliser fault",
     .after = "with an equaliser fault"},
    {.side = "receive", .lost = "lost lock", .before = "in lock", .after = "out of lock"},
    {.side = "transmit", .lost = "lost lock", .before = "in lock", .after = "out of lock"},
};

struct lane lane_of(unsigned bit)
{
    struct lane lane = KINDS[bit / LANES];

    lane.number = bit % LANES + 1;
    return lane;
}

bool *lines_of(const uint8_t *sample, bool lines[LINES])
{
    for (unsigned bit = 0; bit < LINES; bit++)
        lines[bit] = line_of(sample, bit);
    return lines;
}

unsigned of_kind(const bool lines[LINES], unsigned kind)
{
    unsigned count = 0;

    for (unsigned i = 0; i < LANES; i++)
        count += lines[kind * LANES + i];
    return count;
}

char *lines_words(const bool lines[LINES], char text[LINES_ROOM])
{
    size_t used = 0;

    text[0] = '\0';
    for (unsigned bit = 0; bit < LINES; bit++) {
        bool all = of_kind(lines, bit / LANES) == LANES;
        const char *name = line_kept(bit), *between = used ? ", " : "";
        if (!lines[bit] || (all && bit % LANES > 0))
            continue;
        used += (size_t)snprintf(text + used, LINES_ROOM - used, "%s%.3s%s%s", between, name, all ? "-4" : "", name + 3);
    }
    return text;
}

char *lost_words(const bool lines[LINES], char text[LINES_ROOM])
{
    size_t used = 0;

    text[0] = '\0';
    for (unsigned kind = 0; kind < LINE_KINDS; kind++)
        if (of_kind(lines, kind) > 0)
            used += (size_t)snprintf(text + used, LINES_ROOM - used, "%s%u of %d %s lanes %s", used ? "; " : "",
                                     of_kind(lines, kind), LANES, KINDS[kind].side, KINDS[kind].lost);
    return text;
}

bool line_in(const char *word, uint64_t *bit)
{
    char text[NAME_ROOM];

    for (unsigned i = 0; i < LINES; i++)
        if (strcasecmp(word, line_word(i, text, sizeof text)) == 0 || strcasecmp(word, line_name(i, text, sizeof text)) == 0) {
            *bit = i;
            return true;
        }
    if (isdigit((unsigned char)word[0]))
        return number_in(word, "the line", bit);
    fail("the line '%s' is none: lines are such as rx3, tx1, rx2-lock, tx2-lock, tx4-fault and tx1-eq, names such as "
         "'Rx3 loss of signal', and numbers, 0 to %d", word, LINES - 1);
    return false;
}
