/* script.c: follows the lines of a script; those that set up are here, those that make calls in lines.c and log_lines.c. */
#include "script.h"

#include "both.h"
#include "check.h"
#include "lines.h"
#include "outcome.h"

#include <string.h>

enum { IMAGE = 640 };

void script_begin(void)
{
    memset(&now, 0, sizeof now);
    now.place = AT_END;
}

/* ---- lines that set up */

static bool set_memory(struct words *words, enum memory memory)
{
    static uint8_t filled[REGION];
    uint64_t len = 0;
    uint8_t byte = 0;
    bool is_null = words_skip(words, "null");
    if (!is_null && (!words_number(words, VAST + VAST_MORE, &len) || !words_byte(words, &byte)))
        return false;
    if (!words_end(words) || (len > REGION && (len < VAST || byte)))
        return false;
    memset(filled, byte, sizeof filled);
    now.begun = (struct bytes){ is_null ? NULL : filled, (size_t)len };
    now.memory = memory;
    now.used = 0;
    both_begin(now.begun, now.place);
    return true;
}

static bool set_state(struct words *words, FILE *found)
{
    (void)found;
    return set_memory(words, MODULE);
}

static bool set_eight(struct words *words, FILE *found)
{
    (void)found;
    return set_memory(words, EIGHT);
}

static bool set_log(struct words *words, FILE *found)
{
    (void)found;
    return set_memory(words, LOG);
}

static bool set_used(struct words *words, FILE *found)
{
    (void)found;
    return words_number(words, UINT64_MAX, &now.used) && words_end(words);
}

/* A place, and at least one byte, all of them within so many. */
static bool placed(struct words *words, size_t len, uint64_t *at, struct bytes *bytes)
{
    static uint8_t into[REGION];
    return words_number(words, REGION, at) && words_bytes(words, into, bytes) && words_end(words) && bytes->at && bytes->len &&
           *at <= len && bytes->len <= len - *at;
}

static bool put(struct words *words, FILE *found)
{
    struct bytes bytes;
    uint64_t at;
    (void)found;
    if (!placed(words, memory_seen(), &at, &bytes))
        return false;
    for (size_t i = 0; i < bytes.len; i++)
        make(a_put(at + i, bytes.at[i]));
    return true;
}

static bool set_image(struct words *words, FILE *found)
{
    uint64_t len = IMAGE;
    (void)found;
    if (words_end(words))
        memcpy(now.image, options.image, IMAGE);
    else if (!words_number(words, REGION, &len) || !words_end(words))
        return false;
    memset(now.image + IMAGE, 0, REGION - IMAGE);
    now.image_len = (size_t)len;
    return true;
}

static bool change(struct words *words, FILE *found)
{
    struct bytes bytes;
    uint64_t at;
    (void)found;
    if (!placed(words, now.image_len, &at, &bytes))
        return false;
    memcpy(now.image + at, bytes.at, bytes.len);
    return true;
}

static bool set_place(struct words *words, FILE *found)
{
    (void)found;
    for (int i = 0; i < PLACES; i++)
        if (words_skip(words, place_words[i])) {
            now.place = (enum place)i;
            return words_end(words);
        }
    return false;
}

/* ---- a look: no call */

static bool look(struct words *words, FILE *found)
{
    uint64_t at, count;
    if (!words_number(words, REGION, &at) || !words_number(words, REGION, &count) || !words_end(words) || !count ||
        at + count > memory_seen())
        return false;
    (now.memory == MODULE ? outcome_bytes : outcome_many)(found, both_state() + at, (size_t)count);
    return true;
}

/* ---- lines */

static const struct {
    const char *word;
    enum memory on;
    enum line line;
    bool (*follow)(struct words *words, FILE *found);
} kinds[] = {
    { "state", ANY, LINE_SETS_UP, set_state }, { "eight", ANY, LINE_SETS_UP, set_eight }, { "log", ANY, LINE_SETS_UP, set_log },
    { "used", LOG, LINE_SETS_UP, set_used }, { "put", MODULE, LINE_SETS_UP, put }, { "put", EIGHT, LINE_SETS_UP, put },
    { "put", LOG, LINE_SETS_UP, put }, { "image", ANY, LINE_SETS_UP, set_image },
    { "change", ANY, LINE_SETS_UP, change }, { "place", ANY, LINE_SETS_UP, set_place },
    { "look", MODULE, LINE_ANSWERS, look }, { "look", EIGHT, LINE_ANSWERS, look }, { "look", LOG, LINE_ANSWERS, look },
    { "reset", MODULE, LINE_ANSWERS, line_reset }, { "sample", MODULE, LINE_ANSWERS, line_sample },
    { "samples", MODULE, LINE_ANSWERS, line_samples }, { "read", MODULE, LINE_ANSWERS, line_read },
    { "write", MODULE, LINE_ANSWERS, line_write }, { "identity", MODULE, LINE_ANSWERS, line_identity },
    { "monitor", MODULE, LINE_ANSWERS, line_monitor }, { "limits", MODULE, LINE_ANSWERS, line_limits },
    { "limit", MODULE, LINE_ANSWERS, line_limit }, { "reset", EIGHT, LINE_ANSWERS, line_reset_eight },
    { "sample", EIGHT, LINE_ANSWERS, line_sample }, { "samples", EIGHT, LINE_ANSWERS, line_samples },
    { "read", EIGHT, LINE_ANSWERS, line_read }, { "write", EIGHT, LINE_ANSWERS, line_write },
    { "add", LOG, LINE_ANSWERS, line_add }, { "adds", LOG, LINE_ANSWERS, line_adds },
    { "power-up", LOG, LINE_ANSWERS, line_power_up }, { "sample", LOG, LINE_ANSWERS, line_sample_at },
    { "first", LOG, LINE_ANSWERS, line_first },
};

enum line script_follow(const char *line, FILE *found, bool *agree)
{
    struct words words = { line };
    now.agreed = true;
    now.changed = false;
    *agree = true;
    if (words_end(&words) || words.rest[0] == '#')
        return LINE_NOTE;
    for (size_t i = 0; i < sizeof kinds / sizeof kinds[0]; i++) {
        if ((kinds[i].on != ANY && kinds[i].on != now.memory) || !words_skip(&words, kinds[i].word))
            continue;
        if (!kinds[i].follow(&words, found))
            return LINE_NOT_READ;
        if (now.changed)
            fputs(" AND CHANGED BYTES", found);
        *agree = now.agreed;
        return kinds[i].line;
    }
    return LINE_NOT_READ;
}
