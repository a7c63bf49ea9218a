/* died_json.c: the form of `zikhrodan died` for programs. */
#include "died.h"
#include "log_json.h"

#include <stdio.h>

static struct json json;

static void whole_or_null(const char *key, bool known, uint64_t number)
{
    json_key(&json, key);
    known ? json_whole(&json, number) : json_null(&json);
}

static void words_or_null(const char *key, const char *words)
{
    json_key(&json, key);
    words[0] ? json_words(&json, words) : json_null(&json);
}

static void bool_or_null(const char *key, bool known, bool value)
{
    json_key(&json, key);
    known ? json_bool(&json, value) : json_null(&json);
}

static void line(const struct death *death)
{
    char word[LINE_WORD_ROOM], name[NAME_ROOM];

    json_begin(&json, '{');
    whole_or_null("bit", true, death->bit);
    words_or_null("line", line_word(death->bit, word, sizeof word));
    words_or_null("name", line_name(death->bit, name, sizeof name));
    whole_or_null("position", death->died, death->position);
    whole_or_null("block", death->died, death->number);
    words_or_null("lit_at", death->lit.utc);
    words_or_null("lit_at_local", death->lit.local);
    bool_or_null("lit_or_later", death->died && death->position > 0, death->lit.or_later);
    words_or_null("dark_at", death->dark.utc);
    words_or_null("dark_at_local", death->dark.local);
    bool_or_null("or_later", death->died, death->dark.or_later);
    bool_or_null("while_off", death->died, death->while_off);
    bool_or_null("in_first_sample", death->died, death->position == 0);
    bool_or_null("maybe_before_log", death->died, true);
    whole_or_null("power_ups_before", death->died, death->power_ups);
    json_end(&json);
}

void died_json(const struct died_view *view)
{
    bool died[LINES] = {false};
    char summary[LINES_ROOM];

    died_lines(view, died);
    json_begin(&json, '{');
    json_log(&json, &view->log, &view->counts);
    words_or_null("summary", lost_words(died, summary));
    json_key(&json, "power_ups");
    json_begin(&json, '[');
    for (uint64_t i = 0; i < view->seen.number && !ferror(stdout); i++)
        json_whole(&json, view->seen.at[i]);
    json_end(&json);
    json_key(&json, "lines");
    json_list(&json);
    for (unsigned i = 0; i < view->lines; i++)
        line(&view->deaths[i]);
    json_end(&json);
    json_end(&json);
}
