/* words.c: see words.h. */
#include "words.h"
#include "command.h"
#include "names.h"

#include <errno.h>
#include <stdlib.h>
#include <string.h>

bool number_in(const char *word, const char *what, uint64_t *number)
{
    bool hex = word[0] == '0' && (word[1] == 'x' || word[1] == 'X');
    const char *digits = hex ? word + 2 : word;
    size_t good = strspn(digits, hex ? "0123456789abcdefABCDEF" : "0123456789");

    errno = 0;
    *number = strtoull(digits, NULL, hex ? 16 : 10);
    if (good > 0 && digits[good] == '\0' && errno == 0)
        return true;
    fail("%s '%s' is no number, in decimal or after 0x in hex, of 64 bits at most", what, word);
    return false;
}

bool port_in(const char *word, uint64_t *port)
{
    for (*port = ZIKHRODAN_OPERATOR; *port <= ZIKHRODAN_RECORDER; ++*port)
        if (strcmp(word, port_name(*port)) == 0)
            return true;
    if (word[0] >= '0' && word[0] <= '9')
        return number_in(word, "the port", port);
    fail("the port '%s' is neither operator nor recorder, nor a number", word);
    return false;
}

/* Says that an option's word is missing: "SECONDS", where the usage or the help has "--period SECONDS". */
static void say_option(const char *name, const struct command *command)
{
    const char *const texts[] = {command->usage, command->help};
    size_t len = strlen(name);

    for (unsigned i = 0; i < 2; i++)
        for (const char *at = strstr(texts[i], name); at; at = strstr(at + len, name))
            if (at[len] == ' ' && at[len + 1] >= 'A' && at[len + 1] <= 'Z') {
                fail("%.*s is missing after %s (--help has an example)", (int)strcspn(at + len + 1, " ]\n"), at + len + 1, name);
                return;
            }
    fail("%s wants a word after it", name);
}

/* Takes one option, which stands at `words[at]`; gives how many words it has, or 0 with an error said. */
static int option_in(int given, char **words, int at, const struct option *options, const struct command *command)
{
    for (const struct option *o = options; o->name; o++) {
        if (strcmp(words[at], o->name) != 0)
            continue;
        if (o->flag) {
            *o->flag = true;
            return 1;
        }
        if (at + 1 < given) {
            *o->value = words[at + 1];
            return 2;
        }
        say_option(o->name, command);
        return 0;
    }
    fail("there is no option '%s' (--help says which there are)", words[at]);
    return 0;
}

/* Every word that starts "--" stands for an option, and of those with one dash the ones that there are. */
static bool is_option(const char *word, const struct option *options)
{
    bool found = strncmp(word, "--", 2) == 0;

    for (const struct option *o = options; o->name && !found; o++)
        found = strcmp(word, o->name) == 0;
    return found;
}

/* Says which word is missing, the one after `given` of those that the usage has outside brackets, but for an option's. */
static void say_missing(const char *usage, int given)
{
    size_t len = 0;
    unsigned brackets = 0;
    bool of_option = false;

    for (const char *at = usage; *at; at += len, at += strspn(at, " ")) {
        bool counts = !of_option && brackets == 0 && *at != '[' && *at != '-';
        len = strcspn(at, " ");
        for (size_t i = 0; i < len; i++)
            brackets += (at[i] == '[') - (at[i] == ']');
        of_option = *at == '-';
        if (counts && given-- == 0) {
            size_t dots = len > 2 && strncmp(at + len - 2, "..", 2) == 0 ? 2 : 0;
            fail("%.*s is missing (--help has an example)", (int)(len - dots), at);
            return;
        }
    }
}

bool words_in(int *given, char **words, const struct option *options, const struct command *command, int least, int most)
{
    int left = 0, at = 0;

    while (at < *given) {
        if (strcmp(words[at], "--") == 0) {
            while (++at < *given)
                words[left++] = words[at];
        } else if (is_option(words[at], options)) {
            int taken = option_in(*given, words, at, options, command);
            if (taken == 0)
                return false;
            at += taken;
        } else {
            words[left++] = words[at++];
        }
    }
    *given = left;
    if (left < least)
        say_missing(command->usage, left);
    else if (left > most)
        fail("'%s' is a word too many (--help says which there are)", words[most]);
    return left >= least && left <= most;
}
