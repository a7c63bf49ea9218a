/* compare: makes the same calls on the library and on the plain engine, and compares all that they answer and leave behind.
 *
 *   compare [--calls N] [--pairs N] [--seed N] [--first] [--only GROUP] IMAGE
 *   compare follow IMAGE FILE
 *
 * IMAGE is a factory image, 640 two-digit hexadecimal numbers. --calls is for the module's random histories, and those of the
 * eight-channel module and of a log make a part as many; --pairs is for the pairs of runs of demand 3; --first ends at the first
 * group that fails. `follow` makes the calls of a script, as what is printed of a mismatch is one: see script.h and follow.h. */
#include "check.h"
#include "follow.h"
#include "groups.h"

#include <errno.h>
#include <stdio.h>
#include <stdlib.h>
#include <string.h>

/* Those first that show most faults in the fewest calls. */
static const struct group {
    const char *name;
    void (*run)(void);
} groups[] = {
    { "refusals", group_refusals }, { "eight-refusals", group_eight_refusals }, { "log-blocks", group_log_blocks },
    { "log-refusals", group_log_refusals }, { "log-summaries", group_log_summaries }, { "log-first", group_log_first },
    { "log-histories", group_log_histories }, { "log-lengths", group_log_lengths }, { "histories", group_histories },
    { "eight-histories", group_eight_histories }, { "eight-sample", group_eight_sample },
    { "eight-lengths", group_eight_lengths }, { "eight-write", group_eight_write }, { "eight-records", group_eight_records },
    { "eight-read", group_eight_read }, { "lengths", group_lengths }, { "vast", group_vast },
    { "ends", group_ends }, { "identity", group_identity }, { "reset", group_reset }, { "select", group_select },
    { "sample", group_sample }, { "write", group_write }, { "limits", group_limits }, { "records", group_records },
    { "monitors", group_monitors }, { "read", group_read }, { "starts", group_starts }, { "odd", group_odd },
    { "log-damage", group_log_damage }, { "log-far", group_log_far }, { "log-first-far", group_log_first_far },
    { "demand-3", group_demand_3 }, { "eight-demand-3", group_eight_demand_3 },
};
enum { GROUPS = sizeof groups / sizeof groups[0] };

/* Everything else has what is lent right before unreadable memory. */
static void elsewhere(enum place place)
{
    place_at(place);
    group_refusals();
    group_lengths();
    group_ends();
    group_select();
    group_log_refusals();
    group_log_blocks();
    group_log_first();
    group_log_lengths();
    group_eight_refusals();
    group_eight_lengths();
    place_at(AT_END);
}

void group_starts(void)
{
    elsewhere(AT_START);
    say(" with what is lent right after unreadable memory");
}

void group_odd(void)
{
    elsewhere(AT_ODD);
    say(" with what is lent at odd addresses between canary bytes");
}

static _Noreturn void usage(void)
{
    fputs("usage: compare [--calls N] [--pairs N] [--seed N] [--first] [--only GROUP] IMAGE | follow IMAGE FILE\n", stderr);
    exit(2);
}

static uint64_t number(const char *word, uint64_t greatest)
{
    char *end;
    if (!word || word[0] < '0' || word[0] > '9')
        usage();
    errno = 0;
    uint64_t value = strtoull(word, &end, 10);
    if (errno || *end || value > greatest)
        usage();
    return value;
}

static void load_image(const char *path)
{
    FILE *file = fopen(path, "r");
    size_t count = 0;
    unsigned byte;
    char after;
    if (!file) {
        fprintf(stderr, "compare: %s: %s\n", path, strerror(errno));
        exit(2);
    }
    while (count < sizeof options.image && fscanf(file, "%2x", &byte) == 1 && byte <= 0xff)
        options.image[count++] = (uint8_t)byte;
    if (count < sizeof options.image || fscanf(file, " %c", &after) != EOF) {
        fprintf(stderr, "compare: %s: not an image of 640 hexadecimal numbers\n", path);
        exit(2);
    }
    fclose(file);
}

static const char *find_group(const char *word)
{
    for (int i = 0; word && i < GROUPS; i++)
        if (!strcmp(word, groups[i].name))
            return word;
    usage();
}

int main(int count, char **words)
{
    const char *image = NULL, *only = NULL;
    bool first = false;
    if (count == 4 && !strcmp(words[1], "follow")) {
        load_image(words[2]);
        check_prepare();
        return follow(words[3]);
    }
    options = (struct options){ .seed = SEED, .calls = 2000000, .pairs = 10000 };
    for (char **word = words + 1; *word; word++) {
        if (!strcmp(*word, "--calls"))
            options.calls = number(*++word, UINT64_MAX);
        else if (!strcmp(*word, "--pairs"))
            options.pairs = number(*++word, UINT64_MAX);
        else if (!strcmp(*word, "--seed"))
            options.seed = number(*++word, UINT64_MAX);
        else if (!strcmp(*word, "--only"))
            only = find_group(*++word);
        else if (!strcmp(*word, "--first"))
            first = true;
        else if (**word == '-' || image)
            usage();
        else
            image = *word;
    }
    if (!image)
        usage();
    load_image(image);
    check_prepare();
    for (int i = 0; i < GROUPS; i++)
        if ((!only || !strcmp(only, groups[i].name)) && !check_run(groups[i].name, groups[i].run) && first)
            break;
    return check_end();
}
