/* report.c: zikhrodan report: a page of a log, for people to look at. */
#include "command.h"
#include "files.h"
#include "measure.h"
#include "paths.h"
#include "report.h"
#include "words.h"

#include <errno.h>
#include <inttypes.h>
#include <stdlib.h>
#include <string.h>
#include <strings.h>
#include <sys/stat.h>

struct wanted {
    const char *page, *period, *start, *state;
};

static bool is_file(const char *path, const char *name)
{
    struct stat one, other;

    return stat(path, &one) == 0 && stat(name, &other) == 0 && one.st_dev == other.st_dev && one.st_ino == other.st_ino;
}

/* What is there already is a page, or is empty. */
static int only_a_page(const char *path, const char *name)
{
    uint8_t front[sizeof PAGE_FRONT - 1];
    struct stat there;
    size_t len = 0;

    if (stat(path, &there) != 0)
        return errno == ENOENT ? DONE : fail_errno(name);
    int status = load(path, name, front, sizeof front, &len);
    if (status == DONE && len > 0 && (len < sizeof front || memcmp(front, PAGE_FRONT, sizeof front) != 0))
        return fail("%s is there already, is no page, and is not replaced", name);
    return status;
}

/* Where the page goes: a page, an empty file, or none yet, which is neither the log nor the state. */
static int find_place(const struct wanted *wanted, const char *log, char **path)
{
    if (strcmp(wanted->page, "-") == 0)
        return fail("the page goes to a file, not to standard output");
    const char *dot = strrchr(wanted->page, '.');
    if (!dot || (strcasecmp(dot, ".html") != 0 && strcasecmp(dot, ".htm") != 0))
        return fail("%s: the page is HTML, and its file's name ends in .html or .htm", wanted->page);
    *path = resolved(wanted->page, true);
    if (!*path)
        return fail_errno(wanted->page);
    if (is_file(*path, log) || (wanted->state && is_file(*path, wanted->state)))
        return fail("%s is what the page is made of, and is not replaced by it", wanted->page);
    int status = regular(*path, wanted->page, "a page");
    return status ? status : only_a_page(*path, wanted->page);
}

/* The module whose limits are drawn. */
static int find_module(struct report *report, const char *name)
{
    static const unsigned quantities[] = {ZIKHRODAN_OF_RX_POWER, ZIKHRODAN_OF_TX_POWER};

    report->module_name = name;
    if (!name)
        report->module = *factory_module();
    int status = name ? state_peek(&report->module, name, &FOUR) : DONE;
    for (unsigned i = 0; i < 2 && status == DONE; i++) {
        uint32_t refusal = zikhrodan_limits_refusal(report->module.bytes, report->module.len, quantities[i]);
        status = refusal != ZIKHRODAN_ACCEPTED ? refused(refusal, zikhrodan_words(refusal), "%s", module_words(report)) : DONE;
    }
    return status;
}

static int gather(struct report *report, const char *name)
{
    char local[MOMENT_ROOM], utc[MOMENT_ROOM];
    int status = log_look(&report->log, name);

    status = status ? status : counts_in(&report->counts, &report->log);
    status = status ? status : power_ups_in(&report->power_ups, &report->counts, name);
    uint64_t samples = report->counts.samples;
    if (status == DONE && report->moments.known && !moment_of(&report->moments, samples ? samples - 1 : 0, local, utc))
        status = USAGE_OR_FILE;
    return status ? status : report_read(report);
}

/* The whole page in memory, then in its file. */
static int write_page(const struct report *report, const char *path, const char *name)
{
    char *bytes = NULL;
    size_t len = 0;
    FILE *page = open_memstream(&bytes, &len);

    if (!page)
        return fail_errno(name);
    put_head(page, report);
    if (report->counts.samples > 0) {
        put_bands(page, report);
        put_levels(page, report);
        put_tables(page, report);
    }
    if (report->power_ups.number > 0)
        put_listed_power_ups(page, report);
    put_foot(page, report);
    bool whole = !ferror(page);
    int status = fclose(page) != 0 || !whole ? fail_errno(name) : replace(path, name, (const uint8_t *)bytes, len, NULL);
    free(bytes);
    return status;
}

static void say_page(const struct report *report, const char *name)
{
    unsigned order[LINES];
    char lost[LINES_ROOM];

    printf("%s: ", name);
    if (report->counts.samples == 0)
        puts("the log has no samples");
    else if (lines_in_order(report, order) == 0)
        puts(NOTHING_LOST);
    else
        printf("%s; the first at position %" PRIu64 "\n", lost_in(report, lost), report->bands[order[0]].first - 1);
}

static int report_log(int given, char **words)
{
    static struct report report;
    struct wanted wanted = {0};
    const struct option options[] = {{"-o", &wanted.page, NULL}, {"--period", &wanted.period, NULL},
                                     {"--start", &wanted.start, NULL}, {"--state", &wanted.state, NULL}, {NULL, NULL, NULL}};
    char *path = NULL;

    if (!words_in(&given, words, options, &REPORT, 1, 1) || !moments_in(wanted.period, wanted.start, &report.moments))
        return USAGE_OR_FILE;
    if (!wanted.page)
        return fail("-o is missing, and after it where the page goes: a file such as day.html");
    int status = find_place(&wanted, words[0], &path);
    status = status ? status : find_module(&report, wanted.state);
    status = status ? status : gather(&report, words[0]);
    status = status ? status : write_page(&report, path, wanted.page);
    if (status == DONE)
        say_page(&report, wanted.page);
    free(path);
    free(report.counts.of);
    free(report.power_ups.at);
    log_close(&report.log);
    return status;
}

const struct command REPORT = {
    .name = "report",
    .usage = "LOG -o FILE.html [OPTION ..]",
    .brief = "a page of a log, to look at",
    .help = "Writes a page of what happened on the lanes: which lost light, signal or lock or\n"
            "had a fault, between which two samples, and which are dark in the last; a band\n"
            "for each of the 24 status bits over the samples, with its dark stretches; light\n"
            "levels beside their limits; power-ups; and the numbers behind the pictures in\n"
            "tables. It opens in any browser, prints on A4, and has no parts outside it. It\n"
            "is written whole or not at all; LOG is not written.\n\n"
            "  -o FILE.html      where the page goes, in a name that ends in .html or .htm; a\n"
            "                    page that is there is replaced; another file is not\n"
            "  --period SECONDS  from one sample to the next, such as 60, and\n"
            "  --start TIME      when the first was taken, such as 2026-11-15T08:00, or with\n"
            "                    Z or +01:00 after it: the page has hours too. They go\n"
            "                    together\n"
            "  --state STATE     a module that measures, and whose limits are drawn; else it\n"
            "                    is one that is reset to the built-in factory image",
    .examples = "    $ zikhrodan report trial/day.log -o trial/day.html\n"
                "    trial/day.html: 1 of 4 receive lanes lost light; the first at position 827\n"
                "    $ TZ=UTC zikhrodan report trial/day.log -o trial/day.html --period 60 --start 2026-11-15T00:00\n"
                "    trial/day.html: 1 of 4 receive lanes lost light; the first at position 827\n"
                "    $ grep -o 'datetime=\"[^\"]*13:47[^\"]*\"' trial/day.html | sort -u\n"
                "    datetime=\"2026-11-15T13:47:00+00:00\"\n",
    .run = report_log,
};
