/* log_show.c: zikhrodan log show: a look. Asks the library for all that is shown; one of the forms prints it, row by row. */
#include "command.h"
#include "log.h"
#include "log_show.h"
#include "measure.h"
#include "why.h"
#include "words.h"

#include <inttypes.h>
#include <stdio.h>
#include <stdlib.h>

struct wanted {
    const char *from, *count;
    bool wide, json, csv;
};

/* Which samples are wanted: a position that there is not the library refuses. */
static int choose(struct log_view *view, const struct wanted *wanted)
{
    const struct logfile *log = &view->log;
    uint64_t samples = view->counts.samples, count = samples;

    if ((wanted->from && !number_in(wanted->from, "the position", &view->from)) ||
        (wanted->count && !number_in(wanted->count, "the count", &count)))
        return USAGE_OR_FILE;
    if (wanted->from) {
        uint64_t answer = zikhrodan_log_sample(log->bytes, log->held.blocks * ZIKHRODAN_BLOCK_LEN, log->used, view->from);
        if (zikhrodan_log_refusal(answer) != ZIKHRODAN_ACCEPTED)
            return refused(zikhrodan_log_refusal(answer), why_position(zikhrodan_log_refusal(answer)), "%s: position %" PRIu64,
                           log->name, view->from);
    } else if (count < samples) {
        view->from = samples - count;
    }
    view->until = count < samples - view->from ? view->from + count : samples;
    view->all = !wanted->from && !wanted->count;
    return DONE;
}

/* Prints the wanted samples; ends where nobody takes what is printed. */
static void print_rows(const struct log_view *view, const struct log_form *form)
{
    struct log_row row = {0};
    uint64_t first = 0; /* the position of a block's first sample */

    for (uint64_t place = 0; place < view->log.used && first < view->until; first += view->counts.of[place++]) {
        row.number = log_number(&view->log, place);
        for (unsigned i = 0; i < view->counts.of[place] && !ferror(stdout); i++) {
            row.position = first + i;
            if (row.position < view->from || row.position >= view->until)
                continue;
            row.sample = log_sample(&view->log, place, i);
            measure(factory_module(), row.sample, row.kinds, row.values);
            form->row(&row);
        }
    }
}

static int log_show(int given, char **words)
{
    static struct log_view view;
    struct wanted wanted = {0};
    const struct option options[] = {{"--from", &wanted.from, NULL}, {"--count", &wanted.count, NULL},
                                     {"--wide", NULL, &wanted.wide}, {"--json", NULL, &wanted.json}, {"--csv", NULL, &wanted.csv},
                                     {NULL, NULL, NULL}};

    if (!words_in(&given, words, options, &LOG_SHOW, 1, 1))
        return USAGE_OR_FILE;
    if (wanted.wide + wanted.json + wanted.csv > 1)
        return fail("--wide, --json and --csv are three forms: one at a time");
    const struct log_form *form = wanted.json ? &LOG_JSON : wanted.csv ? &LOG_CSV : wanted.wide ? &LOG_WIDE : &LOG_TEXT;
    int status = log_look(&view.log, words[0]);
    status = status ? status : counts_in(&view.counts, &view.log);
    status = status ? status : choose(&view, &wanted);
    if (status == DONE) {
        form->begin(&view);
        print_rows(&view, form);
        if (form->end)
            form->end();
    }
    free(view.counts.of);
    log_close(&view.log);
    return status;
}

const struct command LOG_SHOW = {
    .name = "show",
    .usage = "FILE [OPTION ..]",
    .brief = "what a log has",
    .help = "Shows how many samples are in how many of how many blocks, and of each sample\n"
            "its position, its block's number, temperature, supply, light received, and the\n"
            "status bits that are 1, by the words that `zikhrodan died` takes. Of more than\n"
            "40 samples the last 20 are shown. It is a look: FILE is not written.\n\n"
            "  --from N     from position N on, the first sample's being 0\n"
            "  --count N    N samples at most; without --from the last ones\n"
            "  --wide       every number of a sample, and names: more than 80 columns\n"
            "  --json       for programs: an object with the log's room, its used blocks,\n"
            "               and all that is known of each sample, a line each\n"
            "  --csv        for spreadsheets: a line of names, then a line for each sample\n\n"
            "--wide, --json and --csv go one at a time; the last two show all samples unless\n"
            "--from or --count is given, and --json then the blocks of those alone.",
    .examples = "    $ zikhrodan log show trial/day.log | head -n 2\n"
                "    trial/day.log: 1440 samples in 90 of 100 blocks\n"
                "    the last 20 of them; --from 0 shows all, --from N --count N some\n"
                "    $ zikhrodan log show trial/day.log --from 827 --count 1 | tail -n 1\n"
                "         827         52    40.85 3.3008 0.5280 0.5240 0.0000 0.5160  rx3\n"
                "    $ zikhrodan log show trial/day.log --from 827 --count 1 --wide | tail -n 1\n"
                "         827         52     40.8477 3.3008 0.5280 0.5240 0.0000 0.5160   6.006   6.004   6.002   6.000"
                " 0.9980 0.9960 0.9940 0.9920  Rx3 loss of signal\n"
                "    $ zikhrodan log show trial/day.log --csv --from 827 --count 2 | cut -d , -f 1-4\n"
                "    position,block,temperature C,supply V\n"
                "    827,52,40.84765625,3.3008\n"
                "    828,52,40.859375,3.2994\n",
    .run = log_show,
};
