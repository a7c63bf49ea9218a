/* demo_keep.c: see demo_keep.h. */
#include "demo_keep.h"
#include "day.h"
#include "factory.h"
#include "files.h"
#include "kind.h"
#include "logcalls.h"
#include "say.h"
#include "signals.h"
#include "why.h"

#include <errno.h>
#include <limits.h>
#include <stdio.h>
#include <sys/stat.h>
#include <unistd.h>

enum { LOG_BLOCKS = DAY_MINUTES / ZIKHRODAN_BLOCK_SAMPLES + 10 }; /* ten are left, for who adds to it */
static uint8_t rows[DAY_MINUTES][ZIKHRODAN_SAMPLE_LEN], eight_rows[DAY_MINUTES][ZIKHRODAN_DD_SAMPLE_LEN];
static uint8_t state[ZIKHRODAN_STATE_LEN], eight_state[ZIKHRODAN_DD_STATE_LEN];

/* A log's file of the day, by the steps of `log new` and `log add`; one that is not whole is gone again. */
static int make_log(const char *name)
{
    struct logfile log = {.name = name, .fd = -1};
    sigset_t before;

    hold_signals(&before);
    int status = log_make(name, LOG_BLOCKS), made = status == DONE;
    status = made ? log_begin(&log) : status;
    for (unsigned minute = 0; minute < DAY_MINUTES && status == DONE; minute++) {
        uint32_t refusal = log_add(&log, rows[minute], sizeof rows[minute]);
        status = refusal != ZIKHRODAN_ACCEPTED ? refused(refusal, why_change(&log, refusal), "%s", name) : DONE;
    }
    status = status == DONE ? log_commit(&log) : status;
    log_close(&log);
    if (made && status != DONE)
        unlink(name);
    let_signals(&before);
    return status;
}

/* The files of each demo, and what is said of them; the log's bytes are the library's to write. */
static const struct kept {
    struct { const char *name; const uint8_t *bytes; size_t len; } files[4]; /* up to one that has no name */
    const char *words;
} FOUR_KEPT = {
    {{"factory.image", FACTORY_IMAGE, ZIKHRODAN_IMAGE_LEN},
     {"day.rows", rows[0], sizeof rows},
     {"module.state", state, sizeof state},
     {"day.log", NULL, 0}},
    "factory.image, day.rows, module.state, a module that is reset\n"
    "and has been fed nothing yet, and day.log, a log that has the day's samples.",
}, EIGHT_KEPT = {
    {{"eight.rows", eight_rows[0], sizeof eight_rows}, {"eight.state", eight_state, sizeof eight_state}},
    "eight.rows, the day's rows, and eight.state, an eight-channel\n"
    "module that is reset and has been fed nothing yet.",
};
enum { KEPT = sizeof FOUR_KEPT.files / sizeof FOUR_KEPT.files[0] };

static const struct kept *kept_of(bool eight)
{
    return eight ? &EIGHT_KEPT : &FOUR_KEPT;
}

static int make_bytes(void)
{
    uint32_t four = zikhrodan_reset(state, sizeof state, FACTORY_IMAGE, sizeof FACTORY_IMAGE);
    uint32_t eight = zikhrodan_dd_reset(eight_state, sizeof eight_state);

    if (zikhrodan_refusal_of(four) != ZIKHRODAN_ACCEPTED)
        return refused(zikhrodan_refusal_of(four), zikhrodan_words(zikhrodan_refusal_of(four)), "the built-in factory image");
    if (zikhrodan_refusal_of(eight) != ZIKHRODAN_ACCEPTED)
        return refused(zikhrodan_refusal_of(eight), EIGHT.words(zikhrodan_refusal_of(eight)), "a new module");
    for (unsigned minute = 0; minute < DAY_MINUTES; minute++) {
        day_sample(minute, rows[minute]);
        eight_day_sample(minute, eight_rows[minute]);
    }
    return DONE;
}

/* A file of the folder: made, or first looked for, which is an error: nothing that is there is replaced. */
static int keep_file(const struct kept *kept, const char *folder, unsigned file, bool look)
{
    char name[PATH_MAX];

    if (!kept->files[file].name)
        return DONE;
    if (snprintf(name, sizeof name, "%s/%s", folder, kept->files[file].name) >= (int)sizeof name)
        return fail("%s: the name is too long", folder);
    if (look)
        return lstat(name, &(struct stat){0}) == 0 ? fail("%s is there already, and is not replaced", name) : DONE;
    return kept->files[file].bytes ? replace(name, name, kept->files[file].bytes, kept->files[file].len, NULL) : make_log(name);
}

/* Each file, made or looked for. */
static int keep_files(const char *folder, bool eight, bool look)
{
    int status = DONE;

    for (unsigned i = 0; i < KEPT && status == DONE; i++)
        status = keep_file(kept_of(eight), folder, i, look);
    return status;
}

int demo_keeps(const char *folder, bool eight)
{
    return keep_files(folder, eight, true);
}

int demo_keep(const char *folder, bool eight)
{
    int status = make_bytes();

    if (status != DONE)
        return status;
    if (mkdir(folder, 0777) != 0 && errno != EEXIST)
        return fail_errno(folder);
    status = demo_keeps(folder, eight);
    status = status ? status : keep_files(folder, eight, false);
    if (status == DONE)
        printf("\nKept in %s: %s\n", folder, kept_of(eight)->words);
    return status;
}
