/* log_power_up.c: zikhrodan log power-up. */
#include "command.h"
#include "log.h"
#include "logcalls.h"
#include "why.h"
#include "words.h"

#include <inttypes.h>
#include <stdio.h>

static int log_power_up_command(int given, char **words)
{
    static const struct option options[] = {{0}};

    if (!words_in(&given, words, options, &LOG_POWER_UP, 1, 1))
        return USAGE_OR_FILE;
    struct logfile log = {.name = words[0], .fd = -1};
    int status = log_begin(&log);
    if (status == DONE) {
        uint32_t refusal = log_power_up(&log);
        status = refusal != ZIKHRODAN_ACCEPTED ? refused(refusal, why_change(&log, refusal), "%s", words[0]) : log_commit(&log);
    }
    if (status == DONE) {
        printf("block %" PRIu64 " is opened\n", log_number(&log, log.used - 1));
        say_used(&log);
    }
    log_close(&log);
    return status;
}

const struct command LOG_POWER_UP = {
    .name = "power-up",
    .usage = "FILE",
    .brief = "opens a new block",
    .help = "Opens a new block, as a module that was powered up does: the samples that come\n"
            "are in a block of their own. The block before stays as it is, also if it has no\n"
            "sample.",
    .examples = "    $ zikhrodan log new trial/own.log 50\n"
                "    trial/own.log has room for 50 blocks, of 16 samples each\n"
                "    $ zikhrodan log power-up trial/own.log\n"
                "    block 1 is opened\n"
                "    trial/own.log: 1 of 50 blocks used\n",
    .run = log_power_up_command,
};
