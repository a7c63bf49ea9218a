/* log_add.c: zikhrodan log add. */
#include "command.h"
#include "feed.h"
#include "log.h"
#include "words.h"

#include <limits.h>

static int log_add_command(int given, char **words)
{
    static struct feed feed = {.log = {.fd = -1}};
    static const struct option options[] = {{.name = "--raw", .flag = &feed.raw}, {0}};

    if (!words_in(&given, words, options, &LOG_ADD, 1, INT_MAX))
        return USAGE_OR_FILE;
    feed.log.name = words[0];
    return feed_all(&feed, words + 1, given - 1);
}

const struct command LOG_ADD = {
    .name = "add",
    .usage = "[--raw] FILE [ROWS.. | -]",
    .brief = "adds samples: rows of 31 bytes",
    .help = "Adds the rows of files, or of standard input, to the log, as `sample` takes them:\n"
            "a sample goes in the last block if that has room, else in a new one. A row that\n"
            "the library refuses ends it, with the row's number; the rows before it stay. At\n"
            "the end of each file and, from a pipe, whenever it pauses, the rows are made to\n"
            "last: what is said to be taken no kill and no power cut takes away.\n\n"
            RAW_HELP,
    .examples = "    $ zikhrodan log new trial/own.log 50\n"
                "    trial/own.log has room for 50 blocks, of 16 samples each\n"
                "    $ zikhrodan log add trial/own.log trial/day.log\n"
                "    zikhrodan: trial/day.log: it is a log, no rows; --raw takes it as rows all the same\n"
                "    [exit status 2]\n"
                "    $ head -c $((31 * 700)) trial/day.rows | zikhrodan log add trial/own.log -\n"
                "    700 rows taken\n"
                "    trial/own.log: 44 of 50 blocks used\n"
                "    $ zikhrodan log add trial/own.log trial/day.rows\n"
                "    zikhrodan: trial/own.log: at row 101 of trial/day.rows: refused 14, "
                "a new block is needed, and none is unused\n"
                "    100 rows taken\n"
                "    trial/own.log: 50 of 50 blocks used\n"
                "    [exit status 1]\n",
    .run = log_add_command,
};
