/* sample.c: zikhrodan sample. */
#include "command.h"
#include "feed.h"
#include "words.h"

#include <limits.h>

static int sample(int given, char **words)
{
    static struct feed feed = {.log = {.fd = -1}};
    static const struct option options[] = {{.name = "--log", .value = &feed.log.name}, {.name = "--raw", .flag = &feed.raw}, {0}};

    if (!words_in(&given, words, options, &SAMPLE, 1, INT_MAX))
        return USAGE_OR_FILE;
    feed.name = words[0];
    return feed_all(&feed, words + 1, given - 1);
}

const struct command SAMPLE = {
    .name = "sample",
    .usage = "STATE [ROWS.. | -] [OPTION ..]",
    .brief = "feeds samples, rows of 31 bytes or 14",
    .help = "Feeds the rows of files, or of standard input, to the module, one after the\n"
            "other, and says how many were taken and how many flags each port's masks let\n"
            "through. A row is 31 bytes, an eight-channel module's 14: a condition byte for\n"
            "each of its flag bytes. A row that the library refuses ends it, with the row's\n"
            "number; the state is then that of the row before. On a terminal a long input\n"
            "shows how far it is. The state is saved at the end of each file and, from a\n"
            "pipe, whenever it pauses, so that rows can come in all day long while others\n"
            "read the state.\n\n"
            "  --log FILE    the rows go into a log too (`zikhrodan log`): row by row, and a\n"
            "                row that either refuses neither has. The log is committed before\n"
            "                the state is saved, so that it is never behind. An eight-channel\n"
            "                module's rows go into no log\n"
            RAW_HELP,
    .examples = "    $ zikhrodan sample trial/module.state trial/day.rows\n"
                "    1440 rows taken\n"
                "    operator: 3 flags let through, interrupt\n"
                "    recorder: 3 flags let through, interrupt\n"
                "    $ head -c 100 trial/day.rows | zikhrodan sample trial/module.state -\n"
                "    zikhrodan: standard input: row 4: refused 8, the sample isn't 31 bytes\n"
                "    3 rows taken\n"
                "    operator: 3 flags let through, interrupt\n"
                "    recorder: 3 flags let through, interrupt\n"
                "    [exit status 1]\n"
                "    $ zikhrodan log new trial/own.log 90\n"
                "    trial/own.log has room for 90 blocks, of 16 samples each\n"
                "    $ zikhrodan sample --log trial/own.log trial/module.state trial/day.rows\n"
                "    1440 rows taken\n"
                "    operator: 3 flags let through, interrupt\n"
                "    recorder: 3 flags let through, interrupt\n"
                "    trial/own.log: 90 of 90 blocks used\n"
                "    $ zikhrodan demo --eight --keep trial | tail -n 2\n"
                "    Kept in trial: eight.rows, the day's rows, and eight.state, an eight-channel\n"
                "    module that is reset and has been fed nothing yet.\n"
                "    $ zikhrodan sample trial/eight.state trial/eight.rows\n"
                "    1440 rows taken\n"
                "    operator (eight channels): 4 pending flags let through, interrupt\n"
                "    recorder (eight channels): 4 pending flags let through, interrupt\n",
    .run = sample,
};
