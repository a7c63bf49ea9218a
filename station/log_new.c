/* log_new.c: zikhrodan log new. */
#include "command.h"
#include "log.h"
#include "logfile.h"
#include "words.h"

#include <inttypes.h>
#include <stdio.h>

enum { MOST_BLOCKS = 4194304 }; /* 2 GiB of them */

static int log_new(int given, char **words)
{
    static const struct option options[] = {{0}};
    uint64_t blocks;

    if (!words_in(&given, words, options, &LOG_NEW, 2, 2) || !number_in(words[1], "the number of blocks", &blocks))
        return USAGE_OR_FILE;
    if (blocks < 1 || blocks > MOST_BLOCKS)
        return fail("the number of blocks '%s' is not 1 to %d", words[1], MOST_BLOCKS);
    int status = log_make(words[0], blocks);
    if (status == DONE)
        printf("%s has room for %" PRIu64 " block%s, of %d samples each\n", words[0], blocks, plural(blocks),
               ZIKHRODAN_BLOCK_SAMPLES);
    return status;
}

const struct command LOG_NEW = {
    .name = "new",
    .usage = "FILE BLOCKS",
    .brief = "makes a log's file",
    .help = "Makes a file for a log of so many blocks of 512 bytes, 1 to 4194304 (2 GiB);\n"
            "each block takes up to 16 samples, and none is used yet. All room is taken on\n"
            "the disk at once. A file that is there is not replaced.",
    .examples = "    $ zikhrodan log new trial/own.log 100\n"
                "    trial/own.log has room for 100 blocks, of 16 samples each\n"
                "    $ zikhrodan log new trial/own.log 200\n"
                "    zikhrodan: trial/own.log is there already, and is not replaced\n"
                "    [exit status 2]\n",
    .run = log_new,
};
