/* log.c: zikhrodan log: commands of its own, each in a file of its own. */
#include "log.h"

#include <stddef.h>

static const struct command *const PARTS[] = {&LOG_NEW, &LOG_ADD, &LOG_POWER_UP, &LOG_SHOW, NULL};

const struct command LOG = {
    .name = "log",
    .usage = "COMMAND FILE ..",
    .brief = "a log of samples in a file",
    .help = "A log keeps samples in a file, in blocks of 512 bytes with a number and a sum\n"
            "each, so that damage is seen. It is no part of a module's memory, and no port\n"
            "reads it. What a command says is taken no kill and no power cut takes away.",
    .examples = "    $ zikhrodan log new trial/own.log 100\n"
                "    trial/own.log has room for 100 blocks, of 16 samples each\n"
                "    $ zikhrodan log add trial/own.log trial/day.rows\n"
                "    1440 rows taken\n"
                "    trial/own.log: 90 of 100 blocks used\n"
                "    $ zikhrodan log show trial/own.log --count 0\n"
                "    trial/own.log: 1440 samples in 90 of 100 blocks\n",
    .parts = PARTS,
};
