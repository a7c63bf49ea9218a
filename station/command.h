/* command.h: the tool's commands. Each has a file of its own. */
#ifndef COMMAND_H
#define COMMAND_H

#include "say.h"

struct command {
    const char *name;
    const char *usage;    /* the words after the name */
    const char *brief;    /* one line */
    const char *help;     /* what it does, its options */
    const char *examples; /* commands after "$ ", and what they print; `zikhrodan demo --keep trial` has gone before */
    int (*run)(int given, char **words); /* the words after the name; gives the exit status */
    const struct command *const *parts;  /* or it has commands of its own, up to a null */
};

extern const struct command DEMO, RESET, SAMPLE, READ, WRITE, SHOW, WATCH, LOG, DIED, REPORT;

#endif
