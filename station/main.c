/* main.c: the station's tool: finds the command and runs it. The library decides what the calls do; the tool asks and prints. */
#include "command.h"

#include <fcntl.h>
#include <signal.h>
#include <stdbool.h>
#include <stdio.h>
#include <stdlib.h>
#include <string.h>

static const struct command *const COMMANDS[] = {&DEMO, &RESET, &SAMPLE, &READ, &WRITE, &SHOW, &WATCH, &LOG, &DIED, &REPORT,
                                                 NULL};

static void list(const struct command *const *commands, int name, int usage)
{
    for (; *commands; commands++)
        printf("  %-*s%-*s %s\n", name, (*commands)->name, usage, (*commands)->usage, (*commands)->brief);
}

static void help(void)
{
    puts("zikhrodan: an optical module with two management ports, at a shore station. The\n"
         "proved library decides; this tool asks and prints.\n");
    list(COMMANDS, 7, 33);
    puts("\n"
         "STATE is a file, a module's memory: of 688 bytes, or of 98, which is an\n"
         "eight-channel module's. PORT is operator (1) or recorder (2); numbers are\n"
         "decimal, or hex after 0x. An image or rows in a file whose name ends in .hex\n"
         "are text: two hex digits for each byte.\n"
         "Exit status: 0 done; 1 refused by the library, with the refusal's number; 2\n"
         "usage or file. `zikhrodan COMMAND --help` has examples.\n\n"
         "Start with: zikhrodan demo");
}

/* Of a command, or of one that is part of another, `whole`. */
static void help_of(const struct command *whole, const struct command *command)
{
    printf("usage: zikhrodan %s%s%s%s%s\n\n%s\n", whole ? whole->name : "", whole ? " " : "", command->name,
           command->usage[0] ? " " : "", command->usage, command->help);
    if (command->parts) {
        putchar('\n');
        list(command->parts, 9, 25);
        printf("\n`zikhrodan %s COMMAND --help` has more.\n", command->name);
    }
    printf("\nExamples, after `zikhrodan demo --keep trial`:\n\n%s", command->examples);
}

static const struct command *named(const struct command *const *commands, const char *name)
{
    while (*commands && strcmp((*commands)->name, name) != 0)
        commands++;
    return *commands;
}

/* "--help" or "-h" among the words, before any "--". */
static bool wants_help(int given, char **words)
{
    for (int i = 0; i < given && strcmp(words[i], "--") != 0; i++)
        if (strcmp(words[i], "--help") == 0 || strcmp(words[i], "-h") == 0)
            return true;
    return false;
}

/* A standard stream that is closed is held by what can't be used as such, so that no file of the tool's gets its number. */
static void hold_streams(void)
{
    static const int unusable[] = {O_WRONLY, O_RDONLY, O_RDONLY};

    for (int fd = 0; fd < 3; fd++)
        if (fcntl(fd, F_GETFD) < 0 && open("/dev/null", unusable[fd]) != fd)
            exit(USAGE_OR_FILE);
}

int main(int argc, char **argv)
{
    hold_streams();
    /* What cannot be written is an error that is said, not a signal that ends the tool. */
    signal(SIGPIPE, SIG_IGN);
    signal(SIGXFSZ, SIG_IGN);
    setvbuf(stdout, NULL, _IOFBF, 1 << 16);
    if (argc < 2)
        return fail("which command? `zikhrodan --help` lists them; start with `zikhrodan demo`");
    bool asked = wants_help(1, argv + 1) || strcmp(argv[1], "help") == 0;
    if (asked && argc == 2) {
        help();
        return finished(DONE);
    }
    int at = asked ? 2 : 1;
    const struct command *whole = NULL, *command = named(COMMANDS, argv[at]);
    if (!command)
        return fail("there is no command '%s'; `zikhrodan --help` lists them", argv[at]);
    if (command->parts && at + 1 < argc && !wants_help(1, argv + at + 1)) {
        whole = command;
        command = named(whole->parts, argv[++at]);
    }
    if (command && command->parts && !asked && at + 1 == argc)
        return fail("which command of %s? `zikhrodan %s --help` lists them", command->name, command->name);
    if (!command)
        return fail("there is no command '%s %s'; `zikhrodan %s --help` lists them", whole->name, argv[at], whole->name);
    if (asked || command->parts || wants_help(argc - at - 1, argv + at + 1)) {
        help_of(whole, command);
        return finished(DONE);
    }
    return finished(command->run(argc - at - 1, argv + at + 1));
}
