/* words.h: the words of a command line: numbers, ports, options. */
#ifndef WORDS_H
#define WORDS_H

#include <stdbool.h>
#include <stdint.h>

/* A number in decimal or, after 0x, in hex, of 64 bits at most; false, with an error said, if the word is none. `what` it is. */
bool number_in(const char *word, const char *what, uint64_t *number);

/* A port by its name, "operator" or "recorder", or by any number: whether there is such a port the library says. */
bool port_in(const char *word, uint64_t *port);

/* A command's options, each a word that starts "-": taken out of the words, which then are `given` in number. */
struct option {
    const char *name;   /* such as "--raw" */
    const char **value; /* where the word after it goes; null for an option that has none */
    bool *flag;         /* or what becomes true */
};

/* Takes the options out, up to a word "--"; false, with an error said, if then not `least` to `most` words are left, or an option's
 * is missing. What the missing word is called the command's usage and help say. */
struct command;
bool words_in(int *given, char **words, const struct option *options, const struct command *command, int least, int most);

#endif
