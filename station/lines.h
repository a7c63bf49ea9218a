/* lines.h: the 24 status lines of a sample, by the numbers that the library has for their bits: 8 times the status byte, 0 to 2,
 * plus the bit, 0 the lowest. Number 2 is Rx3 loss of signal, "rx3". */
#ifndef LINES_H
#define LINES_H

#include "names.h"

#include <stdbool.h>

enum { LINES = 24, LANES = 4, LINE_KINDS = LINES / LANES, LINE_WORD_ROOM = 12 };

/* A line's number from its word, its name, in any case of letters, or a number: whether there is such a line the library says.
 * False, with an error said, if the word is none of these. */
bool line_in(const char *word, uint64_t *bit);

/* Its word for a command line, such as "rx3" or "tx1-fault"; gives `word`. */
char *line_word(unsigned bit, char *word, size_t room);

/* Its name, such as "Rx3 loss of signal", as flag_name has it; NAME_ROOM is room enough. */
char *line_name(unsigned bit, char *name, size_t room);
const char *line_kept(unsigned bit); /* the same, made once: for one sample after the other */

/* What a line's bit says of its lane when it comes: "receive" lane 3 "lost light"; it was "lit", and is "dark". */
struct lane {
    const char *side, *lost, *before, *after;
    unsigned number;
};
struct lane lane_of(unsigned bit);

/* How many lines of a kind, 0 to 5, these are. */
unsigned of_kind(const bool lines[LINES], unsigned kind);

/* Those that a sample has. Gives `lines`. */
bool *lines_of(const uint8_t *sample, bool lines[LINES]);

/* Lines in words, four of a kind as one: "Rx1-4 loss of signal, Tx2 fault". Gives `text`. */
enum { LINES_ROOM = LINES * (NAME_ROOM + 2) };
char *lines_words(const bool lines[LINES], char text[LINES_ROOM]);

/* What is said where no sample has a bit. */
#define NOTHING_LOST "no lane lost light, signal or lock, and none had a fault"

/* How many lanes of how many lost what: "2 of 4 receive lanes lost light; 1 of 4 transmit lanes had a fault". Gives `text`. */
char *lost_words(const bool lines[LINES], char text[LINES_ROOM]);

/* Whether a sample has its bit. */
static inline bool line_of(const uint8_t *sample, unsigned bit)
{
    return sample[bit / 8] >> bit % 8 & 1;
}

#endif
