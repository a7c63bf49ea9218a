/* say.h: what the tool says, and the exit status that goes with it: 0 done, 1 refused by the library, 2 usage or file. */
#ifndef SAY_H
#define SAY_H

#include <stdint.h>

struct kind;

enum { DONE = 0, REFUSED = 1, USAGE_OR_FILE = 2 };

/* One line on standard error, "zikhrodan: ..". Gives USAGE_OR_FILE. */
int fail(const char *format, ...) __attribute__((format(printf, 1, 2)));

/* The same with what errno says. */
int fail_errno(const char *name);

/* One line on standard error with the library's refusal in number and words (why.h), after what it is of. Gives REFUSED. */
int refused(uint32_t refusal, const char *why, const char *of, ...) __attribute__((format(printf, 3, 4)));

/* Standard output is written out; where that fails, it is said, once, unless it is a pipe that nobody reads any more. Gives
 * `status`, or USAGE_OR_FILE where it just failed. */
int finished(int status);

/* Where standard error is a terminal: a line that says how far it is, until the next one, or until it is wiped, which an error
 * does before it is said. */
void pass_by(uint64_t number, const char *what);
void wipe(void);

/* On a terminal, and where NO_COLOR is not set or empty, what turns a colour on for standard output, and off again; else "". */
enum colour { PLAIN, BAD, GOOD, FAINT, STRONG };
const char *paint(enum colour colour);

/* "s", but "" for 1. */
const char *plural(uint64_t number);

/* "refused 3, .." and the end of line, on standard output: of a part, where the rest is shown. */
void say_refusal(uint32_t refusal, const char *why);

/* "operator: 3 flags let through, interrupt": a port's count, and whether its interrupt stands; no end of line. Of an
 * eight-channel module: "operator (eight channels): 3 pending flags let through, interrupt". */
void say_count(const struct kind *kind, uint64_t port, unsigned count);

#endif
