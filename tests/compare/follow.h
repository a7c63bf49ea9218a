/* follow.h: follows a script, or a case that was printed of a mismatch: it is one. */
#ifndef FOLLOW_H
#define FOLLOW_H

/* Makes the calls of a file, `-` for standard input, on both engines. Prints each line with the outcome that was found, the expected
 * one where that is another, and what differs where the engines do; then how many lines are as expected. The exit status: 0 if all
 * are, and the engines agree; 1 if not; 2 for a file that can't be read or has no call in it. */
int follow(const char *path);

#endif
