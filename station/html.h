/* html.h: text of a page of HTML. */
#ifndef HTML_H
#define HTML_H

#include <stdint.h>
#include <stdio.h>

/* Any words as text or in an attribute: escaped, and what is no UTF-8 or cannot be shown as U+FFFD. */
void put_text(FILE *page, const char *words);

/* Words of the tool's own that have a number or a name in them; nothing is escaped. */
#define put fprintf

/* A sign of a picture's key, drawn 22 wide and 14 high, and what it stands for. */
void put_sign(FILE *page, const char *drawn, const char *words);

/* The names above a table's columns, up to a null. */
void put_columns(FILE *page, const char *const *names);

/* A number and what it is of: "1 sample", "2 samples". */
void put_count(FILE *page, uint64_t number, const char *what);

#endif
