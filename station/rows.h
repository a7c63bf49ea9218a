/* rows.h: samples, one after the other, from files or standard input: rows of one length, or, in a ".hex", the same as text.
 *
 * What cannot be rows (sniff.h) is an error: of regular files, and of a file that is missing or is a folder, before any row is
 * handed out; of a stream before its first. Not where the rows are `raw`.
 * What is left at the end of an input, if less than a row, is handed out as it is: the library refuses it by its length. */
#ifndef ROWS_H
#define ROWS_H

#include "files.h"

#include <stdint.h>

struct rows {
    char **names; /* files, "-" for standard input */
    int left;     /* names not begun */
    size_t whole; /* a row's length */
    bool raw;     /* rows are taken whatever they look like */
    const char *name;
    uint64_t row; /* the row last handed out, of its file, from 1 */
    int fd;       /* -1 where no file is open */
    bool ended;   /* the file has no more bytes than are here */
    bool broken;  /* what comes after cannot be read, for what `why`, an errno, says; 0: it is text that is no hex */
    int why;
    struct hex hex;
    size_t at, len; /* what of the bytes is not handed out yet */
    uint8_t bytes[1 << 16];
};

/* Rows of `whole` bytes, far fewer than there is room for, from these files; from standard input where there are none. Gives 0,
 * or an exit status with the error said. */
int rows_begin(struct rows *rows, char **names, int count, size_t whole, bool raw);

/* The next row, waiting for it: 1; at the end 0; -1 with the error said. The bytes stay until the next call. */
int rows_next(struct rows *rows, const uint8_t **row, size_t *len);

/* Whether a next row of the same file is there, without waiting. */
bool rows_ready(struct rows *rows);

void rows_end(struct rows *rows);

#endif
