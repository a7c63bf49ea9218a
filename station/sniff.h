/* sniff.h: whether what was given for rows can be rows. Rows carry no mark, so that a log, say, would be taken as some, durably.
 *
 * What is looked at: of a regular file as many bytes as a log's head has, and the length, which has to be whole rows; of a ".hex"
 * the bytes that its text stands for, all of them; of a stream the first row, if that is whole. What is told, in this order:
 *   a log      begins with the magic of a slot or of one that is wiped, or has either where the second slot is;
 *   a page     begins with "<!DOCTYPE html" or "<html";
 *   hex        is hex digits and white space alone;
 *   text       has a first row of text in UTF-8 alone. A sample with no byte of 0, and with none below 32 but those of white
 *              space, has losses and faults in each of its status bytes; an eight-channel module's has each number too low on
 *              some channel and too high on another;
 *   a state, an image    has the length of one, and the library does not refuse a read of it, or a reset to it;
 *   memory     begins as lower memory does in the built-in image, but for the bytes that a module changes there: 2, and the
 *              temperature and the supply voltage. As a sample of 31 bytes that is one of 0 V and no light: no module that is
 *              alive measures it. As one of 14 it could be true (Rx1, Rx5 and Tx4 dark), so there it is not told.
 * Not told of a stream: an eight-channel module's state, which begins with a sample's conditions; another image's memory. */
#ifndef SNIFF_H
#define SNIFF_H

#include <stddef.h>
#include <stdint.h>

/* Each gives 0, or an exit status with the error said, of the input as `name`. The file is looked at from where it stands, and
 * after that a ".hex" stands at its end. */
int sniff_file(const char *name, int fd, size_t row_len);
int sniff_row(const char *name, const uint8_t *row, size_t row_len);

#endif
