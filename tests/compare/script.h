/* script.h: a script is calls with the outcomes that the papers give them, text that a person reads beside the paper. A line (words
 * between blanks, numbers in decimal, bytes in hex) is one of
 *
 *   # text                                    a note, as is an empty line
 *   state LEN HH                              the memory is a module's state of LEN bytes, all HH
 *   eight LEN HH                              it is an eight-channel module's state of LEN bytes, all HH
 *   log LEN HH                                it is a log of LEN bytes, all HH; no block is used
 *   used N                                    so many of its blocks are used
 *   put PLACE HH ..                           bytes of the memory from PLACE on
 *   image                                     the image is the factory image
 *   image LEN                                 it is LEN bytes: the first 640 as before, 0 what is past them
 *   change PLACE HH ..                        bytes of the image from PLACE on
 *   place end|start|odd                       where what is lent from the next of state, eight or log on lies: see
 *                                             memory.h; else `end`
 *   look PLACE COUNT => OUTCOME               `00 11`: bytes of the memory, at least one; of a log or an eight-channel module
 *                                             `all 00` where they are sixteen or more and all the same
 *
 * and on a module, that is after `state`,
 *
 *   reset => OUTCOME                          `refused 5`, or `counts 1 0`: the operator's and the recorder's
 *   sample HH .. => OUTCOME                   the same
 *   samples N HH .. => OUTCOME                the sample N times, and the outcome of the last
 *   read PORT ADDRESS COUNT => OUTCOME        `refused 5`, or `count 1: 0A FF`; the output memory has COUNT bytes, each EE
 *   read PORT ADDRESS COUNT ROOM => OUTCOME   the same; it has ROOM bytes
 *   read .. ROOM HH => OUTCOME                the same; each is HH
 *   write PORT ADDRESS HH .. => OUTCOME       `refused 5`, or `count 1`
 *   identity FIELD => OUTCOME                 `refused 12`, or `live 20 12 46 49 4E ..`: the page that the field came from (live or
 *                                             factory), where it starts there, its length, and its bytes; the live page is bytes 128 to
 *                                             255 of the state, the factory page those of the image (shorter, where these end sooner)
 *   identity FIELD LIVE FACTORY => OUTCOME    the same; the pages have LIVE and FACTORY bytes, from byte 128 on
 *   identity FIELD live HH .. factory HH ..   the same, of these pages
 *   monitor NUMBER => OUTCOME                 `refused 13`, `nothing`, or `degrees -1 BFF0000000000000` (or volts, milliwatts,
 *                                             milliamperes): the number, rounded to eight decimals, and the double's bit pattern
 *   limits QUANTITY => OUTCOME                `refused 13`, or `75 4052C00000000000 -5 C014000000000000 ..`: high alarm, low alarm, high
 *                                             warning and low warning, each as with a monitor
 *   limit QUANTITY WHICH => OUTCOME           one of them
 *
 * and on an eight-channel module, that is after `eight`, reset (without an image), sample, samples, read and write;
 *
 * and on a log
 *
 *   add HH .. => OUTCOME                      `refused 15`, or `used 1`: so many blocks are used then
 *   adds N HH .. => OUTCOME                   the sample N times, and the outcome of the last
 *   power-up => OUTCOME                       as of an add
 *   sample POSITION => OUTCOME                `refused 17`, or `at 5: 0A FF ..`: where the sample starts in the log, and its bytes
 *   first BIT => OUTCOME                      `refused 17`, `none`, or `position 5`: of the first sample that has the status bit
 *
 * After an outcome stands ` AND CHANGED BYTES` if a refused call changed a byte of the memory or of the output, or a read one past
 * COUNT; ` AND COUNTED` if a refused call gave a count or a value; ` AND NOT THE SAME` if the calls of one line disagree. `?` stands for
 * a number of 256 and more, its sign left out, and for a NaN.
 *
 * For what no paper asks: instead of HH .. also `null`, no bytes at a null pointer, and `zeros LENGTH`, memory of 2^32 bytes and more,
 * and so LEN of a state, an eight or a log, with 00; `state null`, `eight null` and `log null`; ROOM may be `null`; an image may stand
 * in the line of its reset. A call without `=>` has no outcome to be held to. */
#ifndef SCRIPT_H
#define SCRIPT_H

#include "call.h"

#include <stdio.h>

/* What a line is. */
enum line { LINE_NOTE, LINE_SETS_UP, LINE_ANSWERS, LINE_NOT_READ };

/* The memory, the image and the place are again as before any line. */
void script_begin(void);

/* Follows a line, cut off before its arrow: makes its calls on both engines and puts their outcome into `found`. Of those calls it
 * is told whether both agreed. */
enum line script_follow(const char *line, FILE *found, bool *agree);

#endif
