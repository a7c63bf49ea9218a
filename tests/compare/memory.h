/* memory.h: the memory that is lent to the library. Each part of a call has a region of its own with unreadable memory before and
 * after it; what is lent lies against one of the two, with canary bytes on its other side. */
#ifndef MEMORY_H
#define MEMORY_H

#include <stdbool.h>
#include <stddef.h>
#include <stdint.h>

enum { REGION = 1 << 16 };              /* the bytes of a region; longer lent memory is vast */
#define VAST ((size_t)1 << 32)          /* vast memory has this many bytes, */
enum { VAST_MORE = 4096 };              /* and at most so many more; as many of its first bytes are compared, if it may change */

/* STATE is a module's state, or a log. */
enum part { STATE, FIRST, SECOND, OUTPUT, PARTS };

/* AT_END: unreadable memory comes right after it. AT_START: right before it. AT_ODD: neither, but it lies at an odd address, with
 * canary bytes on both sides. */
enum place { AT_END, AT_START, AT_ODD, PLACES };
extern const char *const place_words[PLACES];

/* Maps all regions; ends the program with 2 where it can't. */
void memory_prepare(void);

/* Memory of this length, its canary bytes written. Vast memory is all zeros until a call changes it, always AT_END and, but for
 * the front of STATE and of OUTPUT, read-only. */
uint8_t *memory_lend(enum part part, enum place place, size_t len);

/* Whether the canary bytes beside what was lent last stand. */
bool memory_canary_stands(enum part part);

/* Vast memory for the plain engine, to be STATE or OUTPUT. */
uint8_t *memory_vast_plain(enum part part, size_t len);

#endif
