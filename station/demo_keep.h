/* demo_keep.h: what `zikhrodan demo --keep` leaves. */
#ifndef DEMO_KEEP_H
#define DEMO_KEEP_H

#include <stdbool.h>

/* Leaves the image, the day's rows, a module that is reset to the image, and a log of the day in a folder, which is made if it is
 * not there; or, of `eight`, the day's rows and a module that is reset. Where one of the files is there, none is made. Gives the
 * exit status, with what was done or went wrong said. */
int demo_keep(const char *folder, bool eight);

/* Whether it can: an exit status with the error said, where one of the files is there. */
int demo_keeps(const char *folder, bool eight);

#endif
