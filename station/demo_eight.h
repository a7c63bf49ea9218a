/* demo_eight.h: `zikhrodan demo --eight`: an eight-channel module, a day of samples, and two readers. */
#ifndef DEMO_EIGHT_H
#define DEMO_EIGHT_H

/* Plays and tells it. Gives the exit status. */
int demo_eight(void);

#endif
