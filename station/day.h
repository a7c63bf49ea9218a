/* day.h: the built-in days of samples, one a minute: line Rx3 is dark for a while, an eight-channel module's line Rx5 twice. */
#ifndef DAY_H
#define DAY_H

#include <stdint.h>
#include <zikhrodan.h>

enum { DAY_MINUTES = 24 * 60 };

/* The sample of a minute of the day, 0 to 1439. */
void day_sample(unsigned minute, uint8_t sample[ZIKHRODAN_SAMPLE_LEN]);
void eight_day_sample(unsigned minute, uint8_t sample[ZIKHRODAN_DD_SAMPLE_LEN]);

#endif
