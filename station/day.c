/* day.c: see day.h. The numbers are made up, in the units of document 01; each lies well inside the factory image's limits, but
 * for the light of line Rx3 while it is dark. */
#include "day.h"

#include <stdlib.h>
#include <string.h>

enum { DARK_FROM = 13 * 60 + 47, LIT_FROM = 14 * 60 + 19, DARK_LINE = 3 };

static void put(uint8_t *at, int number)
{
    at[0] = (uint8_t)(number >> 8);
    at[1] = (uint8_t)number;
}

/* A little unrest, -8 to 8, the same each time. */
static int unrest(unsigned minute, unsigned line)
{
    return (int)((minute * 37 + line * 101) % 17) - 8;
}

void day_sample(unsigned minute, uint8_t sample[ZIKHRODAN_SAMPLE_LEN])
{
    int dark = minute >= DARK_FROM && minute < LIT_FROM;
    int from_noon = abs((int)minute - 14 * 60);

    memset(sample, 0, ZIKHRODAN_SAMPLE_LEN);
    sample[0] = dark ? 1u << (DARK_LINE - 1) : 0;               /* the loss of line Rx3 */
    put(sample + 3, 41 * 256 - from_noon * 10 * 256 / (14 * 60)); /* 31 to 41 degrees, warmest at 14:00 */
    put(sample + 5, 33000 + unrest(minute, 0));                 /* 3.3 V */
    for (unsigned line = 1; line <= 4; line++) {
        int light = dark && line == DARK_LINE ? 0 : 5000 + 40 * unrest(minute, line);
        put(sample + 5 + 2 * line, light);                             /* 0.5 mW */
        put(sample + 13 + 2 * line, 3000 + unrest(minute, line + 4));  /* 6 mA */
        put(sample + 21 + 2 * line, 10000 + 20 * unrest(minute, line + 8)); /* 1 mW */
    }
}

/* The eight-channel module's, which has conditions and no numbers: from 9:12 to 17:40, and from 21:05 to 21:15, line Rx5 has lost
 * its signal and its lock, and its light is low. */
void eight_day_sample(unsigned minute, uint8_t sample[ZIKHRODAN_DD_SAMPLE_LEN])
{
    static const unsigned dark[][2] = {{9 * 60 + 12, 17 * 60 + 40}, {21 * 60 + 5, 21 * 60 + 15}};
    static const unsigned bytes[] = {ZIKHRODAN_DD_RX_LOS, ZIKHRODAN_DD_RX_CDR_LOL, ZIKHRODAN_DD_RX_POWER_LOW_WARNING,
                                     ZIKHRODAN_DD_RX_POWER_LOW_ALARM};
    enum { LINE = 5 };

    memset(sample, 0, ZIKHRODAN_DD_SAMPLE_LEN);
    for (unsigned i = 0; i < sizeof dark / sizeof dark[0]; i++)
        for (unsigned j = 0; j < sizeof bytes / sizeof bytes[0] && minute >= dark[i][0] && minute < dark[i][1]; j++)
            sample[bytes[j] - ZIKHRODAN_DD_RX_LOS] |= 1u << (LINE - 1);
}
