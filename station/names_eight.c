/* names_eight.c: the flags of the eight-channel module, by the names of document 002 (Table 18), without its "L-". */
#include "names.h"

/* By byte, from 3 on: either all bits are of channels, bit 0 of channel 1, and have one name, in which the number is left out; or
 * each has its own, by its number, and where there is none the bit is no flag. */
static const struct { const char *channels, *bits[8]; } NAMES[ZIKHRODAN_DD_FLAG_BYTES] = {
    {.channels = "Rx LOS"},
    {.channels = "Tx LOS"},
    {.channels = "Rx CDR LOL"},
    {.channels = "Tx CDR LOL"},
    {.channels = "Tx Fault"},
    {.bits = {[7] = "Temp High Alarm", [6] = "Temp Low Alarm", [5] = "Temp High Warning", [4] = "Temp Low Warning"}},
    {.bits = {[7] = "Vcc3.3v High Alarm", [6] = "Vcc3.3v Low Alarm", [3] = "TEC Current High Alarm", [2] = "TEC Current Fault",
              [1] = "Adaptation Complete", [0] = "State Changed"}},
    {.channels = "Rx Power Low Warning"},
    {.channels = "Rx Power Low Alarm"},
    {.channels = "Rx Power High Alarm"},
    {.channels = "Tx Bias Low Alarm"},
    {.channels = "Tx Bias High Alarm"},
    {.channels = "Tx Power Low Alarm"},
    {.channels = "Tx Power High Alarm"},
};

struct flag eight_flag_at(unsigned byte, unsigned bit)
{
    const char *channels = NAMES[byte - FLAGS_AT].channels;

    return (struct flag){
        .of = channels ? channels : NAMES[byte - FLAGS_AT].bits[bit],
        .limit = -1,
        .channel = channels ? bit + 1 : 0,
        .monitor = MONITORS,
    };
}
