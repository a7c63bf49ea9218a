/* powerups.c: see powerups.h. */
#include "powerups.h"
#include "say.h"

#include <stdbool.h>
#include <stdlib.h>

int power_ups_in(struct power_ups *seen, const struct counts *counts, const char *name)
{
    uint64_t position = 0;
    bool room_before = false;

    *seen = (struct power_ups){.at = calloc(counts->blocks ? counts->blocks : 1, 2 * sizeof *seen->at)};
    if (!seen->at)
        return fail_errno(name);
    seen->place = seen->at + counts->blocks;
    for (uint64_t place = 0; place < counts->blocks; place++) {
        if (room_before || counts->of[place] == 0) {
            seen->place[seen->number] = place;
            seen->at[seen->number++] = position;
        }
        room_before = counts->of[place] < ZIKHRODAN_BLOCK_SAMPLES;
        position += counts->of[place];
    }
    return DONE;
}

uint64_t power_ups_before(const struct power_ups *seen, uint64_t position, uint64_t *last)
{
    uint64_t before = 0;

    *last = 0;
    for (uint64_t i = 0; i < seen->number && seen->at[i] <= position; i++)
        if (seen->at[i] > 0) {
            before++;
            *last = seen->at[i];
        }
    return before;
}
