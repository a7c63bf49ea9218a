/* tally.c: see tally.h. */
#include "tally.h"

#include "check.h"

#include <inttypes.h>
#include <stdio.h>
#include <string.h>

static uint64_t made, accepted[KINDS], refused[KINDS], refusals[256];

void tally_begin(void)
{
    made = 0;
    memset(accepted, 0, sizeof accepted);
    memset(refused, 0, sizeof refused);
    memset(refusals, 0, sizeof refusals);
}

void tally(enum kind kind, unsigned refusal)
{
    made++;
    refusals[refusal]++;
    if (refusal)
        refused[kind]++;
    else
        accepted[kind]++;
}

uint64_t tallied(void)
{
    return made;
}

void tally_say(uint64_t histories, enum kind first, enum kind last, const char *words, const uint8_t *numbers)
{
    char line[700];
    int used = snprintf(line, sizeof line, " in %" PRIu64 " histories; accepted and refused:", histories);
    for (int kind = (int)first; kind <= (int)last; kind++) {
        if (!accepted[kind] || !refused[kind])
            fail("%s was never %s", call_name((enum kind)kind), accepted[kind] ? "refused" : "accepted");
        used += snprintf(line + used, sizeof line - (size_t)used, " %s %" PRIu64 " %" PRIu64 ",", call_name((enum kind)kind),
                         accepted[kind], refused[kind]);
    }
    used += snprintf(line + used, sizeof line - (size_t)used, " %s:", words);
    for (; *numbers; numbers++) {
        if (!refusals[*numbers])
            fail("refusal %d never came", *numbers);
        used += snprintf(line + used, sizeof line - (size_t)used, " %" PRIu64, refusals[*numbers]);
    }
    say("%s", line);
}
