/* moments.c: see moments.h. */
#include "moments.h"
#include "say.h"
#include "zone.h"

#include <ctype.h>
#include <inttypes.h>
#include <stdio.h>
#include <stdlib.h>
#include <string.h>
#include <time.h>

enum { BILLION = 1000000000, DECIMALS = 9, FIRST_YEAR = 1970, LAST_YEAR = 9999, TM_YEAR = 1900, OFFSET_ROOM = 24 };

/* "60" or "0.5": seconds to nanoseconds. */
static bool period_in(const char *word, uint64_t *period)
{
    const char *at = word;
    uint64_t whole = 0, part = 0;

    for (; isdigit((unsigned char)*at) && whole <= BILLION; at++)
        whole = 10 * whole + (uint64_t)(*at - '0');
    bool good = at > word && whole <= BILLION;
    if (*at == '.') {
        size_t digits = strspn(++at, "0123456789");
        good = good && digits > 0 && digits <= DECIMALS;
        for (unsigned i = 0; good && i < DECIMALS; i++)
            part = 10 * part + (i < digits ? (uint64_t)(at[i] - '0') : 0);
        at += digits;
    }
    *period = whole * BILLION + part;
    if (good && *at == '\0' && *period > 0)
        return true;
    fail("the period '%s' is no number of seconds above 0, such as 60 or 0.5, of %d and nine decimals at most", word, BILLION);
    return false;
}

/* Takes a number of so many digits, and what stands before it. */
static bool digits_in(const char **at, const char *before, unsigned digits, int *number)
{
    if (before[0] && (**at == '\0' || !strchr(before, **at)))
        return false;
    *at += before[0] != '\0';
    *number = 0;
    for (; digits > 0 && isdigit((unsigned char)**at); digits--)
        *number = 10 * *number + (*(*at)++ - '0');
    return digits == 0;
}

/* The day and hour of a time; `at` is then at what comes after it. */
static bool civil_in(const char **at, struct tm *tm)
{
    *tm = (struct tm){0};
    if (!digits_in(at, "", 4, &tm->tm_year) || !digits_in(at, "-", 2, &tm->tm_mon) || !digits_in(at, "-", 2, &tm->tm_mday) ||
        !digits_in(at, "Tt ", 2, &tm->tm_hour) || !digits_in(at, ":", 2, &tm->tm_min) ||
        (**at == ':' && !digits_in(at, ":", 2, &tm->tm_sec)))
        return false;
    bool good = tm->tm_year >= FIRST_YEAR;
    tm->tm_year -= TM_YEAR;
    tm->tm_mon -= 1;
    return good;
}

/* The seconds of a day and hour, as if in UTC; false if there is none such: no clock shows 30 February, or 24:00. */
static bool seconds_of(const struct tm *tm, time_t *seconds)
{
    struct tm given = *tm, back;

    *seconds = timegm(&given);
    return gmtime_r(seconds, &back) && back.tm_year == tm->tm_year && back.tm_mon == tm->tm_mon && back.tm_mday == tm->tm_mday &&
           back.tm_hour == tm->tm_hour && back.tm_min == tm->tm_min && back.tm_sec == tm->tm_sec;
}

/* The offset of local time at an instant, in seconds east of UTC. */
static long offset_at(time_t instant)
{
    struct tm tm;

    return localtime_r(&instant, &tm) ? tm.tm_gmtoff : 0;
}

static char *offset_text(long offset, char text[OFFSET_ROOM])
{
    unsigned east = (unsigned)labs(offset), used;

    used = (unsigned)snprintf(text, OFFSET_ROOM, "%c%02u:%02u", offset < 0 ? '-' : '+', east / 3600, east / 60 % 60);
    if (east % 60 != 0)
        snprintf(text + used, OFFSET_ROOM - used, ":%02u", east % 60);
    return text;
}

/* Looks for the instants at which local clocks show this, by every offset that is in use a day or so before and after. */
static bool local_in(const char *word, time_t shown, int64_t *start)
{
    enum { AROUND = 26 * 3600, STEP = 900 };
    char first[OFFSET_ROOM], second[OFFSET_ROOM];
    unsigned found = 0;
    int64_t instants[2] = {0};

    for (time_t near = shown - AROUND; near <= shown + AROUND && found < 2; near += STEP) {
        time_t instant = shown - offset_at(near);
        if (offset_at(instant) == shown - instant && !(found == 1 && instants[0] == instant))
            instants[found++] = instant;
    }
    *start = instants[0];
    if (found == 0)
        fail("the start '%s' is skipped by the clocks here, which are set forward over it: say it with Z or an offset", word);
    else if (found == 2)
        fail("the start '%s' comes twice by the clocks here, which are set back over it: say it with %s or %s at its end", word,
             offset_text(shown - instants[0], first), offset_text(shown - instants[1], second));
    return found == 1;
}

static bool start_in(const char *word, int64_t *start)
{
    const char *at = word;
    int hours = 0, minutes = 0;
    struct tm tm;
    time_t shown;

    bool good = civil_in(&at, &tm);
    char zone = good ? *at : '\0';
    bool east = zone == '+', offset = east || zone == '-', utc = zone == 'Z' || zone == 'z';
    if (offset)
        good = digits_in(&at, "+-", 2, &hours) && digits_in(&at, ":", 2, &minutes) && hours < 24 && minutes < 60;
    if (!good || at[utc] != '\0') {
        fail("the start '%s' is no time such as 2026-11-15T08:00, 2026-11-15T08:00:30+01:00 or 2026-11-15T07:00Z, from %d on",
             word, FIRST_YEAR);
        return false;
    }
    if (!seconds_of(&tm, &shown)) {
        fail("the start '%s' is a day or an hour that there is not", word);
        return false;
    }
    if (!offset && !utc)
        return local_in(word, shown, start);
    *start = shown - (east ? 1 : -1) * (60 * hours + minutes) * 60;
    return true;
}

bool moments_in(const char *period, const char *start, struct moments *moments)
{
    *moments = (struct moments){.known = period && start};
    tzset();
    if (!period != !start) {
        fail("--period and --start go together: the hour of a sample needs both");
        return false;
    }
    return !moments->known || (zone_is_known() && period_in(period, &moments->period) && start_in(start, &moments->start));
}

/* A time and its zone; false if its year has five digits. */
static bool text_of(const struct tm *tm, unsigned nanoseconds, const char *zone, char text[MOMENT_ROOM])
{
    size_t used = strftime(text, MOMENT_ROOM, "%Y-%m-%dT%H:%M:%S", tm);

    if (nanoseconds > 0) {
        used += (size_t)snprintf(text + used, MOMENT_ROOM - used, ".%09u", nanoseconds);
        while (text[used - 1] == '0')
            used--;
    }
    snprintf(text + used, MOMENT_ROOM - used, "%s", zone);
    return tm->tm_year <= LAST_YEAR - TM_YEAR;
}

bool moment_of(const struct moments *moments, uint64_t position, char local[MOMENT_ROOM], char utc[MOMENT_ROOM])
{
    static const int64_t last = 253402300799; /* the last second of the year 9999 */
    __int128 passed = (__int128)position * moments->period, instant = moments->start + passed / BILLION;
    unsigned nanoseconds = (unsigned)(passed % BILLION);
    time_t seconds = instant <= last ? (time_t)instant : 0;
    char zone[OFFSET_ROOM];
    struct tm here, there;

    if (instant <= last && localtime_r(&seconds, &here) && gmtime_r(&seconds, &there) &&
        text_of(&here, nanoseconds, offset_text(here.tm_gmtoff, zone), local) && text_of(&there, nanoseconds, "Z", utc))
        return true;
    fail("the hour of position %" PRIu64 " is past the year %d", position, LAST_YEAR);
    return false;
}
