/* zone.c: see zone.h. */
#include "zone.h"
#include "say.h"

#include <limits.h>
#include <stdio.h>
#include <stdlib.h>
#include <string.h>
#include <sys/stat.h>

static bool is_zone(const char *folder, const char *name)
{
    char path[PATH_MAX];
    struct stat is;
    int len = snprintf(path, sizeof path, "%s%s%s", folder, folder[0] ? "/" : "", name);

    return len > 0 && (size_t)len < sizeof path && stat(path, &is) == 0 && S_ISREG(is.st_mode);
}

/* A rule after POSIX, such as CET-1CEST, has a digit. */
bool zone_is_known(void)
{
    const char *zone = getenv("TZ"), *folder = getenv("TZDIR");
    const char *name = zone && zone[0] == ':' ? zone + 1 : zone;

    if (!zone || !name[0] || strcmp(name, "UTC") == 0 || strcmp(name, "GMT") == 0 || strpbrk(name, "0123456789"))
        return true;
    if (is_zone(name[0] == '/' ? "" : folder && folder[0] ? folder : "/usr/share/zoneinfo", name))
        return true;
    fail("the zone TZ '%s' is not known here", zone);
    return false;
}
