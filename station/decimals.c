/* decimals.c: see decimals.h. */
#include "decimals.h"

#include <float.h>
#include <math.h>
#include <stdbool.h>
#include <stdint.h>
#include <stdio.h>
#include <stdlib.h>
#include <string.h>

enum { MOST_DECIMALS = 8, ROOM = 32 };
static const double UNITS = 1e8;  /* of the last of these decimals in 1 */
static const double BOUND = 1e15; /* below it a whole number has DBL_DIG digits at most */

/* Whether a double is the one nearest to a decimal, so many units of its last place: their number and UNITS are exact, so that
 * the quotient is the nearest. A decimal of DBL_DIG digits comes back from its double, so printf has the same one. */
static bool is_decimal(double value, int64_t *units)
{
    double scaled = value * UNITS;

    if (!(scaled > -BOUND && scaled < BOUND))
        return false;
    *units = (int64_t)(scaled + (scaled < 0 ? -0.5 : 0.5));
    return (double)*units / UNITS == value;
}

/* Written up to the end of a text; gives where it begins. */
static char *digits(char text[ROOM], int64_t units, int decimals)
{
    char *at = text + ROOM;
    uint64_t left = units < 0 ? -(uint64_t)units : (uint64_t)units;

    *--at = '\0';
    for (int place = 0; left > 0 || place <= decimals; place++, left /= 10) {
        if (place == decimals && place > 0)
            *--at = '.';
        *--at = (char)('0' + left % 10);
    }
    if (units < 0)
        *--at = '-';
    return at;
}

/* Whether %g writes it without an exponent; -0 is left to printf too. */
static bool is_plain(double value)
{
    return value >= 1e-4 || value <= -1e-4 || (value == 0 && !signbit(value));
}

void print_number(double value)
{
    char text[ROOM], *last = text + ROOM - 1;
    int64_t units;
    int more = DBL_DIG; /* of so many digits it comes out as it went in, or of some more; zeros at its end are left out */

    if (is_plain(value) && is_decimal(value, &units)) {
        char *number = digits(text, units, MOST_DECIMALS);
        while (*--last == '0')
            *last = '\0';
        if (*last == '.')
            *last = '\0';
        fputs(number, stdout);
        return;
    }
    do
        snprintf(text, sizeof text, "%.*g", more, value);
    while (strtod(text, NULL) != value && more++ < 17);
    fputs(text, stdout);
}

/* Rounds to fewer decimals. Not where what goes is just a half of the last one: there printf knows on which side the double lies;
 * nor to a 0 that has a sign. */
static bool rounded(double value, int decimals, int64_t *units)
{
    int64_t digit = 0;
    bool more = false;

    if (decimals > MOST_DECIMALS || !is_decimal(value, units))
        return false;
    bool below = *units < 0;
    for (int place = MOST_DECIMALS; place > decimals; place--, *units /= 10) {
        more = more || digit != 0;
        digit = below ? -(*units % 10) : *units % 10;
    }
    if (digit == 5 && !more)
        return false;
    if (digit >= 5)
        *units += below ? -1 : 1;
    return *units != 0 || !signbit(value);
}

void print_fixed(int width, int decimals, double value)
{
    char text[ROOM];
    int64_t units;

    if (!rounded(value, decimals, &units)) {
        printf("%*.*f", width, decimals, value);
        return;
    }
    const char *number = digits(text, units, decimals);
    for (int len = (int)strlen(number); len < width; len++)
        putchar(' ');
    fputs(number, stdout);
}
