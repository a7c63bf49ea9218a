/* decimals.c: numbers on lines, by the tool's station/decimals.c, or where it is told `printf`, by that: all that a monitor can
 * have, numbers around what the tool leaves to printf, and random ones. */
#include "../../station/decimals.h"

#include <float.h>
#include <math.h>
#include <stdint.h>
#include <stdio.h>
#include <stdlib.h>
#include <string.h>

static void by_printf(double value)
{
    char text[32];
    int digits = 15;

    do
        snprintf(text, sizeof text, "%.*g", digits, value);
    while (strtod(text, NULL) != value && digits++ < 17);
    printf("%s %12.3f %.4f\n", text, value, value);
}

static void by_the_tool(double value)
{
    print_number(value);
    putchar(' ');
    print_fixed(12, 3, value);
    putchar(' ');
    print_fixed(0, 4, value);
    putchar('\n');
}

int main(int count, char **words)
{
    static const double parts[] = {256, 10000, 500, 1000, 3, 1};
    static const double odd[] = {0, 1e-4, 9.9999999e-5, 1e-5, 1e-8, 5e-9, 4e-9, 0.0005, 0.00005, 0.99999999, 0.999999995, 1e7,
                                 9999999.99999999, 1e8, 1e15, 1e16, 1e17, 123456789.12345678, 5e-324, 1e30};
    void (*number)(double) = count > 1 && strcmp(words[1], "printf") == 0 ? by_printf : by_the_tool;
    uint64_t mixed = 1;

    for (size_t i = 0; i < sizeof parts / sizeof parts[0]; i++)
        for (int n = -32768; n < 65536; n += 1 + 6 * (parts[i] < 4))
            number(n / parts[i]);
    for (size_t i = 0; i < sizeof odd / sizeof odd[0]; i++) {
        number(odd[i]);
        number(-odd[i]);
        number(odd[i] * (1 + DBL_EPSILON));
    }
    number(INFINITY);
    for (int i = 0; i < 50000; i++) {
        mixed = mixed * 6364136223846793005u + 1442695040888963407u;
        number((double)(int64_t)mixed / (double)(UINT64_C(1) << (i % 63)));
        number((double)(mixed >> 40) / 1e6);
    }
    return 0;
}
