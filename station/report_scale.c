/* report_scale.c: see report_scale.h. */
#include "report_scale.h"

/* The decimal logarithm, to a thousandth: the program is linked without the library of mathematics. */
static double decades(double value)
{
    double whole = 0, part = 0;

    for (; value >= 10; value /= 10)
        whole++;
    for (; value < 1; value *= 10)
        whole--;
    for (double bit = 0.5; bit > 0.0005; bit /= 2) {
        value *= value;
        if (value >= 10) {
            value /= 10;
            part += bit;
        }
    }
    return whole + part;
}

void scale_include(struct scale *scale, double value)
{
    enum { FAR = 50 }; /* so that what is cut off is cut off downwards */
    static const double SLACK = 0.002;

    if (value <= 0)
        return;
    double logarithm = decades(value);
    int below = (int)(FAR + logarithm + SLACK) - FAR, above = FAR - (int)(FAR - logarithm + SLACK);
    scale->foot = below < scale->foot ? below : scale->foot;
    scale->top = above > scale->top ? above : scale->top;
}

static unsigned height_at(const struct scale *scale, double logarithm)
{
    return SCALE_TOP + (unsigned)((scale->top - logarithm) / (scale->top - scale->foot) * (SCALE_FOOT - SCALE_TOP) + 0.5);
}

unsigned scale_height(const struct scale *scale, double value)
{
    return value > 0 ? height_at(scale, decades(value)) : ZERO;
}

unsigned scale_decade(const struct scale *scale, int exponent)
{
    return height_at(scale, exponent);
}
