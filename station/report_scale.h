/* report_scale.h: the upright scale of a light level: decades, and below them a strip of its own for 0. */
#ifndef REPORT_SCALE_H
#define REPORT_SCALE_H

/* Heights are counted downwards, in tenths of a unit of the page. */
enum { TENTHS = 10, SCALE_TOP = 60, SCALE_FOOT = 780, ZERO = 930, ZERO_HALF = 50, SCALE_HIGH = ZERO + ZERO_HALF };

/* The exponents of ten at its foot and at its top. */
struct scale {
    int foot, top;
};

/* The scale has room for this number too; 0 needs none. */
void scale_include(struct scale *scale, double value);

/* Where a number lies, and where a decade does, `foot` to `top`. */
unsigned scale_height(const struct scale *scale, double value);
unsigned scale_decade(const struct scale *scale, int exponent);

#endif
