/* decimals.h: numbers on standard output, in decimal, as printf has them but for the work: printf takes thousands of instructions
 * for a double, and a log has more than a million of them. */
#ifndef DECIMALS_H
#define DECIMALS_H

/* The shortest decimal that reads back as the same double. */
void print_number(double value);

/* "%*.*f". */
void print_fixed(int width, int decimals, double value);

#endif
