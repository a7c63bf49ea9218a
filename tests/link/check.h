/* check.h: one check, and the sum of all, of a program that is compiled as C and as C++. */
#ifndef CHECK_H
#define CHECK_H

#include <stdio.h>

static unsigned passed, failed;

static void check(const char *what, int right)
{
    if (right) {
        passed++;
    } else {
        failed++;
        printf("FAILED %s\n", what);
    }
}

/* 'N passed, M failed'. Gives the exit status. */
static int checked(void)
{
    printf("%u passed, %u failed\n", passed, failed);
    return failed > 0;
}

#endif
