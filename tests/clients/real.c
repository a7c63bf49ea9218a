/* real.c: the C library's own functions, behind those that the shim takes over. */
#define _GNU_SOURCE
#include <dlfcn.h>
#include <stdio.h>
#include <stdlib.h>

#include "shim.h"

void *real(const char *name)
{
    void *function = dlsym(RTLD_NEXT, name);
    if (function == NULL) {
        fprintf(stderr, "clients-shim: the C library has no %s\n", name);
        abort();
    }
    return function;
}
