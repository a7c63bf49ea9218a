/* signals.c: see signals.h. */
#include "signals.h"

#include <stddef.h>

void hold_signals(sigset_t *before)
{
    sigset_t asks;

    sigemptyset(&asks);
    sigaddset(&asks, SIGINT);
    sigaddset(&asks, SIGTERM);
    sigaddset(&asks, SIGHUP);
    sigprocmask(SIG_BLOCK, &asks, before);
}

void let_signals(const sigset_t *before)
{
    sigprocmask(SIG_SETMASK, before, NULL);
}
