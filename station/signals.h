/* signals.h: signals that ask the tool to end wait while a file is changed, so that nothing is left half done. */
#ifndef SIGNALS_H
#define SIGNALS_H

#include <signal.h>

void hold_signals(sigset_t *before);
void let_signals(const sigset_t *before);

#endif
