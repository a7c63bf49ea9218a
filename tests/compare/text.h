/* text.h: a case as text: a script, with nothing expected (see script.h). */
#ifndef TEXT_H
#define TEXT_H

#include "call.h"

#include <stdio.h>

void text_print(const struct list *list, FILE *to);

#endif
