/* log.h: the commands of `zikhrodan log`. Each has a file of its own. */
#ifndef LOG_H
#define LOG_H

#include "command.h"

extern const struct command LOG_NEW, LOG_ADD, LOG_POWER_UP, LOG_SHOW;

#endif
