/* log_json.h: what the JSON of every command that looks at a log begins with. */
#ifndef LOG_JSON_H
#define LOG_JSON_H

#include "counts.h"
#include "json.h"

/* Its file's name, its room and how many blocks are used, how many samples it has, and whether a slot of its head is damaged. */
void json_log(struct json *json, const struct logfile *log, const struct counts *counts);

#endif
