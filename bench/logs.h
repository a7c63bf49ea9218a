/* logs.h: the log that is lent to a case's call. See cases.h. */
#ifndef LOGS_H
#define LOGS_H

#include "cases.h"

enum { MOST_USED = 10000 };

/* Blocks 1, 2 and so on with their samples and summaries, written as they have to be and not by calls; behind them a block's room
 * that holds anything. To be called once. */
void set_up_log(const struct one_call *c);

void put_back_log(const struct one_call *c);
uint64_t make_log(const struct one_call *c);

/* Whether a search's answer has the position of the sample with the bit, and none where there is none or it is refused. */
bool is_found(const struct one_call *c, uint64_t answer);

/* Remembers the log as it is, and prints each byte that is another than then. */
void remember_log(void);
void show_log(void);

#endif
