/* direct.h: a plain C engine, to measure the library beside: the seventeen functions of zikhrodan.h with the prefix direct_. That
 * header itself declares them, under these names, so a source has one engine or the other. */
#ifndef DIRECT_H
#define DIRECT_H

#define zikhrodan_reset direct_reset
#define zikhrodan_sample direct_sample
#define zikhrodan_read direct_read
#define zikhrodan_write direct_write
#define zikhrodan_identity direct_identity
#define zikhrodan_monitor_kind direct_monitor_kind
#define zikhrodan_monitor_value direct_monitor_value
#define zikhrodan_limits_refusal direct_limits_refusal
#define zikhrodan_limit direct_limit
#define zikhrodan_log_add direct_log_add
#define zikhrodan_log_power_up direct_log_power_up
#define zikhrodan_log_sample direct_log_sample
#define zikhrodan_log_first direct_log_first
#define zikhrodan_dd_reset direct_dd_reset
#define zikhrodan_dd_sample direct_dd_sample
#define zikhrodan_dd_read direct_dd_read
#define zikhrodan_dd_write direct_dd_write

#include "../include/zikhrodan.h"

#endif
