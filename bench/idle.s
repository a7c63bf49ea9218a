# idle.s: the seventeen functions of zikhrodan.h, each of which only returns: one instruction. What a program linked with them
# takes is what every engine's program takes besides its engine.
        .globl  zikhrodan_reset, zikhrodan_sample, zikhrodan_read, zikhrodan_write, zikhrodan_identity
        .globl  zikhrodan_monitor_kind, zikhrodan_monitor_value, zikhrodan_limits_refusal, zikhrodan_limit
        .globl  zikhrodan_log_add, zikhrodan_log_power_up, zikhrodan_log_sample, zikhrodan_log_first
        .globl  zikhrodan_dd_reset, zikhrodan_dd_sample, zikhrodan_dd_read, zikhrodan_dd_write
        .text
zikhrodan_reset:
zikhrodan_sample:
zikhrodan_read:
zikhrodan_write:
zikhrodan_identity:
zikhrodan_monitor_kind:
zikhrodan_monitor_value:
zikhrodan_limits_refusal:
zikhrodan_limit:
zikhrodan_log_add:
zikhrodan_log_power_up:
zikhrodan_log_sample:
zikhrodan_log_first:
zikhrodan_dd_reset:
zikhrodan_dd_sample:
zikhrodan_dd_read:
zikhrodan_dd_write:
        ret
        .section .note.GNU-stack, "", @progbits
