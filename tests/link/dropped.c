/* dropped.c: every call that answers a refusal, on no memory. With DROPPED each answer is dropped, of which the compiler has to warn;
 * without it each is used, and the program's exit status is 0 where each call refused, or had nothing to refuse. */
#include <zikhrodan.h>

#ifdef DROPPED
#define TAKE(refusal, answer) answer
#else
#define TAKE(refusal, answer) wrong += (answer) != (refusal)
#endif

int main(void)
{
    int wrong = 0;

    TAKE(ZIKHRODAN_STATE_SIZE, zikhrodan_reset(NULL, 0, NULL, 0));
    TAKE(ZIKHRODAN_STATE_SIZE, zikhrodan_sample(NULL, 0, NULL, 0));
    TAKE(ZIKHRODAN_STATE_SIZE, zikhrodan_read(NULL, 0, 0, 0, 0, NULL, 0));
    TAKE(ZIKHRODAN_STATE_SIZE, zikhrodan_write(NULL, 0, 0, 0, NULL, 0));
    TAKE(ZIKHRODAN_NO_SUCH_FIELD, zikhrodan_identity(NULL, 0, NULL, 0, 0));
    TAKE(ZIKHRODAN_STATE_SIZE, zikhrodan_monitor_kind(NULL, 0, 0));
    TAKE(ZIKHRODAN_STATE_SIZE, zikhrodan_limits_refusal(NULL, 0, 0));
    TAKE(ZIKHRODAN_SAMPLE_SIZE, zikhrodan_log_add(NULL, 0, 0, NULL, 0));
    TAKE(ZIKHRODAN_LOG_FULL, zikhrodan_log_power_up(NULL, 0, 0));
    TAKE(ZIKHRODAN_NO_SUCH_SAMPLE, zikhrodan_log_sample(NULL, 0, 0, 0));
    TAKE(ZIKHRODAN_ACCEPTED, zikhrodan_log_first(NULL, 0, 0, 0));
    TAKE(ZIKHRODAN_STATE_SIZE, zikhrodan_dd_reset(NULL, 0));
    TAKE(ZIKHRODAN_STATE_SIZE, zikhrodan_dd_sample(NULL, 0, NULL, 0));
    TAKE(ZIKHRODAN_STATE_SIZE, zikhrodan_dd_read(NULL, 0, 0, 0, 0, NULL, 0));
    TAKE(ZIKHRODAN_STATE_SIZE, zikhrodan_dd_write(NULL, 0, 0, 0, NULL, 0));
    return wrong;
}
