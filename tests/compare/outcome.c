/* outcome.c: see outcome.h. */
#include "outcome.h"

#include "../../include/zikhrodan.h"

#include <inttypes.h>
#include <string.h>

void outcome_bytes(FILE *to, const uint8_t *bytes, size_t len)
{
    for (size_t i = 0; i < len; i++)
        fprintf(to, i ? " %02X" : "%02X", bytes[i]);
}

void outcome_many(FILE *to, const uint8_t *bytes, size_t len)
{
    enum { MANY = 16 };
    if (len >= MANY && !memcmp(bytes, bytes + 1, len - 1))
        fprintf(to, "all %02X", bytes[0]);
    else
        outcome_bytes(to, bytes, len);
}

/* Whether it is one; a refusal comes with no value. */
static bool refused(FILE *to, uint64_t answer)
{
    if (!zikhrodan_log_refusal(answer))
        return false;
    fprintf(to, "refused %u", (unsigned)zikhrodan_log_refusal(answer));
    if (zikhrodan_log_value(answer))
        fputs(" AND COUNTED", to);
    return true;
}

void outcome_report(FILE *to, uint64_t answer)
{
    if (!refused(to, answer))
        fprintf(to, "counts %u %u", zikhrodan_operator_count((uint32_t)answer), zikhrodan_recorder_count((uint32_t)answer));
}

void outcome_write(FILE *to, uint64_t answer)
{
    if (!refused(to, answer))
        fprintf(to, "count %u", zikhrodan_count((uint32_t)answer));
}

void outcome_read(FILE *to, uint64_t answer, const uint8_t *out, size_t count)
{
    outcome_write(to, answer);
    if (zikhrodan_log_refusal(answer))
        return;
    fputs(": ", to);
    outcome_bytes(to, out, count);
}

void outcome_identity(FILE *to, uint64_t answer, struct bytes live, struct bytes factory)
{
    static const char *const pages[] = { "no page", "live", "factory" };
    uint32_t packed = (uint32_t)answer;
    if (refused(to, answer))
        return;
    unsigned page = zikhrodan_identity_page(packed);
    size_t start = zikhrodan_identity_start(packed), len = zikhrodan_identity_length(packed);
    struct bytes from = page == ZIKHRODAN_LIVE ? live : factory;
    fprintf(to, "%s %zu %zu", pages[page > ZIKHRODAN_FACTORY ? 0 : page], start, len);
    if (len)
        fputc(' ', to);
    if (from.at && start + len <= from.len)
        outcome_bytes(to, from.at + start, len);
}

/* The number without the zeros at its end, and the bit pattern. */
static void figure(FILE *to, const char *before, uint64_t pattern)
{
    char decimal[32] = "?";
    double number;
    memcpy(&number, &pattern, sizeof number);
    if (number > -256 && number < 256) {
        size_t len = (size_t)snprintf(decimal, sizeof decimal, "%.8f", number);
        while (decimal[len - 1] == '0')
            len--;
        decimal[decimal[len - 1] == '.' ? len - 1 : len] = 0;
    }
    if (number == number)
        fprintf(to, "%s%s %016" PRIX64, before, decimal, pattern);
    else
        fprintf(to, "%s? ?", before);
}

/* What comes with no number is 0.0. */
static void disputed(FILE *to, bool is_disputed)
{
    if (is_disputed)
        fputs(" AND NOT THE SAME", to);
}

void outcome_monitor(FILE *to, uint64_t kind, uint64_t value)
{
    static const char *const units[] = { "nothing", "degrees", "volts", "milliwatts", "milliamperes" };
    unsigned unit = zikhrodan_kind_of((uint32_t)kind);
    bool is_refused = refused(to, kind);
    if (!is_refused)
        fputs(unit <= ZIKHRODAN_MILLIAMPERES ? units[unit] : "no kind", to);
    if (!is_refused && unit)
        figure(to, " ", value);
    else
        disputed(to, value);
}

void outcome_limits(FILE *to, uint64_t refusal, const uint64_t limits[4])
{
    bool is_refused = refused(to, refusal);
    for (int which = 0; which < 4 && !is_refused; which++)
        figure(to, which ? " " : "", limits[which]);
    disputed(to, is_refused && (limits[0] || limits[1] || limits[2] || limits[3]));
}

void outcome_limit(FILE *to, uint64_t limit)
{
    figure(to, "", limit);
}

void outcome_used(FILE *to, uint64_t answer)
{
    if (!refused(to, answer))
        fprintf(to, "used %" PRIu64, zikhrodan_log_value(answer));
}

void outcome_sample(FILE *to, uint64_t answer, const uint8_t *log, size_t len)
{
    uint64_t start = zikhrodan_log_value(answer);
    if (refused(to, answer))
        return;
    fprintf(to, "at %" PRIu64 ": ", start);
    if (start <= len && ZIKHRODAN_SAMPLE_LEN <= len - start)
        outcome_bytes(to, log + start, ZIKHRODAN_SAMPLE_LEN);
}

void outcome_first(FILE *to, uint64_t answer)
{
    if (refused(to, answer))
        return;
    if (zikhrodan_log_value(answer))
        fprintf(to, "position %" PRIu64, zikhrodan_log_value(answer) - 1);
    else
        fputs("none", to);
}
