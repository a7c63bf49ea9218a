/* show_text.c: the form for people: identity, monitors beside their limits; flags and ports are show_flags.c's. */
#include "dump.h"
#include "say.h"
#include "show.h"

#include <stdio.h>
#include <string.h>

static const enum zikhrodan_which COLUMNS[LIMITS] = {
    ZIKHRODAN_LOW_ALARM, ZIKHRODAN_LOW_WARNING, ZIKHRODAN_HIGH_WARNING, ZIKHRODAN_HIGH_ALARM,
};

static void heading(const char *words)
{
    printf("%s%s%s", paint(STRONG), words, paint(PLAIN));
}

/* ---- identity */

static void field_line(const struct shown_identity *identity, unsigned field)
{
    printf("  %-15s", FIELD_NAMES[field]);
    for (size_t i = 0; i < identity->fields[field].len; i++) {
        uint8_t byte = identity->fields[field].bytes[i];
        if (field == ZIKHRODAN_VENDOR_OUI)
            printf("%s%02X", i ? ":" : "", byte);
        else
            putchar(printable(byte) ? byte : '.');
    }
    putchar('\n');
}

static void code_verdict(const char *code, bool right)
{
    printf("%s %s%s%s", code, paint(right ? GOOD : BAD), right ? "right" : "wrong", paint(PLAIN));
}

static void identity_part(const struct shown_identity *identity)
{
    heading("identity");
    if (identity->refusal != ZIKHRODAN_ACCEPTED) {
        fputs(": ", stdout);
        say_refusal(identity->refusal, zikhrodan_words(identity->refusal));
    } else if (identity->page == ZIKHRODAN_LIVE) {
        puts(", from the live page 00h");
    } else {
        printf(", from the factory's page 00h: %s\n", identity->image);
    }
    for (unsigned field = ZIKHRODAN_VENDOR_NAME; field < FIELDS && identity->refusal == ZIKHRODAN_ACCEPTED; field++)
        field_line(identity, field);
    fputs("  the live page's check codes: ", stdout);
    code_verdict("191", identity->codes.first);
    code_verdict(", 223", identity->codes.second);
    putchar('\n');
}

/* ---- monitors */

static bool is_outside(const struct shown *shown, unsigned monitor, enum zikhrodan_which limit)
{
    for (unsigned i = 0; i < 8 * FLAG_BYTES; i++) {
        struct place at = place_shown(&FOUR, i);
        struct flag flag = flag_at(at.byte, at.bit);
        if (flag.of && flag.monitor == monitor && flag.limit == (int)limit)
            return bit_at(shown->outside, at);
    }
    return false;
}

static bool any_outside(const struct shown *shown, unsigned monitor)
{
    for (unsigned i = 0; i < LIMITS; i++)
        if (is_outside(shown, monitor, COLUMNS[i]))
            return true;
    return false;
}

static void monitor_line(const struct shown *shown, unsigned monitor)
{
    unsigned quantity = quantity_of(monitor);
    enum zikhrodan_kind kind = QUANTITY_KINDS[quantity]; /* its limits stand also where its monitors have measured nothing */
    char text[NAME_ROOM];

    printf("  %-12s%-4s", monitor_name(monitor, text, sizeof text), UNIT_NAMES[kind]);
    if (shown->kinds[monitor] == ZIKHRODAN_NOTHING)
        printf("%s%16s%s", paint(FAINT), "nothing measured", paint(PLAIN));
    else
        printf("%s%16.*f%s", paint(any_outside(shown, monitor) ? BAD : PLAIN), UNIT_DECIMALS[kind], shown->values[monitor],
               paint(PLAIN));
    for (unsigned column = 0; column < LIMITS; column++) {
        bool outside = is_outside(shown, monitor, COLUMNS[column]);
        snprintf(text, sizeof text, "%s%.*f", outside ? "*" : "", UNIT_DECIMALS[kind], shown->limits[quantity][COLUMNS[column]]);
        printf("%s%10s%s", paint(outside ? BAD : PLAIN), text, paint(PLAIN));
    }
    putchar('\n');
}

/* The limits' names over two lines: "low" and "alarm". */
static void monitors_heading(void)
{
    printf("%34s", "");
    for (unsigned column = 0; column < LIMITS; column++)
        printf("%10.*s", (int)strcspn(LIMIT_NAMES[COLUMNS[column]], " "), LIMIT_NAMES[COLUMNS[column]]);
    putchar('\n');
    heading("monitors");
    printf("%26s", "value");
    for (unsigned column = 0; column < LIMITS; column++)
        printf("%10s", strchr(LIMIT_NAMES[COLUMNS[column]], ' ') + 1);
    putchar('\n');
}

static void monitors_part(const struct shown *shown)
{
    bool marked = false;

    monitors_heading();
    for (unsigned monitor = 0; monitor < MONITORS; monitor++) {
        monitor_line(shown, monitor);
        marked |= any_outside(shown, monitor);
    }
    if (marked)
        puts("  * the value is outside this limit");
}

void show_text(const struct shown *shown, enum which_flags which)
{
    identity_part(&shown->identity);
    putchar('\n');
    monitors_part(shown);
    putchar('\n');
    show_flags(shown, which);
}
