/* sniff.c: see sniff.h. */
#include "sniff.h"
#include "factory.h"
#include "files.h"
#include "loghead.h"
#include "say.h"
#include "state.h"
#include "utf8.h"

#include <ctype.h>
#include <errno.h>
#include <inttypes.h>
#include <string.h>
#include <strings.h>
#include <sys/stat.h>
#include <unistd.h>

/* What is known of an input. */
struct front {
    uint8_t bytes[HEAD_LEN];
    size_t len;
    uint64_t all;   /* how many bytes there are; of a stream those of its first row */
    size_t row_len;
};

static bool is_log(const struct front *front)
{
    return begins_slot(front->bytes, front->len) ||
           (front->len > SLOT_LEN && begins_slot(front->bytes + SLOT_LEN, front->len - SLOT_LEN));
}

static bool begins(const struct front *front, const char *words)
{
    return front->len >= strlen(words) && strncasecmp((const char *)front->bytes, words, strlen(words)) == 0;
}

static bool is_page(const struct front *front)
{
    return begins(front, "<!doctype html") || begins(front, "<html");
}

static bool is_digits(const struct front *front)
{
    size_t digits = 0;

    for (size_t i = 0; i < front->len; i++) {
        if (!isxdigit(front->bytes[i]) && !isspace(front->bytes[i]))
            return false;
        digits += isxdigit(front->bytes[i]) != 0;
    }
    return digits > 0;
}

/* The first row alone; a character that it cuts off is not judged. */
static bool is_text(const struct front *front)
{
    enum { LONGEST = 4, FIRST_OF_TWO = 0xC2, LAST_OF_FOUR = 0xF4 };
    size_t end = front->len < front->row_len ? front->len : front->row_len, at = 0;

    while (at < end) {
        uint32_t code;
        unsigned len = utf8_at(front->bytes + at, &code);
        if (len == 0)
            return end - at < LONGEST && front->bytes[at] >= FIRST_OF_TWO && front->bytes[at] <= LAST_OF_FOUR;
        if (len == 1 && !isprint((int)code) && !isspace((int)code))
            return false;
        at += len;
    }
    return end > 0;
}

static bool is_state(const struct front *front, const struct kind *kind)
{
    uint8_t state[STATE_ROOM], byte;

    if (front->all != kind->state_len || front->len < kind->state_len)
        return false;
    memcpy(state, front->bytes, kind->state_len);
    return zikhrodan_refusal_of(kind->read(state, kind->state_len, ZIKHRODAN_OPERATOR, 0, 1, &byte, 1)) == ZIKHRODAN_ACCEPTED;
}

static bool is_four(const struct front *front)
{
    return is_state(front, &FOUR);
}

static bool is_eight(const struct front *front)
{
    return is_state(front, &EIGHT);
}

static bool is_image(const struct front *front)
{
    uint8_t state[ZIKHRODAN_STATE_LEN] = {0};

    return front->all == ZIKHRODAN_IMAGE_LEN && front->len >= ZIKHRODAN_IMAGE_LEN &&
           zikhrodan_refusal_of(zikhrodan_reset(state, sizeof state, front->bytes, ZIKHRODAN_IMAGE_LEN)) == ZIKHRODAN_ACCEPTED;
}

static bool is_memory(const struct front *front)
{
    static const bool changed[ZIKHRODAN_SAMPLE_LEN] = {
        [ZIKHRODAN_REG_STATUS] = true, [ZIKHRODAN_REG_TEMPERATURE] = true, [ZIKHRODAN_REG_TEMPERATURE + 1] = true,
        [ZIKHRODAN_REG_SUPPLY] = true, [ZIKHRODAN_REG_SUPPLY + 1] = true,
    };
    bool same = front->row_len == sizeof changed && front->len >= sizeof changed;

    for (size_t i = 0; i < sizeof changed && same; i++)
        same = changed[i] || front->bytes[i] == FACTORY_IMAGE[i];
    return same;
}

static const struct {
    bool (*is)(const struct front *front);
    const char *words;
} KINDS[] = {
    {is_log, "it is a log, no rows"},
    {is_page, "it is a page in HTML, no rows"},
    {is_digits, "it is hex digits, no rows: a file of these is named .hex"},
    {is_text, "it is text, no rows"},
    {is_four, "it is a module's state, no rows"},
    {is_eight, "it is an eight-channel module's state, no rows"},
    {is_image, "it is a factory image, no rows"},
    {is_memory, "it begins as a module's state or a factory image does, no rows"},
};

static int judge(const char *name, const struct front *front)
{
    uint64_t rows = front->all / front->row_len, over = front->all % front->row_len;

    for (size_t i = 0; i < sizeof KINDS / sizeof KINDS[0]; i++)
        if (KINDS[i].is(front))
            return fail("%s: %s; --raw takes it as rows all the same", name, KINDS[i].words);
    if (over > 0)
        return fail("%s: it has %" PRIu64 " byte%s, which are %" PRIu64 " row%s of %zu and %" PRIu64 " byte%s over; --raw takes "
                    "them all the same", name, front->all, plural(front->all), rows, plural(rows), front->row_len, over,
                    plural(over));
    return 0;
}

static int look(const char *name, int fd, struct front *front)
{
    off_t at = lseek(fd, 0, SEEK_CUR);
    struct stat is;
    ssize_t got = at < 0 || fstat(fd, &is) != 0 ? -1 : read_at(fd, front->bytes, sizeof front->bytes, at);

    if (got < 0)
        return fail_errno(name);
    front->len = (size_t)got;
    front->all = is.st_size > at ? (uint64_t)(is.st_size - at) : 0;
    return 0;
}

/* Takes bytes that come after those before. */
static void take(struct front *front, const uint8_t *bytes, size_t len)
{
    size_t room = sizeof front->bytes - front->len, some = len < room ? len : room;

    memcpy(front->bytes + front->len, bytes, some);
    front->len += some;
    front->all += len;
}

static int look_through_hex(const char *name, int fd, struct front *front)
{
    static uint8_t text[1 << 16];
    struct hex hex = {.high = -1};
    ssize_t got = 1;

    while (got != 0 && !hex.bad) {
        got = read(fd, text, sizeof text);
        if (got < 0 && errno != EINTR)
            return fail_errno(name);
        if (got > 0)
            take(front, text, from_hex(&hex, text, (size_t)got));
    }
    return hex.bad || hex.high >= 0 ? fail(NO_HEX, name, hex.line + 1) : 0;
}

int sniff_file(const char *name, int fd, size_t row_len)
{
    struct front front = {.row_len = row_len};
    int status = is_hex(name) ? look_through_hex(name, fd, &front) : look(name, fd, &front);

    return status ? status : judge(name, &front);
}

int sniff_row(const char *name, const uint8_t *row, size_t row_len)
{
    struct front front = {.row_len = row_len};

    take(&front, row, row_len);
    return judge(name, &front);
}
