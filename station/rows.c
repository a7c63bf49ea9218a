/* rows.c: see rows.h. */
#include "rows.h"
#include "say.h"
#include "sniff.h"

#include <errno.h>
#include <fcntl.h>
#include <poll.h>
#include <string.h>
#include <sys/stat.h>
#include <unistd.h>

static bool is_standard(const char *name)
{
    return strcmp(name, "-") == 0;
}

static const char *shown(const char *name)
{
    return is_standard(name) ? "standard input" : name;
}

static int open_rows(const char *name)
{
    return is_standard(name) ? STDIN_FILENO : open(name, O_RDONLY | O_CLOEXEC);
}

static void close_rows(int fd)
{
    if (fd > STDIN_FILENO)
        close(fd);
}

/* Looks at what a name leads to, if that is a regular file: a stream is not opened before its turn. */
static int look_at(const char *name, size_t whole)
{
    struct stat is;

    if ((is_standard(name) ? fstat(STDIN_FILENO, &is) : stat(name, &is)) != 0)
        return fail_errno(shown(name));
    if (S_ISDIR(is.st_mode))
        return fail("%s: %s", shown(name), strerror(EISDIR));
    if (!S_ISREG(is.st_mode))
        return 0;
    int fd = open_rows(name), status = fd < 0 ? fail_errno(name) : sniff_file(shown(name), fd, whole);
    close_rows(fd);
    return status;
}

int rows_begin(struct rows *rows, char **names, int count, size_t whole, bool raw)
{
    static char *standard_input[] = {"-"};
    int status = 0;

    *rows = (struct rows){.names = count ? names : standard_input, .left = count ? count : 1, .whole = whole, .raw = raw};
    rows->fd = -1;
    for (int i = 0; i < rows->left; i++)
        if (is_standard(rows->names[i]) && isatty(STDIN_FILENO))
            return fail("standard input is a terminal: name a file of rows, or pipe rows in");
    for (int i = 0; i < rows->left && !raw && status == 0; i++)
        status = look_at(rows->names[i], whole);
    return status;
}

static int open_next(struct rows *rows)
{
    const char *name = *rows->names++;

    rows->left--;
    rows->name = shown(name);
    rows->fd = open_rows(name);
    rows->row = 0;
    rows->at = rows->len = 0;
    rows->ended = false;
    rows->hex = (struct hex){.high = -1};
    return rows->fd < 0 ? fail_errno(name) : 0;
}

/* Reads once, behind what is here already. */
static void fetch(struct rows *rows)
{
    memmove(rows->bytes, rows->bytes + rows->at, rows->len - rows->at);
    rows->len -= rows->at;
    rows->at = 0;
    ssize_t got = read(rows->fd, rows->bytes + rows->len, sizeof rows->bytes - rows->len);
    if (got < 0 && errno == EINTR)
        return;
    rows->ended = got <= 0;
    rows->why = got < 0 ? errno : 0;
    if (got >= 0 && is_hex(rows->name))
        got = (ssize_t)from_hex(&rows->hex, rows->bytes + rows->len, (size_t)got);
    rows->broken = got < 0 || rows->hex.bad || (rows->ended && rows->hex.high >= 0);
    rows->len += got > 0 ? (size_t)got : 0;
}

static int say_broken(const struct rows *rows)
{
    errno = rows->why;
    return rows->why ? fail_errno(rows->name) : fail(NO_HEX, rows->name, rows->hex.line + 1);
}

static void close_file(struct rows *rows)
{
    close_rows(rows->fd);
    rows->fd = -1;
}

/* Whether the row at hand is an input's first, and can be none; of a regular file that is known by now. */
static bool is_refused(const struct rows *rows, const uint8_t *row, size_t len)
{
    return !rows->raw && rows->row == 0 && len == rows->whole && sniff_row(rows->name, row, len) != 0;
}

int rows_next(struct rows *rows, const uint8_t **row, size_t *len)
{
    for (;;) {
        if (rows->fd < 0 && rows->left == 0)
            return 0;
        if (rows->fd < 0 && open_next(rows) != 0)
            return -1;
        while (!rows->ended && !rows->broken && rows->len - rows->at < rows->whole)
            fetch(rows);
        if (rows->broken && rows->len - rows->at < rows->whole) {
            say_broken(rows);
            return -1;
        }
        if (rows->len > rows->at)
            break;
        close_file(rows);
    }
    *row = rows->bytes + rows->at;
    *len = rows->len - rows->at < rows->whole ? rows->len - rows->at : rows->whole;
    if (is_refused(rows, *row, *len))
        return -1;
    rows->at += *len;
    rows->row++;
    return 1;
}

bool rows_ready(struct rows *rows)
{
    struct pollfd waiting = {.fd = rows->fd, .events = POLLIN};

    while (rows->len - rows->at < rows->whole && !rows->ended && !rows->broken) {
        if (poll(&waiting, 1, 0) <= 0)
            return false;
        fetch(rows);
    }
    return rows->len - rows->at >= rows->whole || (rows->len > rows->at && !rows->broken);
}

void rows_end(struct rows *rows)
{
    close_file(rows);
}
