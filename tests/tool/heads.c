/* heads.c: linked with the tool's objects in place of its main.
 *
 *   heads SCRATCH LOG ..
 *
 * Of each log every byte of the head is changed in turn, in the file SCRATCH: a look has to find what the whole log has and to say
 * one line; then a row is added, and a look has to find what the whole log has with that row, and to say nothing. Prints for each
 * log its name and 'right', or what went wrong, and at which byte. What is said is counted, and nothing is synced (the linker's
 * --wrap). */
#include "logcalls.h"

#include <fcntl.h>
#include <stdio.h>
#include <stdlib.h>
#include <string.h>
#include <unistd.h>

enum { BLOCK = ZIKHRODAN_BLOCK_LEN, MOST = 1 << 16 };
static uint8_t bytes[MOST];
static size_t len;
static unsigned said;

int __wrap_fail(const char *format, ...)
{
    (void)format;
    said++;
    return 2;
}

int __wrap_fdatasync(int fd)
{
    (void)fd;
    return 0;
}

static void load(const char *name)
{
    FILE *file = fopen(name, "rb");

    if (!file || (len = fread(bytes, 1, MOST, file)) <= HEAD_LEN || len == MOST || fclose(file) != 0)
        abort();
}

/* Writes over what is there: some file systems write out at once a file that was emptied first. */
static void put(const char *name)
{
    int fd = open(name, O_WRONLY | O_CREAT, 0666);

    if (fd < 0 || write(fd, bytes, len) != (ssize_t)len || ftruncate(fd, (off_t)len) != 0 || close(fd) != 0)
        abort();
}

static int add(const char *name)
{
    static const uint8_t row[ZIKHRODAN_SAMPLE_LEN] = {1, 2, 3};
    struct logfile log = {.name = name, .fd = -1};
    int status = log_begin(&log);

    if (status == 0 && (log_add(&log, row, sizeof row) != ZIKHRODAN_ACCEPTED || log_commit(&log) != 0))
        status = 1;
    log_close(&log);
    return status;
}

/* Whether a look finds these blocks, and says so many lines. */
static int finds(const char *name, const struct logfile *blocks, unsigned lines)
{
    struct logfile log;

    said = 0;
    int found = log_look(&log, name) == 0 && said == lines && log.used == blocks->used &&
                memcmp(log.bytes, blocks->bytes, log.used * BLOCK) == 0;
    log_close(&log);
    return found;
}

static const char *wrong_in(const char *scratch, const struct logfile *whole, const struct logfile *grown)
{
    put(scratch);
    if (!finds(scratch, whole, 1))
        return "a look";
    if (add(scratch) != 0)
        return "the add";
    return finds(scratch, grown, 0) ? NULL : "a look after the add";
}

static void each_byte(const char *scratch, const char *name)
{
    struct logfile whole, grown;
    const char *wrong = NULL;

    load(name);
    put(scratch);
    if (log_look(&whole, scratch) != 0 || add(scratch) != 0 || log_look(&grown, scratch) != 0)
        abort();
    for (unsigned i = 0; i < HEAD_LEN && !wrong; i++) {
        bytes[i] ^= (uint8_t)(1 << i % 8);
        wrong = wrong_in(scratch, &whole, &grown);
        bytes[i] ^= (uint8_t)(1 << i % 8);
        if (wrong)
            printf("%s: byte %u: %s\n", name, i, wrong);
    }
    if (!wrong)
        printf("%s: right\n", name);
    log_close(&whole);
    log_close(&grown);
}

int main(int given, char **words)
{
    for (int i = 2; i < given; i++)
        each_byte(words[1], words[i]);
    return 0;
}
