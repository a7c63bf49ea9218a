/* files.c: see files.h. */
#include "files.h"
#include "say.h"
#include "signals.h"

#include <errno.h>
#include <fcntl.h>
#include <limits.h>
#include <signal.h>
#include <stdio.h>
#include <stdlib.h>
#include <string.h>
#include <sys/stat.h>
#include <unistd.h>

bool is_hex(const char *name)
{
    size_t len = strlen(name);

    return len > 4 && strcmp(name + len - 4, ".hex") == 0;
}

static int digit(uint8_t c)
{
    if (c >= '0' && c <= '9')
        return c - '0';
    if ((c >= 'A' && c <= 'F') || (c >= 'a' && c <= 'f'))
        return (c | 0x20) - 'a' + 10;
    return -1;
}

size_t from_hex(struct hex *hex, uint8_t *bytes, size_t len)
{
    size_t made = 0;

    for (size_t i = 0; i < len && !hex->bad; i++) {
        int value = digit(bytes[i]);
        if (value >= 0 && hex->high >= 0) {
            bytes[made++] = (uint8_t)(hex->high << 4 | value);
            hex->high = -1;
        } else if (value >= 0) {
            hex->high = value;
        } else if (hex->high >= 0 || !strchr(" \t\r\n", bytes[i]) || bytes[i] == '\0') {
            hex->bad = true;
        } else if (bytes[i] == '\n') {
            hex->line++;
        }
    }
    return made;
}

/* As many bytes as there are, up to `room`; -1 with errno set. */
static ssize_t read_all(int fd, uint8_t *bytes, size_t room)
{
    size_t len = 0;
    ssize_t got = 1;

    while (len < room && got != 0) {
        got = read(fd, bytes + len, room - len);
        if (got < 0 && errno != EINTR)
            return -1;
        len += got > 0 ? (size_t)got : 0;
    }
    return (ssize_t)len;
}

int load(const char *path, const char *name, uint8_t *bytes, size_t room, size_t *len)
{
    int fd = open(path, O_RDONLY | O_CLOEXEC);
    if (fd < 0)
        return fail_errno(name);
    ssize_t got = read_all(fd, bytes, room);
    int status = got < 0 ? fail_errno(name) : 0;
    close(fd);
    *len = got > 0 ? (size_t)got : 0;
    return status;
}

ssize_t read_at(int fd, uint8_t *bytes, size_t room, off_t at)
{
    size_t len = 0;
    ssize_t got = 1;

    while (len < room && got != 0) {
        got = pread(fd, bytes + len, room - len, at + (off_t)len);
        if (got < 0 && errno != EINTR)
            return -1;
        len += got > 0 ? (size_t)got : 0;
    }
    return (ssize_t)len;
}

int write_at(int fd, const uint8_t *bytes, size_t len, off_t at)
{
    size_t done = 0;

    while (done < len) {
        ssize_t put = pwrite(fd, bytes + done, len - done, at + (off_t)done);
        if (put < 0 && errno != EINTR)
            return -1;
        done += put > 0 ? (size_t)put : 0;
    }
    return 0;
}

int folder_of(const char *path)
{
    char folder[PATH_MAX];
    const char *slash = strrchr(path, '/');

    snprintf(folder, sizeof folder, "%.*s", slash ? (int)(slash - path + 1) : 1, slash ? path : ".");
    return open(folder, O_RDONLY | O_DIRECTORY | O_CLOEXEC);
}

/* Gives the file to an owner or a group, if that may be; -1 with errno set. */
static int give(int fd, uid_t owner, gid_t group)
{
    return fchown(fd, owner, group) != 0 && errno != EPERM ? -1 : 0;
}

/* The new file's rights: those of the old one, and its group and owner if that may be; else what the umask leaves. */
static int dress(int fd, const char *path)
{
    struct stat old;

    if (stat(path, &old) == 0) {
        if (give(fd, (uid_t)-1, old.st_gid) != 0 || give(fd, old.st_uid, (gid_t)-1) != 0)
            return -1;
        return fchmod(fd, old.st_mode & 07777);
    }
    mode_t mask = umask(0);
    umask(mask);
    return fchmod(fd, 0666 & ~mask);
}

/* Writes and syncs a new file; -1 with errno set, and it is gone again. */
static int write_new(char *beside, const char *path, const uint8_t *bytes, size_t len)
{
    int fd = mkstemp(beside);
    if (fd < 0)
        return -1;
    int failed = write_at(fd, bytes, len, 0) != 0 || dress(fd, path) != 0 || fsync(fd) != 0 ? errno : 0;
    if (close(fd) != 0 && !failed)
        failed = errno;
    if (!failed)
        return 0;
    unlink(beside);
    errno = failed;
    return -1;
}

int sync_folder(const char *path)
{
    int folder = folder_of(path);
    if (folder < 0)
        return -1;
    int failed = fsync(folder) != 0 ? errno : 0;
    close(folder);
    errno = failed;
    return failed ? -1 : 0;
}

static int write_beside(const char *path, const char *name, const uint8_t *bytes, size_t len, bool *replaced)
{
    char beside[PATH_MAX];
    if (snprintf(beside, sizeof beside, "%s.XXXXXX", path) >= (int)sizeof beside)
        return fail("%s: the name is too long", name);
    if (write_new(beside, path, bytes, len) != 0)
        return fail_errno(name);
    if (rename(beside, path) != 0) {
        int why = errno;
        unlink(beside);
        errno = why;
        return fail_errno(name);
    }
    *replaced = true;
    if (sync_folder(path) != 0)
        return fail("%s: it is replaced, but may not last a loss of power: %s", name, strerror(errno));
    return 0;
}

int replace(const char *path, const char *name, const uint8_t *bytes, size_t len, bool *replaced)
{
    bool done = false;
    sigset_t before;

    hold_signals(&before); /* so that nothing is left beside the file */
    int status = write_beside(path, name, bytes, len, &done);
    let_signals(&before);
    if (replaced)
        *replaced = done;
    return status;
}
