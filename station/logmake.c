/* logmake.c: log_make of logfile.h. */
#include "files.h"
#include "logfile.h"
#include "say.h"
#include "signals.h"

#include <errno.h>
#include <fcntl.h>
#include <unistd.h>

/* Takes all room at once, so that a full disk is said now, and writes a head with no block used, in both slots; -1 with errno
 * set. */
static int fill(int fd, uint64_t blocks)
{
    const struct slot slot = {.serial = 1, .blocks = blocks};
    uint8_t head[HEAD_LEN];

    errno = posix_fallocate(fd, 0, log_length(blocks));
    for (unsigned i = 0; i < SLOTS; i++)
        slot_write(&slot, head + i * SLOT_LEN);
    return errno != 0 || write_at(fd, head, sizeof head, 0) != 0 || fsync(fd) != 0 ? -1 : 0;
}

/* One that cannot be made whole is gone again. */
static int make(const char *name, uint64_t blocks)
{
    int fd = open(name, O_RDWR | O_CREAT | O_EXCL | O_CLOEXEC, 0666);
    if (fd < 0 && errno == EEXIST)
        return fail("%s is there already, and is not replaced", name);
    if (fd < 0)
        return fail_errno(name);
    int failed = fill(fd, blocks) != 0 ? errno : 0;
    if (close(fd) != 0 && !failed)
        failed = errno;
    if (!failed && sync_folder(name) != 0)
        failed = errno;
    if (!failed)
        return DONE;
    unlink(name);
    errno = failed;
    return fail_errno(name);
}

int log_make(const char *name, uint64_t blocks)
{
    sigset_t before;

    hold_signals(&before);
    int status = make(name, blocks);
    let_signals(&before);
    return status;
}
