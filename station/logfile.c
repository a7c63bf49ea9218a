/* logfile.c: see logfile.h. */
#include "logfile.h"
#include "files.h"
#include "lock.h"
#include "logread.h"
#include "say.h"
#include "signals.h"

#include <errno.h>
#include <fcntl.h>
#include <stdlib.h>
#include <string.h>
#include <sys/file.h>
#include <unistd.h>

enum { BLOCK = ZIKHRODAN_BLOCK_LEN };

int log_look(struct logfile *log, const char *name)
{
    *log = (struct logfile){.name = name, .fd = -1};
    int status = open_log(log, O_RDONLY);
    if (status == 0 && lock(log->fd, LOCK_SH, name, "") != 0)
        status = fail_errno(name);
    if (status == 0 && (status = read_head(log)) == 0)
        status = read_blocks(log);
    if (log->fd >= 0)
        close(log->fd);
    log->fd = -1;
    return status ? status : settle(log, false);
}

/* Opens and locks the file that the name leads to, also where it led to another one before. */
static int lock_log(struct logfile *log)
{
    for (;;) {
        int status = log->fd < 0 ? open_log(log, O_RDWR) : 0;
        if (status != 0)
            return status;
        if (lock(log->fd, LOCK_EX, log->name, "") != 0)
            return fail_errno(log->name);
        int leads = leads_to(log->name, log->fd);
        if (leads != 0)
            return leads < 0 ? fail_errno(log->name) : 0;
        log_close(log);
    }
}

/* Wipes the slot that does not hold; -1 with errno set. */
static int wipe_slot(const struct logfile *log)
{
    return write_at(log->fd, WIPED_FRONT, sizeof WIPED_FRONT, !log->turn * SLOT_LEN);
}

/* Puts right what a write that was cut off has left; -1 with errno set. */
static int mend(const struct logfile *log)
{
    if (log->unplaced && write_at(log->fd, log->held.copy, BLOCK, log_length(log->held.place)) != 0)
        return -1;
    return log->damaged ? wipe_slot(log) : 0;
}

int log_begin(struct logfile *log)
{
    struct slot had = log->held;
    int status = lock_log(log);

    if (status == 0)
        status = read_head(log);
    if (status != 0 || (log->bytes && !log->stale && !log->damaged && memcmp(&had, &log->held, sizeof had) == 0))
        return status;
    status = read_blocks(log);
    return status ? status : settle(log, true);
}

/* Step 2 has failed: the slot is wiped, and that is synced. */
static int take_back(const struct logfile *log)
{
    int why = errno;

    if (wipe_slot(log) != 0 || fdatasync(log->fd) != 0)
        return fail("%s: %s; what was to be added may be in the log all the same", log->name, strerror(why));
    errno = why;
    return fail_errno(log->name);
}

/* Writes the slot that does not hold, or of two that say the same the second; -1 with errno set. */
static int write_other(const struct logfile *log, const uint8_t bytes[SLOT_LEN])
{
    return write_at(log->fd, bytes, SLOT_LEN, !log->turn * SLOT_LEN);
}

static int commit(struct logfile *log)
{
    struct slot next = {.serial = log->held.serial + 1, .blocks = log->held.blocks, .used = log->used};
    uint64_t had = log->held.used;
    uint8_t bytes[SLOT_LEN];

    next.place = had > 0 ? had - 1 : 0;
    memcpy(next.copy, block_at(log, next.place), BLOCK);
    slot_write(&next, bytes);
    log->stale = true;
    if (mend(log) != 0 || write_at(log->fd, block_at(log, had), (next.used - had) * BLOCK, log_length(had)) != 0 ||
        fdatasync(log->fd) != 0)
        return fail_errno(log->name);
    if (write_other(log, bytes) != 0 || fdatasync(log->fd) != 0)
        return take_back(log);
    log->held = next;
    log->turn = !log->turn;
    log->told = false;
    /* It is committed, whatever comes of these: what cannot be written the next commit writes. */
    log->stale = write_other(log, bytes) != 0;
    log->unplaced = write_at(log->fd, next.copy, BLOCK, log_length(next.place)) != 0;
    return 0;
}

int log_commit(struct logfile *log)
{
    sigset_t before;

    hold_signals(&before);
    int status = commit(log);
    let_signals(&before);
    return status;
}

void log_end(struct logfile *log)
{
    flock(log->fd, LOCK_UN);
}

void log_close(struct logfile *log)
{
    if (log->fd >= 0)
        close(log->fd);
    free(log->bytes);
    log->fd = -1;
    log->bytes = NULL;
}
