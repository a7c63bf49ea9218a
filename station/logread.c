/* logread.c: see logread.h. */
#include "logread.h"
#include "files.h"
#include "logcalls.h"
#include "say.h"
#include "why.h"

#include <fcntl.h>
#include <inttypes.h>
#include <stdio.h>
#include <stdlib.h>
#include <string.h>
#include <sys/stat.h>

enum { BLOCK = ZIKHRODAN_BLOCK_LEN };

int read_head(struct logfile *log)
{
    static const char *const wrong[] = {
        [NO_SLOT] = "it is no log; `zikhrodan log new` makes one, under another name",
        [UNWRITTEN] = "it is no log; `zikhrodan log new` makes one, under another name",
        [WIPED] = "both slots of its head are damaged",
        [DAMAGED] = "both slots of its head are damaged",
        [MISFIT] = "its length is not what its head says",
    };
    uint8_t head[HEAD_LEN] = {0};
    struct slot slots[SLOTS] = {{0}};
    enum verdict verdicts[SLOTS];
    struct stat is;

    if (fstat(log->fd, &is) != 0 || read_at(log->fd, head, HEAD_LEN, 0) < 0)
        return fail_errno(log->name);
    for (unsigned i = 0; i < SLOTS; i++)
        verdicts[i] = slot_read(&slots[i], head + i * SLOT_LEN, is.st_size);
    log->turn = verdicts[1] > verdicts[0] || (verdicts[1] == verdicts[0] && slots[1].serial > slots[0].serial);
    if (verdicts[log->turn] != RIGHT)
        return fail("%s: %s", log->name, wrong[verdicts[log->turn]]);
    log->held = slots[log->turn];
    enum verdict other = verdicts[!log->turn];
    log->damaged = other != RIGHT && other != WIPED && !(other == UNWRITTEN && log->held.serial == 1);
    return 0;
}

uint8_t *block_at(const struct logfile *log, uint64_t place)
{
    return log->bytes + place * BLOCK;
}

/* The block on the disk, sound, is of a later commit than the copy: that of the damaged slot. */
static bool is_ahead(const struct logfile *log)
{
    const uint8_t *block = block_at(log, log->held.place), *copy = log->held.copy;

    return log->damaged && blocks_sound(block, 1) && block_number(block) == block_number(copy) &&
           block_count(block) > block_count(copy);
}

/* Lays the copy over its block; gives whether that changes it. */
static bool lay_copy(const struct logfile *log)
{
    uint8_t *block = block_at(log, log->held.place);

    if (log->held.place >= log->used || memcmp(block, log->held.copy, BLOCK) == 0)
        return false;
    memcpy(block, log->held.copy, BLOCK);
    return true;
}

/* How many blocks after the last used one are sound and numbered on from it. */
static uint64_t blocks_beyond(const struct logfile *log)
{
    uint64_t number = log->used > 0 ? block_number(block_at(log, log->used - 1)) : 0, found = 0;
    uint8_t block[BLOCK];

    while (read_at(log->fd, block, BLOCK, log_length(log->used + found)) == BLOCK && blocks_sound(block, 1) &&
           block_number(block) == number + found + 1)
        found++;
    return found;
}

int read_blocks(struct logfile *log)
{
    size_t len = log->held.used * BLOCK;

    free(log->bytes);
    log->bytes = calloc(log->held.blocks, BLOCK);
    ssize_t got = log->bytes ? read_at(log->fd, log->bytes, len, HEAD_LEN) : -1;
    if (got < 0)
        return fail_errno(log->name);
    if ((size_t)got < len)
        return fail("%s: it is cut off", log->name);
    log->used = log->held.used;
    log->stale = false;
    log->ahead = is_ahead(log);
    log->unplaced = !log->ahead && lay_copy(log);
    log->beyond = log->damaged ? blocks_beyond(log) : 0;
    return 0;
}

/* Asks the library once about the whole log. */
static int judge(const struct logfile *log)
{
    if (blocks_sound(log->bytes, log->used))
        return 0;
    return refused(ZIKHRODAN_UNSOUND_LOG, why_unsound(log), "%s", log->name);
}

/* Says that the disk is ahead, and what comes of it; gives the exit status of one who would write. */
static int say_ahead(const struct logfile *log, const char *then, const char *more)
{
    const uint8_t *block = block_at(log, log->held.place);
    unsigned count = block_count(block);

    return fail("%s: a slot of its head is damaged, and block %" PRIu64 " has %u sample%s on the disk, but %u in the other slot's "
                "copy: %s%s", log->name, block_number(block), count, plural(count), block_count(log->held.copy), then, more);
}

int settle(struct logfile *log, bool to_write)
{
    char more[64] = "";
    int status = judge(log);

    if (status != 0 || !log->damaged)
        return status;
    if (log->beyond > 0)
        snprintf(more, sizeof more, "; %" PRIu64 " unused block%s may be the log's too", log->beyond, plural(log->beyond));
    if (log->ahead && to_write)
        return say_ahead(log, "it is not written; keep it as it is, and begin another log", more);
    if (log->ahead)
        say_ahead(log, "those on the disk are taken", more);
    else if (!log->told)
        fail("%s: a slot of its head is damaged: unless a write was cut off, rows of the last commit may be missing%s", log->name,
             more);
    log->told = true;
    return 0;
}

int open_log(struct logfile *log, int how)
{
    struct stat is;

    if (stat(log->name, &is) == 0 && !S_ISREG(is.st_mode))
        return fail("%s: a log is a regular file", log->name);
    log->fd = open(log->name, how | O_CLOEXEC);
    return log->fd < 0 ? fail_errno(log->name) : 0;
}
