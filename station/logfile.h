/* logfile.h: a log of samples in a file, which neither a write that is cut off, by a kill or by a loss of power, nor a byte of its
 * head that is damaged does harm.
 *
 * The file has a head (loghead.h), then the blocks. A commit, after the library has changed the blocks in memory:
 *   1. the blocks that were unused before and are used now are written, and the file is synced;
 *   2. the slot that does not hold, or of two that say the same the second, is written, with the next serial number, the new used
 *      number, and a copy of the block that was the last one before, as it now stands; the file is synced. From now on that slot
 *      holds: only now is anything acknowledged;
 *   3. the other slot is written, with the same bytes, and that block in its own place. This needs no sync of its own: until step
 *      2 of the next commit the slot of this one's step 2 stands as it is, its copy stands in for the block, and step 1's sync
 *      comes before that.
 * So after a commit both slots say the same, and a damaged byte in either costs nothing. Where step 3 is cut off or fails, the
 * other slot is of the commit before, or torn; either way that of step 2 holds, and the next commit writes both. A log of an
 * earlier version, which wrote its slots in turn, is read as one whose step 3 was cut off.
 * Where step 2 fails, its slot may be on the disk all the same, and is wiped, so that the other one holds again.
 *
 * Of the blocks that are acknowledged only the last one ever changes. Whoever opens the file lays the copy over its block, and
 * changes nothing. What a write that was cut off has left a commit puts right before step 1, whose sync makes it last: the copy
 * goes in its place, if it is not there, and a slot that is damaged is wiped. Else another write that is cut off could make it
 * whole; so could the other slot's bytes, written over it at once.
 *
 * A damaged slot may be the later one, if step 3 of its commit was cut off or is an earlier version's. That it is damaged is said.
 *   - The block that the other slot has a copy of may be sound on the disk, with the copy's number and more samples. Nothing but
 *     step 3 of a later commit has written it, so that the damaged slot had held, and what the block has was acknowledged. Whoever
 *     looks takes that block. Whoever would write is refused, and nothing is changed: the copy would take samples away, and what
 *     else that commit had is not known. No loss of power alone leads here: step 3 comes after step 2's sync.
 *   - Blocks after the last used one that are sound and numbered on may be that commit's, but step 1 of a commit whose step 2 was
 *     cut off leaves the same, which any loss of power may do. So they keep nobody from writing, or a station that lost its power
 *     would keep no samples. They are not taken as used either: they may be of a commit that was cut off long before, or come
 *     after rows that the last used block was to have, and rows that nobody acknowledged, or with others missing before them, are
 *     worse evidence than none. How many there are is said. Rows are lost to this only if power was lost after a commit's step 2
 *     and before its step 3 lasted, and then that one slot was damaged, before the next commit.
 * This holds on disks that write a sector of 512 bytes whole or not at all, and that have written what they say is synced.
 *
 * Who changes a log has the file locked (LOCK_EX) from log_begin to log_end, who looks (LOCK_SH) while it is read. */
#ifndef LOGFILE_H
#define LOGFILE_H

#include "loghead.h"

#include <stdbool.h>

struct logfile {
    const char *name; /* as it was given */
    int fd;           /* -1 where it is not open */
    uint8_t *bytes;   /* all blocks, as the library has them; null where they are not loaded */
    uint64_t used;    /* of these */
    struct slot held; /* what the file has */
    unsigned turn;    /* which slot that is, 0 or 1 */
    bool damaged;     /* the other one is, and nobody has wiped it, */
    bool told;        /* and that has been said */
    bool ahead;       /* where it is: the damaged slot had held, and the disk's block has more than the copy, */
    uint64_t beyond;  /* and so many blocks after the last used one are sound and numbered on */
    bool unplaced;    /* the block that `held` has a copy of may not be in its place */
    bool stale;       /* what is in memory may differ from what the file has */
};

/* Makes a file with room for so many blocks, none of them used, while signals wait; one that is there is not replaced. Gives 0,
 * or an exit status with the error said, as the others do. */
int log_make(const char *name, uint64_t blocks);

/* Begins a change: locks, and loads what is not loaded or what another command has changed. A log that the library finds unsound
 * is refused. The file stays as it is. Before the first time: {.name = .., .fd = -1}. */
int log_begin(struct logfile *log);

/* Makes what the library has changed in memory last, while signals wait. Where it cannot, the log is as it was, or the error's
 * line says that it may not be. */
int log_commit(struct logfile *log);

/* Others can have it. */
void log_end(struct logfile *log);

/* A look: loads, and leaves nothing locked. */
int log_look(struct logfile *log, const char *name);

void log_close(struct logfile *log);

#endif
