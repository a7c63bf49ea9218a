/* refusals.h: sets of refusals that apply to one call, as bits: bit 7 for refusal 7. */
#ifndef REFUSALS_H
#define REFUSALS_H

#include "call.h"
#include "cases.h"

#define R(number) (1u << (number))

/* Before the first set of a group, and what to say after its last one: how many there were. */
void begin_sets(void);
void say_sets(void);

/* Makes a call to which exactly this set applies; its answer has to be the one that the papers' order picks. */
void try_set(struct call call, unsigned set);
/* Of a call whose answer has no room for a refusal: 0.0 has to be given if any applies. */
void try_set_of_double(struct call call, unsigned set);

/* All subsets of `all` but those in which `excluded` finds a contradiction have to have been tried since the last of these. */
void end_of_sets(unsigned all, bool (*excluded)(unsigned set));

/* A state of the given length without page 01h, both records sound, and then the named ports' unsound in one of UNSOUND ways. */
void begin_unsound(size_t len, bool operator_unsound, bool recorder_unsound, unsigned way);

/* What differs from one kind of module to the other. */
struct map {
    struct call (*of)(struct call call);    /* a sample, read or write of document 01's made this map's */
    unsigned state_len, sample_len;
    /* Begins with a state of this length, both records sound and then the named ports' unsound, in one of so many ways. */
    void (*begin)(size_t len, bool operator_unsound, bool recorder_unsound, unsigned way);
    unsigned ways;
    /* Runs, and the refusals that each alone brings: to a read, and to the recorder's write. */
    const struct run { uint64_t address, count; unsigned set; } *reads, *writes;
    size_t read_count, write_count;
    bool (*read_excludes)(unsigned set);    /* sets that cannot exist */
};

/* The sets of read, write and sample. */
void refusals_of(const struct map *map);

/* Without a port there is no record of a calling port, and no recorder: 2 with 3 and 2 with 7 cannot exist. What comes nearest is
 * tried all the same: both records unsound, and bytes that are not a recorder's own. */
bool port_excludes(unsigned set);

/* The sets of reset, identity, monitors and limits. */
void refusals_of_the_rest(void);

#endif
