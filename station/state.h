/* state.h: a module's state in a file.
 *
 * Whoever changes a state holds its folder locked from loading to saving, so that two commands at once are one after the other. A
 * look needs no lock: a state is replaced whole. Its length says which kind of module it is; what is in it the library judges. */
#ifndef STATE_H
#define STATE_H

#include "kind.h"

#include <stdbool.h>
#include <stdint.h>

/* Where a file has more than this, what is beyond is not read: the library refuses it by its length in any case. */
enum { STATE_ROOM = ZIKHRODAN_STATE_LEN + 1, IMAGE_ROOM = ZIKHRODAN_IMAGE_LEN + 1 };

struct state {
    const struct kind *kind;
    const char *name; /* as it was given */
    char *path;       /* with links resolved */
    int folder;       /* locked */
    bool saved;       /* after state_save: the file has it, even if that may not last */
    size_t len;
    uint8_t bytes[STATE_ROOM];
};

enum if_missing { IS_ERROR, IS_ZEROS };

/* Locks and loads. Where the caller knows the `kind`, the library is to judge the length; where that is null, the length says the
 * kind, and a state of neither's length is refused. Each gives 0, or an exit status with the error said, and then there is
 * nothing to close. */
int state_open(struct state *state, const char *name, const struct kind *kind, enum if_missing missing);
int state_save(struct state *state);
void state_close(struct state *state);

/* A look: loads without a lock, and there is nothing to close. */
int state_peek(struct state *state, const char *name, const struct kind *kind);

/* A factory image from a file, as bytes or, in a ".hex", as text; where `name` is null, the one that is built in. */
int image_load(const char *name, uint8_t image[IMAGE_ROOM], size_t *len);

#endif
