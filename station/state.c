/* state.c: see state.h. */
#include "state.h"
#include "factory.h"
#include "files.h"
#include "lock.h"
#include "paths.h"
#include "say.h"

#include <errno.h>
#include <stdbool.h>
#include <stdio.h>
#include <stdlib.h>
#include <string.h>
#include <sys/file.h>
#include <sys/stat.h>
#include <unistd.h>

/* Whether the folder that is locked is still the one that the path leads to; -1 with errno set where that cannot be told. */
static int is_folder_of(int folder, const char *path)
{
    int again = folder_of(path);
    if (again < 0)
        return errno == ENOENT || errno == ENOTDIR ? 0 : -1;
    bool same = same_file(folder, again);

    close(again);
    return same;
}

/* The folder of a path, locked; -1 with errno set. */
static int lock_folder(const char *path, const char *name)
{
    for (;;) {
        int folder = folder_of(path);
        if (folder < 0)
            return -1;
        int leads = lock(folder, LOCK_EX, name, " in its folder") == 0 ? is_folder_of(folder, path) : -1;
        if (leads > 0)
            return folder;
        int why = errno;
        close(folder);
        if (leads < 0) {
            errno = why;
            return -1;
        }
    }
}

static int state_load(struct state *state, const char *path, const struct kind *kind)
{
    int status = load(path, state->name, state->bytes, sizeof state->bytes, &state->len);

    state->kind = kind ? kind : kind_of(state->len);
    if (status != 0 || state->kind)
        return status;
    fail("%s: refused %d, the state is neither %zu bytes nor, of an eight-channel module, %zu", state->name, ZIKHRODAN_STATE_SIZE,
         FOUR.state_len, EIGHT.state_len);
    return REFUSED;
}

static int load_or_begin(struct state *state, const struct kind *kind, enum if_missing missing)
{
    struct stat is;
    int status = regular(state->path, state->name, "a state");

    if (status == 0 && missing == IS_ZEROS && stat(state->path, &is) != 0 && errno == ENOENT) {
        memset(state->bytes, 0, sizeof state->bytes);
        state->kind = kind;
        state->len = kind->state_len;
        return 0;
    }
    return status ? status : state_load(state, state->path, kind);
}

int state_open(struct state *state, const char *name, const struct kind *kind, enum if_missing missing)
{
    state->name = name;
    state->path = resolved(name, missing == IS_ZEROS);
    if (!state->path)
        return fail_errno(name);
    state->folder = lock_folder(state->path, name);
    int status = state->folder < 0 ? fail_errno(name) : load_or_begin(state, kind, missing);
    if (status != 0)
        state_close(state);
    return status;
}

int state_save(struct state *state)
{
    return replace(state->path, state->name, state->bytes, state->len, &state->saved);
}

void state_close(struct state *state)
{
    free(state->path);
    if (state->folder >= 0)
        close(state->folder);
}

int state_peek(struct state *state, const char *name, const struct kind *kind)
{
    int status = regular(name, name, "a state");

    state->name = name;
    return status ? status : state_load(state, name, kind);
}

int image_load(const char *name, uint8_t image[IMAGE_ROOM], size_t *len)
{
    static uint8_t text[1 << 20]; /* what fills it has more bytes than an image, or blanks without an end */
    struct hex hex = {.high = -1};

    if (!name) {
        memcpy(image, FACTORY_IMAGE, sizeof FACTORY_IMAGE);
        *len = sizeof FACTORY_IMAGE;
        return 0;
    }
    if (!is_hex(name))
        return load(name, name, image, IMAGE_ROOM, len);
    int status = load(name, name, text, sizeof text, len);
    if (status != 0)
        return status;
    bool whole = *len < sizeof text;
    size_t made = from_hex(&hex, text, *len);
    if (hex.bad || (whole && hex.high >= 0))
        return fail(NO_HEX, name, hex.line + 1);
    *len = whole && made < IMAGE_ROOM ? made : IMAGE_ROOM;
    memcpy(image, text, *len);
    return 0;
}
