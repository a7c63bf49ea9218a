/* kind.h: the two kinds of module, and all in which they differ for the commands that serve both: lengths, calls, words, where a
 * bit lies. What a call does is the library's matter. */
#ifndef KIND_H
#define KIND_H

#include "names.h"

#include <stdbool.h>

/* Mask bytes one after the other, and the first of the flag bytes that they hold back, bit by bit. */
struct masks {
    uint8_t page; /* that has them, where it is not lower memory; 0 there */
    unsigned address, count, flag;
};

struct kind {
    const char *aside;    /* after a port's name, where something is said of the module; "" for document 01's */
    const char *counted;  /* what flags a count is of: "" for raised ones, or "pending " */
    unsigned channels;
    int cell;             /* how wide a port's column is */
    size_t state_len, sample_len;
    unsigned flag_bytes;  /* from FLAGS_AT on */
    size_t flags_at;      /* in a state: the operator's flags, */
    size_t pending_at;    /* the bits that its count is of, which may be the flags themselves, */
    size_t record_len;    /* and how far behind them the recorder's are */
    const struct masks *masks; /* up to one of no bytes */
    bool pages;           /* a port has a selected page */
    uint32_t (*sample)(uint8_t *state, size_t state_len, const uint8_t *sample, size_t sample_len);
    uint32_t (*read)(uint8_t *state, size_t state_len, uint64_t port, uint64_t address, uint64_t count, uint8_t *out,
                     size_t out_len);
    uint32_t (*write)(uint8_t *state, size_t state_len, uint64_t port, uint64_t address, const uint8_t *data, size_t data_len);
    const char *(*words)(uint32_t refusal);
    struct flag (*flag_at)(unsigned byte, unsigned bit);
};

/* Document 01's module, and the eight-channel one of document 02, Ask 6. */
extern const struct kind FOUR, EIGHT;

/* The kind whose states have this length; null where neither has. */
const struct kind *kind_of(size_t state_len);

/* A place of a bit in the flag bytes. */
struct place {
    unsigned byte, bit;
};

/* The order in which flags are listed, wherever they are: byte by byte, and in a byte by channel, where bit 0 is the first one's,
 * else from bit 7 down, as the limits go. Which bit comes at a number, from 0 on; it may be no flag. */
struct place place_shown(const struct kind *kind, unsigned number);

/* The places of the flags that differ from this one in their channel alone, from channel 1 on; gives how many, all or one. */
unsigned channels_of(const struct kind *kind, struct flag flag, struct place places[MOST_CHANNELS]);

#endif
