/* call.h: one call, as it is made on both engines, and the list of the calls made since a beginning. */
#ifndef CALL_H
#define CALL_H

#include "memory.h"

/* The module's calls, the log's from LOG_ADD on, and PUT, which is none: the owner of the state or the log changes a byte. */
enum kind {
    RESET, SAMPLE, READ, WRITE, IDENTITY, KIND, VALUE, LIMITS, LIMIT, LOG_ADD, LOG_POWER_UP, LOG_SAMPLE, LOG_FIRST, PUT, KINDS
};

/* Bytes to lend. A null `at`: no bytes, at a null pointer. Vast ones, more than REGION, are zeros and `at` is anything. */
struct bytes {
    const uint8_t *at;
    size_t len;
};

struct call {
    enum kind kind;
    bool eight;                     /* RESET to WRITE: of the eight-channel module */
    uint64_t port, address, count;  /* of a read or a write, which has no count but its data's length */
    uint64_t number, which;         /* the field, the monitor, the quantity or the used number; which of its limits; */
                                    /* the position in a log, or the status bit; of PUT the place */
    struct bytes first, second;     /* the image, the sample, the data or the live page; the factory page */
    size_t out_len;                 /* the output memory, */
    bool out_null;                  /* if it is none at a null pointer, */
    uint8_t fill;                   /* and what all of it holds before the call; of PUT the byte */
};

struct call a_reset(struct bytes image);
struct call a_sample(struct bytes sample);
/* The fill changes from one such call to the next. */
struct call a_read(uint64_t port, uint64_t address, uint64_t count, size_t out_len);
struct call a_write(uint64_t port, uint64_t address, struct bytes data);
struct call an_identity(struct bytes live, struct bytes factory, uint64_t field);
/* KIND, VALUE or LIMITS. */
struct call of_number(enum kind kind, uint64_t number);
struct call a_limit(uint64_t quantity, uint64_t which);
struct call a_log_add(uint64_t used, struct bytes sample);
struct call a_log_power_up(uint64_t used);
struct call a_log_sample(uint64_t used, uint64_t position);
struct call a_log_first(uint64_t used, uint64_t bit);
struct call a_put(uint64_t place, uint8_t byte);
/* A reset without an image, and the same sample, read or write, of the eight-channel module. */
struct call a_reset_of_eight(void);
struct call of_eight(struct call call);

/* The answer is a double, given as its bits. */
bool call_is_double(enum kind kind);
bool call_is_of_log(enum kind kind);

const char *call_name(enum kind kind);

/* A beginning and the calls made since it, with copies of all their bytes. */
struct list {
    enum place place;
    struct bytes state;
    struct entry {
        struct call call;
        size_t first, second;       /* where the copies of its bytes are */
    } *entries;
    size_t count, room;
    uint8_t *bytes;                 /* the copies: the state's, then those of the calls */
    size_t used, bytes_room;
};

void list_begin(struct list *list, struct bytes state, enum place place);
void list_add(struct list *list, const struct call *call);
struct bytes list_state(const struct list *list);
struct call list_call(const struct list *list, size_t i);

#endif
