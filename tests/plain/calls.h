/* calls.h: a module, document 01's or Ask 6's, as the bytes that it began with and the list of the calls accepted since. */
#ifndef CALLS_H
#define CALLS_H

#include "plain.h"
#include "rules.h"

enum kind { SAMPLED, READ, WRITTEN };

struct call {
    size_t previous; /* of its kind, by its port; 0 if none */
    unsigned address, count;
    uint8_t bytes[SAMPLE_LEN];
    uint8_t raises[15]; /* of document 01's module, a sample's conditions, by flag byte */
};

struct plain {
    uint8_t *beginning;
    size_t length, room;
    struct call *list; /* calls 1 to `calls` */
    size_t calls, list_room;
    size_t last[3][3]; /* call of a kind, by a port (a sample's is 0); 0 if none */
};

/* Puts an accepted call at the end of the list: a sample's bytes (port 0), the run of a read, the run and bytes of a write. It is
 * there until the next is put. */
struct call *append(struct plain *m, enum kind kind, uint64_t port, uint64_t address, uint64_t count, const uint8_t *bytes);

bool in_run(const struct call *c, unsigned address);

/* The port's last read of the byte at an address, 0 if none: what a flag stands for began after it. */
size_t last_read(const struct plain *m, enum port port, unsigned address);

#endif
