/* wire.h: the messages between the shim and the module's process, over a unix socket of whole packets (SOCK_SEQPACKET).
 *
 * A request is one packet, a struct request; its answer is one, a struct answer. A packet of another length or kind ends the
 * connection. Both sides are little endian, and the fields leave no holes. A connection is served until it ends, and no other
 * meanwhile: whoever has it has the bus, as a driver locks it over a change of page. One that is silent too long is ended. */
#ifndef WIRE_H
#define WIRE_H

#include <stdint.h>
#include <stdlib.h>
#include <zikhrodan.h>

enum {
    WIRE_RESET = 1,  /* bytes: the factory image; none for an eight-channel module */
    WIRE_SAMPLE = 2, /* bytes: the sample */
    WIRE_READ = 3,   /* port, address, count */
    WIRE_WRITE = 4,  /* port, address, bytes */
    WIRE_LOOK = 5,   /* for tests: the state as it stands, through no call */
    WIRE_LEND = 6    /* for tests: a state in place of the module's, through no call; its length says which kind it is */
};

/* How many seconds either side waits for the other: the environment's ZIKHRODAN_PATIENCE, from 1 to an hour; else this. */
enum { WIRE_PATIENCE = 60, WIRE_MOST_PATIENCE = 3600 };

static inline int wire_patience(void)
{
    const char *told = getenv("ZIKHRODAN_PATIENCE");
    long seconds = told ? strtol(told, NULL, 10) : WIRE_PATIENCE;

    return seconds >= 1 && seconds <= WIRE_MOST_PATIENCE ? (int)seconds : WIRE_PATIENCE;
}

struct request {
    uint32_t kind;
    uint32_t port;
    uint32_t address;
    uint32_t count; /* of the bytes that a read wants, else of the bytes that are here */
    uint8_t bytes[ZIKHRODAN_STATE_LEN];
};

struct answer {
    uint32_t packed; /* the library's answer; to a look or a lend, that of the last call */
    uint32_t count;  /* of the bytes that are here: those of an accepted read, or of the state that is looked at */
    uint8_t bytes[ZIKHRODAN_STATE_LEN];
};

_Static_assert(sizeof(struct request) == 16 + 688 && sizeof(struct answer) == 8 + 688, "a message has holes");

#endif
