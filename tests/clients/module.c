/* module.c: the module's process. It holds the 688 bytes, or an eight-channel module's 98, listens on a unix socket, and makes
 * the calls that arrive; what they do the library decides. The messages are wire.h's.
 *
 *   clients-module SOCKET
 *
 * Prints "listening" once it does, and ends, taking the socket away, when its standard input does. */
#include <errno.h>
#include <poll.h>
#include <stdio.h>
#include <string.h>
#include <sys/socket.h>
#include <sys/un.h>
#include <unistd.h>

#include "wire.h"

static uint8_t state[ZIKHRODAN_STATE_LEN];
static size_t length = ZIKHRODAN_STATE_LEN; /* of the state, which says which kind of module it is */
static uint32_t last; /* the answer of the last call */

/* Resets the module; an eight-channel one has no image. */
static uint32_t reset(const uint8_t *image, size_t count)
{
    return length == ZIKHRODAN_DD_STATE_LEN ? zikhrodan_dd_reset(state, length) : zikhrodan_reset(state, length, image, count);
}

/* Makes the call that is asked for; 0 if there is no such call. */
static int perform(const struct request *request, struct answer *answer)
{
    const uint8_t *bytes = request->bytes;
    int eight = length == ZIKHRODAN_DD_STATE_LEN;
    if (request->kind != WIRE_READ && request->count > sizeof request->bytes)
        return 0;
    switch (request->kind) {
    case WIRE_RESET:
        last = reset(bytes, request->count);
        break;
    case WIRE_SAMPLE:
        last = (eight ? zikhrodan_dd_sample : zikhrodan_sample)(state, length, bytes, request->count);
        break;
    case WIRE_READ:
        last = (eight ? zikhrodan_dd_read : zikhrodan_read)(state, length, request->port, request->address, request->count,
                                                            answer->bytes, sizeof answer->bytes);
        if (zikhrodan_refusal_of(last) == ZIKHRODAN_ACCEPTED)
            answer->count = request->count;
        break;
    case WIRE_WRITE:
        last = (eight ? zikhrodan_dd_write : zikhrodan_write)(state, length, request->port, request->address, bytes,
                                                              request->count);
        break;
    case WIRE_LOOK:
        memcpy(answer->bytes, state, length);
        answer->count = (uint32_t)length;
        break;
    case WIRE_LEND:
        if (request->count != ZIKHRODAN_STATE_LEN && request->count != ZIKHRODAN_DD_STATE_LEN)
            return 0;
        length = request->count;
        memcpy(state, bytes, length);
        break;
    default:
        return 0;
    }
    answer->packed = last;
    return 1;
}

/* Serves one request; 0 if the connection is over. */
static int serve(int client)
{
    struct request request;
    struct answer answer = {0};
    if (recv(client, &request, sizeof request, MSG_TRUNC) != (ssize_t)sizeof request || !perform(&request, &answer))
        return 0;
    return send(client, &answer, sizeof answer, MSG_NOSIGNAL) == (ssize_t)sizeof answer;
}

/* Serves one connection after the other until standard input ends. */
static int serve_all(int listener)
{
    int client = -1, patience = 1000 * wire_patience();
    for (;;) {
        struct pollfd waiting[2] = {{.fd = 0, .events = POLLIN}, {.fd = client >= 0 ? client : listener, .events = POLLIN}};
        int ready = poll(waiting, 2, client >= 0 ? patience : -1);
        if (ready < 0 && errno != EINTR)
            return -1;
        if (ready > 0 && waiting[0].revents)
            return 0;
        if (client < 0) {
            client = ready > 0 ? accept(listener, NULL, NULL) : -1;
        } else if (ready == 0 || (ready > 0 && !serve(client))) {
            close(client);
            client = -1;
        }
    }
}

static int fail(const char *what)
{
    fprintf(stderr, "clients-module: %s: %s\n", what, strerror(errno));
    return 2;
}

int main(int argc, char **argv)
{
    struct sockaddr_un address = {.sun_family = AF_UNIX};
    if (argc != 2 || argv[1][0] == '\0' || strlen(argv[1]) >= sizeof address.sun_path) {
        fprintf(stderr, "usage: clients-module SOCKET, a path of 1 to %zu bytes\n", sizeof address.sun_path - 1);
        return 2;
    }
    strcpy(address.sun_path, argv[1]);
    int listener = socket(AF_UNIX, SOCK_SEQPACKET, 0);
    if (listener < 0)
        return fail("socket");
    if (bind(listener, (struct sockaddr *)&address, sizeof address) != 0)
        return fail(argv[1]);
    int ended = -1;
    if (listen(listener, 8) == 0 && puts("listening") != EOF && fflush(stdout) == 0)
        ended = serve_all(listener);
    int status = ended == 0 ? 0 : fail("serving");
    unlink(argv[1]);
    return status;
}
