/* relay.c: the way to the module. Every read and write of the shim goes from here to the module's process (the socket that
 * ZIKHRODAN_MODULE names) and there through zikhrodan_read or zikhrodan_write. */
#include <errno.h>
#include <stdlib.h>
#include <string.h>
#include <sys/socket.h>
#include <sys/time.h>
#include <sys/un.h>
#include <unistd.h>

#include "shim.h"
#include "wire.h"

_Static_assert(WRITE_LIMIT == sizeof ((struct request *)0)->bytes, "the relay's room");

int module_take(void)
{
    struct sockaddr_un address = {.sun_family = AF_UNIX};
    struct timeval patience = {.tv_sec = wire_patience()};
    const char *path = getenv("ZIKHRODAN_MODULE");
    if (path == NULL || path[0] == '\0' || strlen(path) >= sizeof address.sun_path)
        return -ENXIO;
    strcpy(address.sun_path, path);
    int module = socket(AF_UNIX, SOCK_SEQPACKET | SOCK_CLOEXEC, 0);
    if (module < 0)
        return -errno;
    if (setsockopt(module, SOL_SOCKET, SO_RCVTIMEO, &patience, sizeof patience) != 0 ||
        setsockopt(module, SOL_SOCKET, SO_SNDTIMEO, &patience, sizeof patience) != 0 ||
        connect(module, (struct sockaddr *)&address, sizeof address) != 0) {
        close(module);
        return -ENXIO;
    }
    return module;
}

void module_leave(int module)
{
    close(module);
}

/* Sends a request and takes its answer. */
static int ask(int module, const struct request *request, struct answer *answer)
{
    if (send(module, request, sizeof *request, MSG_NOSIGNAL) != (ssize_t)sizeof *request ||
        recv(module, answer, sizeof *answer, MSG_TRUNC) != (ssize_t)sizeof *answer)
        return -EIO;
    return zikhrodan_refusal_of(answer->packed) == ZIKHRODAN_ACCEPTED ? 0 : -EREMOTEIO;
}

int module_read(int module, unsigned port, unsigned address, unsigned count, uint8_t *bytes)
{
    struct request request = {.kind = WIRE_READ, .port = port, .address = address, .count = count};
    struct answer answer;
    int error = ask(module, &request, &answer);
    if (error)
        return error;
    if (answer.count != count || count > sizeof answer.bytes)
        return -EIO;
    memcpy(bytes, answer.bytes, count);
    return 0;
}

int module_write(int module, unsigned port, unsigned address, const uint8_t *bytes, unsigned count)
{
    struct request request = {.kind = WIRE_WRITE, .port = port, .address = address, .count = count};
    struct answer answer;
    if (count > sizeof request.bytes)
        return -EOPNOTSUPP;
    memcpy(request.bytes, bytes, count);
    return ask(module, &request, &answer);
}

int module_read_page(int module, unsigned port, unsigned page, unsigned address, unsigned count, uint8_t *bytes)
{
    uint8_t wanted = (uint8_t)page, before, selected;
    if (address < HALF)
        return module_read(module, port, address, count, bytes);
    int error = module_read(module, port, PAGE_SELECT, 1, &before);
    if (error || before == page)
        return error ? error : module_read(module, port, address, count, bytes);
    error = module_write(module, port, PAGE_SELECT, &wanted, 1);
    if (error == 0)
        error = module_read(module, port, PAGE_SELECT, 1, &selected);
    if (error == 0)
        error = selected == page ? module_read(module, port, address, count, bytes) : -EINVAL;
    int restored = module_write(module, port, PAGE_SELECT, &before, 1);
    return error ? error : restored;
}
