/* shim.c: a shared object for LD_PRELOAD that stands where the kernel, the driver and the bus stand for ethtool and i2c-tools.
 *
 * It takes over the C library's functions that they reach those by, for these alone: sockets of generic netlink, SIOCETHTOOL, and
 * /dev/i2c-1 and /dev/i2c-2. All else goes on to the C library. The descriptors it hands out are real ones, of sockets: a netlink
 * socket is one end of a pair whose other end the answers are sent to; a bus is a socket connected to nothing.
 *
 *   ZIKHRODAN_MODULE     the module's socket
 *   ZIKHRODAN_NETLINK    "no": no generic netlink here, so that ethtool falls back to ioctl
 *
 * The tools have one thread, so nothing here is locked. */
#include <errno.h>
#include <fcntl.h>
#include <linux/netlink.h>
#include <linux/sockios.h>
#include <stdarg.h>
#include <stdlib.h>
#include <string.h>
#include <sys/ioctl.h>
#include <sys/socket.h>
#include <unistd.h>

#include "shim.h"

#define PUBLIC __attribute__((visibility("default")))

/* The C library's function of that name. */
#define REAL(name) ((__typeof__(&name))real(#name))

/* What was handed out. */
static struct own {
    enum { UNUSED, NETLINK, BUS } kind;
    int descriptor;
    int peer; /* NETLINK: the other end */
    struct bus bus;
} owned[16];

static struct own *find(int descriptor)
{
    for (size_t i = 0; i < sizeof owned / sizeof owned[0]; i++)
        if (owned[i].kind != UNUSED && owned[i].descriptor == descriptor)
            return &owned[i];
    return NULL;
}

static struct own *find_netlink(int descriptor)
{
    struct own *own = find(descriptor);
    return own != NULL && own->kind == NETLINK ? own : NULL;
}

/* Keeps what is handed out, and gives its descriptor, or -1. */
static int keep(struct own own)
{
    for (size_t i = 0; i < sizeof owned / sizeof owned[0]; i++)
        if (owned[i].kind == UNUSED) {
            owned[i] = own;
            return own.descriptor;
        }
    REAL(close)(own.descriptor);
    if (own.kind == NETLINK)
        REAL(close)(own.peer);
    errno = EMFILE;
    return -1;
}

/* A result in the C library's way. */
static int result(int value)
{
    if (value >= 0)
        return value;
    errno = -value;
    return -1;
}

/* ---- buses */

/* The port of a bus's device file, or 0. */
static unsigned bus_port(const char *path)
{
    return strcmp(path, "/dev/i2c-1") == 0 ? 1 : strcmp(path, "/dev/i2c-2") == 0 ? 2 : 0;
}

static int open_bus(unsigned port)
{
    int descriptor = REAL(socket)(AF_UNIX, SOCK_SEQPACKET | SOCK_CLOEXEC, 0);
    return descriptor < 0 ? -1 : keep((struct own){.kind = BUS, .descriptor = descriptor, .bus = {.port = port}});
}

/* An open that is not a bus's goes on to the C library's function `name`, with a mode where it makes a file. */
#define OPEN(name)                                                           \
    PUBLIC int name(const char *path, int flags, ...)                        \
    {                                                                        \
        mode_t mode = 0;                                                     \
        va_list rest;                                                        \
        va_start(rest, flags);                                               \
        if (__OPEN_NEEDS_MODE(flags))                                        \
            mode = va_arg(rest, mode_t);                                     \
        va_end(rest);                                                        \
        unsigned port = bus_port(path);                                      \
        return port ? open_bus(port) : REAL(name)(path, flags, mode);        \
    }

OPEN(open)
OPEN(open64)

PUBLIC int ioctl(int descriptor, unsigned long request, ...)
{
    va_list rest;
    va_start(rest, request);
    void *argument = va_arg(rest, void *);
    va_end(rest);
    struct own *own = find(descriptor);
    if (own != NULL && own->kind == BUS)
        return result(bus_ioctl(&own->bus, request, argument));
    if (request == SIOCETHTOOL)
        return result(device_ioctl(argument));
    return REAL(ioctl)(descriptor, request, argument);
}

PUBLIC int close(int descriptor)
{
    struct own *own = find(descriptor);
    if (own != NULL) {
        if (own->kind == NETLINK)
            REAL(close)(own->peer);
        own->kind = UNUSED;
    }
    return REAL(close)(descriptor);
}

/* ---- generic netlink */

PUBLIC int socket(int domain, int type, int protocol)
{
    int pair[2];
    const char *wanted = getenv("ZIKHRODAN_NETLINK");
    if (domain != AF_NETLINK || protocol != NETLINK_GENERIC)
        return REAL(socket)(domain, type, protocol);
    if (wanted != NULL && strcmp(wanted, "no") == 0)
        return result(-EPROTONOSUPPORT);
    if (socketpair(AF_UNIX, SOCK_DGRAM | (type & (SOCK_CLOEXEC | SOCK_NONBLOCK)), 0, pair) != 0)
        return -1;
    return keep((struct own){.kind = NETLINK, .descriptor = pair[0], .peer = pair[1]});
}

PUBLIC int bind(int descriptor, const struct sockaddr *address, socklen_t length)
{
    return find_netlink(descriptor) ? 0 : REAL(bind)(descriptor, address, length);
}

PUBLIC int setsockopt(int descriptor, int level, int name, const void *value, socklen_t length)
{
    if (find_netlink(descriptor) && level == SOL_NETLINK)
        return 0;
    return REAL(setsockopt)(descriptor, level, name, value, length);
}

/* Puts a netlink address where the caller has room for one. */
static void put_address(uint32_t port_id, void *address, socklen_t *length)
{
    struct sockaddr_nl netlink = {.nl_family = AF_NETLINK, .nl_pid = port_id};
    memcpy(address, &netlink, *length < sizeof netlink ? *length : sizeof netlink);
    *length = sizeof netlink;
}

PUBLIC int getsockname(int descriptor, struct sockaddr *restrict address, socklen_t *restrict length)
{
    if (find_netlink(descriptor) == NULL)
        return REAL(getsockname)(descriptor, address, length);
    put_address(netlink_port_id(), address, length);
    return 0;
}

PUBLIC ssize_t sendto(int descriptor, const void *bytes, size_t count, int flags, const struct sockaddr *address,
                      socklen_t length)
{
    struct own *own = find_netlink(descriptor);
    if (own == NULL)
        return REAL(sendto)(descriptor, bytes, count, flags, address, length);
    netlink_answer(own->peer, bytes, count);
    return (ssize_t)count;
}

PUBLIC ssize_t recvmsg(int descriptor, struct msghdr *message, int flags)
{
    struct own *own = find_netlink(descriptor);
    socklen_t room = message->msg_namelen;
    ssize_t count = REAL(recvmsg)(descriptor, message, flags);
    if (own != NULL && count >= 0 && message->msg_name != NULL) {
        put_address(0, message->msg_name, &room);
        message->msg_namelen = room;
    }
    return count;
}
