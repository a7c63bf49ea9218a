/* shim.h: what the parts of the shim share. Functions that can fail give 0 (or what is said), or minus an errno. */
#ifndef SHIM_H
#define SHIM_H

#include <stddef.h>
#include <stdint.h>

enum {
    MODULE_AT = 0x50,      /* the module's address on a bus */
    HALF = 128,            /* bytes in lower memory, and in a page */
    PAGE_SELECT = 127,     /* the address of the page selection */
    WRITE_LIMIT = 688      /* bytes of one write that the relay has room for */
};

/* ---- real.c */

/* The C library's function of that name. */
void *real(const char *name);

/* ---- relay.c: the way to the module */

/* Takes the bus: a descriptor, or -ENXIO where no module answers. */
int module_take(void);
void module_leave(int module);

/* One zikhrodan_read or zikhrodan_write; -EREMOTEIO if it is refused, -EIO if the process does not answer. */
int module_read(int module, unsigned port, unsigned address, unsigned count, uint8_t *bytes);
int module_write(int module, unsigned port, unsigned address, const uint8_t *bytes, unsigned count);

/* Reads `count` bytes at `address`, for 128 and above of that page, and leaves the selected page as it was; -EINVAL if the module
 * has no such page. */
int module_read_page(int module, unsigned port, unsigned page, unsigned address, unsigned count, uint8_t *bytes);

/* ---- netdev.c, netlink.c: the network devices, one for each port */

/* The port of a device's name, or 0. */
unsigned device_port(const char *name);

/* SIOCETHTOOL, with its struct ifreq. */
int device_ioctl(void *request);

/* Answers the generic netlink messages in `messages` by sending to `peer`. */
void netlink_answer(int peer, const void *messages, size_t length);

/* The port id of this process's netlink sockets. */
uint32_t netlink_port_id(void);

/* ---- i2c.c: the buses, one for each port */

struct bus {
    unsigned port;
    unsigned slave;   /* the address that SMBus transfers go to */
    unsigned counter; /* the address that a read without one starts at */
};

int bus_ioctl(struct bus *bus, unsigned long request, void *argument);

#endif
