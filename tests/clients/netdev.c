/* netdev.c: the network devices `operator` and `recorder`, as ethtool asks for a module by ioctl (SIOCETHTOOL). */
#include <errno.h>
#include <linux/ethtool.h>
#include <net/if.h>
#include <string.h>

#include "shim.h"

enum { PAGES = 4, FLAT = ETH_MODULE_SFF_8636_LEN, PAGED = ETH_MODULE_SFF_8636_MAX_LEN };

unsigned device_port(const char *name)
{
    return strcmp(name, "operator") == 0 ? 1 : strcmp(name, "recorder") == 0 ? 2 : 0;
}

/* How many bytes there are to see: lower memory and pages 00h to 03h, or without page 03h lower memory and page 00h. */
static int length(int module, unsigned port)
{
    uint8_t byte;
    int error = module_read_page(module, port, 3, HALF, 1, &byte);
    return error == 0 ? PAGED : error == -EINVAL ? FLAT : error;
}

/* ETHTOOL_GMODULEEEPROM: lower memory and the pages in turn; a page that the module does not have is zeros. */
static int read_all(int module, unsigned port, const struct ethtool_eeprom *wanted, uint8_t *bytes)
{
    uint8_t all[PAGED] = {0};
    unsigned from = wanted->offset, to = from + wanted->len;
    int total = length(module, port);
    if (total < 0)
        return total;
    if (to <= from || to > (unsigned)total)
        return -EINVAL;
    for (unsigned half = 0; half <= PAGES; half++) {
        unsigned first = half * HALF, start = from > first ? from : first, end = to < first + HALF ? to : first + HALF;
        if (start >= end)
            continue;
        unsigned page = half == 0 ? 0 : half - 1, address = start - first + (half == 0 ? 0 : HALF);
        int error = module_read_page(module, port, page, address, end - start, all + start);
        if (error && error != -EINVAL)
            return error;
    }
    memcpy(bytes, all + from, wanted->len);
    return 0;
}

static int inform(int module, unsigned port, struct ethtool_modinfo *information)
{
    int total = length(module, port);
    if (total < 0)
        return total;
    information->type = ETH_MODULE_SFF_8636;
    information->eeprom_len = (uint32_t)total;
    return 0;
}

int device_ioctl(void *request)
{
    struct ifreq *device = request;
    if (device == NULL || device->ifr_data == NULL)
        return -EFAULT;
    unsigned port = memchr(device->ifr_name, '\0', IFNAMSIZ) == NULL ? 0 : device_port(device->ifr_name);
    uint32_t command;
    memcpy(&command, device->ifr_data, sizeof command);
    if (port == 0)
        return -ENODEV;
    if (command != ETHTOOL_GMODULEINFO && command != ETHTOOL_GMODULEEEPROM)
        return -EOPNOTSUPP;
    int module = module_take();
    if (module < 0)
        return module;
    struct ethtool_eeprom *wanted = (struct ethtool_eeprom *)device->ifr_data;
    int error = command == ETHTOOL_GMODULEINFO ? inform(module, port, (struct ethtool_modinfo *)device->ifr_data)
                                               : read_all(module, port, wanted, wanted->data);
    module_leave(module);
    return error;
}
