/* i2c.c: the buses /dev/i2c-1 (the operator's) and /dev/i2c-2 (the recorder's), as a driver of such a bus answers i2c-tools. One
 * module is on each, at 50h. A message that writes is an address and then bytes to write there; one that reads starts at the
 * address last written, or after what was last read or written. */
#include <errno.h>
#include <linux/i2c-dev.h>
#include <linux/i2c.h>
#include <string.h>

#include "shim.h"

static const unsigned long ABILITIES = I2C_FUNC_I2C | I2C_FUNC_SMBUS_QUICK | I2C_FUNC_SMBUS_BYTE | I2C_FUNC_SMBUS_BYTE_DATA |
                                       I2C_FUNC_SMBUS_WORD_DATA | I2C_FUNC_SMBUS_I2C_BLOCK;

/* One message: at most one read or write of the module. An empty one asks only whether a module is there. */
static int transfer(struct bus *bus, int module, const struct i2c_msg *message)
{
    int error = 0;
    unsigned moved = message->len;
    if (message->addr != MODULE_AT)
        return -ENXIO;
    if (moved == 0)
        return 0;
    if (message->flags & I2C_M_RD) {
        error = module_read(module, bus->port, bus->counter, moved, message->buf);
    } else {
        bus->counter = message->buf[0];
        moved--;
        if (moved > 0)
            error = module_write(module, bus->port, bus->counter, message->buf + 1, moved);
    }
    if (error == 0)
        bus->counter += moved;
    return error;
}

/* A run of messages with the bus taken once; the first that fails ends it. Returns how many there were. */
static int transfer_all(struct bus *bus, const struct i2c_msg *messages, unsigned count)
{
    int error = 0;
    for (unsigned i = 0; i < count; i++) {
        if ((messages[i].flags & ~I2C_M_RD) != 0 || (messages[i].flags == 0 && messages[i].len > 1 + WRITE_LIMIT))
            return -EOPNOTSUPP;
        if (messages[i].len > 0 && messages[i].buf == NULL)
            return -EFAULT;
    }
    int module = module_take();
    if (module < 0)
        return module;
    for (unsigned i = 0; i < count && error == 0; i++)
        error = transfer(bus, module, &messages[i]);
    module_leave(module);
    return error ? error : (int)count;
}

/* Where the data of an SMBus transfer are, and how many bytes. */
static int data_of(const struct i2c_smbus_ioctl_data *asked, int read, uint8_t **bytes)
{
    union i2c_smbus_data *data = asked->data;
    *bytes = NULL;
    if (asked->size == I2C_SMBUS_QUICK || (asked->size == I2C_SMBUS_BYTE && !read))
        return 0;
    if (data == NULL)
        return -EINVAL;
    switch (asked->size) {
    case I2C_SMBUS_BYTE:
    case I2C_SMBUS_BYTE_DATA:
        *bytes = &data->byte;
        return 1;
    case I2C_SMBUS_WORD_DATA:
        *bytes = (uint8_t *)&data->word;
        return 2;
    case I2C_SMBUS_I2C_BLOCK_BROKEN:
        if (read)
            data->block[0] = I2C_SMBUS_BLOCK_MAX;
        /* fall through */
    case I2C_SMBUS_I2C_BLOCK_DATA:
        *bytes = &data->block[1];
        return data->block[0] <= I2C_SMBUS_BLOCK_MAX ? data->block[0] : -EINVAL;
    default:
        return -EOPNOTSUPP;
    }
}

/* An SMBus transfer as messages: the command and what is written, then what is read. */
static int smbus(struct bus *bus, const struct i2c_smbus_ioctl_data *asked)
{
    int read = asked->read_write == I2C_SMBUS_READ;
    int command = asked->size != I2C_SMBUS_QUICK && !(asked->size == I2C_SMBUS_BYTE && read);
    uint8_t out[1 + I2C_SMBUS_BLOCK_MAX] = {asked->command}, *bytes;
    int length = data_of(asked, read, &bytes);
    if (length < 0)
        return length;
    if (!read && length > 0)
        memcpy(out + 1, bytes, (size_t)length);
    uint16_t slave = (uint16_t)bus->slave;
    struct i2c_msg run[2] = {{.addr = slave, .buf = out, .len = (uint16_t)(command + (read ? 0 : length))},
                             {.addr = slave, .flags = I2C_M_RD, .buf = bytes, .len = (uint16_t)length}};
    int done = !read ? transfer_all(bus, run, 1) : command ? transfer_all(bus, run, 2) : transfer_all(bus, run + 1, 1);
    return done < 0 ? done : 0;
}

int bus_ioctl(struct bus *bus, unsigned long request, void *argument)
{
    unsigned long value = (unsigned long)argument;
    const struct i2c_rdwr_ioctl_data *run = argument;
    switch (request) {
    case I2C_FUNCS:
        memcpy(argument, &ABILITIES, sizeof ABILITIES);
        return 0;
    case I2C_SLAVE:
    case I2C_SLAVE_FORCE:
        if (value > 0x7f)
            return -EINVAL;
        bus->slave = (unsigned)value;
        return 0;
    case I2C_RETRIES:
    case I2C_TIMEOUT:
        return 0;
    case I2C_TENBIT:
    case I2C_PEC:
        return value == 0 ? 0 : -EOPNOTSUPP;
    case I2C_SMBUS:
        return smbus(bus, argument);
    case I2C_RDWR:
        if (run->nmsgs == 0 || run->nmsgs > I2C_RDWR_IOCTL_MAX_MSGS)
            return -EINVAL;
        return transfer_all(bus, run->msgs, run->nmsgs);
    default:
        return -ENOTTY;
    }
}
