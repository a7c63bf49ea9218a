/* netlink.c: the network devices `operator` and `recorder`, as ethtool asks for a module by generic netlink: the lookup of its
 * family, and ETHTOOL_MSG_MODULE_EEPROM_GET. What else is asked for is not supported. */
#include <errno.h>
#include <linux/ethtool_netlink.h>
#include <linux/genetlink.h>
#include <linux/netlink.h>
#include <stdbool.h>
#include <string.h>
#include <sys/socket.h>
#include <unistd.h>

#include "shim.h"

enum { FAMILY = 0x15 }; /* the number of the family "ethtool", any from GENL_MIN_ID on */

struct message {
    struct nlmsghdr head;
    struct genlmsghdr generic;
    uint8_t attributes[512];
};

struct span {
    const uint8_t *at;
    size_t length;
};

uint32_t netlink_port_id(void)
{
    return (uint32_t)getpid();
}

/* ---- attributes */

/* The value of an attribute in a run of them; `at` is null if it is not there. */
static struct span attribute(struct span run, unsigned type)
{
    struct nlattr head;
    while (run.length >= sizeof head) {
        memcpy(&head, run.at, sizeof head);
        if (head.nla_len < NLA_HDRLEN || head.nla_len > run.length)
            break;
        if ((head.nla_type & NLA_TYPE_MASK) == type)
            return (struct span){run.at + NLA_HDRLEN, head.nla_len - NLA_HDRLEN};
        size_t step = NLA_ALIGN((size_t)head.nla_len);
        if (step > run.length)
            break;
        run = (struct span){run.at + step, run.length - step};
    }
    return (struct span){NULL, 0};
}

/* A number of `size` bytes. */
static bool number(struct span run, unsigned type, size_t size, uint32_t *value)
{
    struct span found = attribute(run, type);
    *value = 0;
    if (found.at == NULL || found.length != size)
        return false;
    memcpy(value, found.at, size);
    return true;
}

/* A string that ends inside its attribute, or null. */
static const char *words(struct span run, unsigned type)
{
    struct span found = attribute(run, type);
    return found.at != NULL && memchr(found.at, '\0', found.length) != NULL ? (const char *)found.at : NULL;
}

/* Puts an attribute at the end; returns where it is, for `close_nest`. The messages here are far shorter than their room. */
static struct nlattr *put(struct message *message, unsigned type, const void *value, size_t length)
{
    struct nlattr *head = (struct nlattr *)((uint8_t *)message + message->head.nlmsg_len);
    *head = (struct nlattr){.nla_len = (uint16_t)(NLA_HDRLEN + length), .nla_type = (uint16_t)type};
    if (length > 0)
        memcpy((uint8_t *)head + NLA_HDRLEN, value, length);
    message->head.nlmsg_len += NLA_ALIGN(NLA_HDRLEN + (uint32_t)length);
    return head;
}

static void put_number(struct message *message, unsigned type, uint32_t value, size_t size)
{
    put(message, type, &value, size);
}

static void close_nest(const struct message *message, struct nlattr *nest)
{
    nest->nla_len = (uint16_t)((const uint8_t *)message + message->head.nlmsg_len - (uint8_t *)nest);
}

/* ---- the two requests */

static int find_family(struct span run, struct message *reply)
{
    const char *name = words(run, CTRL_ATTR_FAMILY_NAME);
    if (name == NULL)
        return -EINVAL;
    if (strcmp(name, ETHTOOL_GENL_NAME) != 0)
        return -ENOENT;
    reply->generic = (struct genlmsghdr){.cmd = CTRL_CMD_NEWFAMILY, .version = 2};
    put(reply, CTRL_ATTR_FAMILY_NAME, ETHTOOL_GENL_NAME, sizeof ETHTOOL_GENL_NAME);
    put_number(reply, CTRL_ATTR_FAMILY_ID, FAMILY, 2);
    put_number(reply, CTRL_ATTR_VERSION, ETHTOOL_GENL_VERSION, 4);
    struct nlattr *operations = put(reply, CTRL_ATTR_OPS | NLA_F_NESTED, NULL, 0);
    struct nlattr *operation = put(reply, 1 | NLA_F_NESTED, NULL, 0);
    put_number(reply, CTRL_ATTR_OP_ID, ETHTOOL_MSG_MODULE_EEPROM_GET, 4);
    put_number(reply, CTRL_ATTR_OP_FLAGS, GENL_CMD_CAP_DO, 4);
    close_nest(reply, operation);
    close_nest(reply, operations);
    return 0;
}

/* The limits are the kernel's: up to 128 bytes, inside lower memory (of page 0) or inside a page. */
static int read_module(struct span run, struct message *reply)
{
    uint32_t offset, length, page, bank, slave;
    uint8_t bytes[HALF];
    const char *name = words(attribute(run, ETHTOOL_A_MODULE_EEPROM_HEADER), ETHTOOL_A_HEADER_DEV_NAME);
    unsigned port = name == NULL ? 0 : device_port(name);
    if (port == 0)
        return -ENODEV;
    if (!number(run, ETHTOOL_A_MODULE_EEPROM_OFFSET, 4, &offset) || !number(run, ETHTOOL_A_MODULE_EEPROM_LENGTH, 4, &length) ||
        !number(run, ETHTOOL_A_MODULE_EEPROM_PAGE, 1, &page) || !number(run, ETHTOOL_A_MODULE_EEPROM_I2C_ADDRESS, 1, &slave))
        return -EINVAL;
    if (length < 1 || length > HALF || offset > 2 * HALF - length || (offset < HALF && (page != 0 || offset > HALF - length)))
        return -EINVAL;
    if (number(run, ETHTOOL_A_MODULE_EEPROM_BANK, 1, &bank) && bank != 0)
        return -EINVAL;
    int module = slave == MODULE_AT ? module_take() : -ENXIO;
    if (module < 0)
        return module;
    int error = module_read_page(module, port, page, offset, length, bytes);
    module_leave(module);
    if (error)
        return error;
    reply->generic = (struct genlmsghdr){.cmd = ETHTOOL_MSG_MODULE_EEPROM_GET_REPLY, .version = ETHTOOL_GENL_VERSION};
    struct nlattr *header = put(reply, ETHTOOL_A_MODULE_EEPROM_HEADER | NLA_F_NESTED, NULL, 0);
    put_number(reply, ETHTOOL_A_HEADER_DEV_INDEX, port, 4);
    put(reply, ETHTOOL_A_HEADER_DEV_NAME, name, strlen(name) + 1);
    close_nest(reply, header);
    put(reply, ETHTOOL_A_MODULE_EEPROM_DATA, bytes, length);
    return 0;
}

static int answer(const struct nlmsghdr *request, struct message *reply)
{
    const struct genlmsghdr *generic = NLMSG_DATA(request);
    if (request->nlmsg_len < NLMSG_LENGTH(GENL_HDRLEN))
        return -EINVAL;
    struct span run = {(const uint8_t *)generic + GENL_HDRLEN, request->nlmsg_len - NLMSG_LENGTH(GENL_HDRLEN)};
    bool dump = (request->nlmsg_flags & NLM_F_DUMP) == NLM_F_DUMP;
    if (request->nlmsg_type == GENL_ID_CTRL && generic->cmd == CTRL_CMD_GETFAMILY && !dump)
        return find_family(run, reply);
    if (request->nlmsg_type == FAMILY && generic->cmd == ETHTOOL_MSG_MODULE_EEPROM_GET && !dump)
        return read_module(run, reply);
    return request->nlmsg_type == GENL_ID_CTRL || request->nlmsg_type == FAMILY ? -EOPNOTSUPP : -ENOENT;
}

/* Sends the reply, if there is one, and then the end: an error, or the acknowledgement that was asked for. */
static void answer_one(int peer, const struct nlmsghdr *request)
{
    struct nlmsghdr head = {.nlmsg_seq = request->nlmsg_seq, .nlmsg_pid = netlink_port_id()};
    struct message reply = {.head = head};
    reply.head.nlmsg_type = request->nlmsg_type;
    reply.head.nlmsg_len = NLMSG_LENGTH(GENL_HDRLEN);
    struct {
        struct nlmsghdr head;
        struct nlmsgerr error;
    } end = {.head = head, .error = {.error = answer(request, &reply), .msg = *request}};
    end.head.nlmsg_type = NLMSG_ERROR;
    end.head.nlmsg_flags = NLM_F_CAPPED;
    end.head.nlmsg_len = sizeof end;
    if (end.error.error == 0)
        send(peer, &reply, reply.head.nlmsg_len, MSG_NOSIGNAL);
    if (end.error.error != 0 || (request->nlmsg_flags & NLM_F_ACK))
        send(peer, &end, sizeof end, MSG_NOSIGNAL);
}

void netlink_answer(int peer, const void *messages, size_t length)
{
    const struct nlmsghdr *request = messages;
    while (length >= sizeof *request && request->nlmsg_len >= sizeof *request && request->nlmsg_len <= length) {
        size_t step = NLMSG_ALIGN(request->nlmsg_len);
        answer_one(peer, request);
        length -= step < length ? step : length;
        request = (const struct nlmsghdr *)((const uint8_t *)request + step);
    }
}
