/* call.c: calls and lists of calls. */
#include "call.h"

#include "sums.h"

#include <stdio.h>
#include <stdlib.h>
#include <string.h>

struct call a_reset(struct bytes image)
{
    return (struct call){ .kind = RESET, .first = image };
}

struct call a_sample(struct bytes sample)
{
    return (struct call){ .kind = SAMPLE, .first = sample };
}

struct call a_read(uint64_t port, uint64_t address, uint64_t count, size_t out_len)
{
    static uint8_t fill;
    fill = (uint8_t)(fill + 0x65);
    return (struct call){ .kind = READ, .port = port, .address = address, .count = count, .out_len = out_len, .fill = fill };
}

struct call a_write(uint64_t port, uint64_t address, struct bytes data)
{
    return (struct call){ .kind = WRITE, .port = port, .address = address, .first = data };
}

struct call an_identity(struct bytes live, struct bytes factory, uint64_t field)
{
    return (struct call){ .kind = IDENTITY, .first = live, .second = factory, .number = field };
}

struct call of_number(enum kind kind, uint64_t number)
{
    return (struct call){ .kind = kind, .number = number };
}

struct call a_limit(uint64_t quantity, uint64_t which)
{
    return (struct call){ .kind = LIMIT, .number = quantity, .which = which };
}

struct call a_log_add(uint64_t used, struct bytes sample)
{
    return (struct call){ .kind = LOG_ADD, .number = used, .first = sample };
}

struct call a_log_power_up(uint64_t used)
{
    return of_number(LOG_POWER_UP, used);
}

struct call a_log_sample(uint64_t used, uint64_t position)
{
    return (struct call){ .kind = LOG_SAMPLE, .number = used, .which = position };
}

struct call a_log_first(uint64_t used, uint64_t bit)
{
    return (struct call){ .kind = LOG_FIRST, .number = used, .which = bit };
}

struct call a_put(uint64_t place, uint8_t byte)
{
    return (struct call){ .kind = PUT, .number = place, .fill = byte };
}

struct call a_reset_of_eight(void)
{
    return of_eight(a_reset((struct bytes){ NULL, 0 }));
}

struct call of_eight(struct call call)
{
    call.eight = true;
    return call;
}

const char *call_name(enum kind kind)
{
    static const char *const names[KINDS] = {
        "reset", "sample", "read", "write", "identity", "kind", "value", "limits", "limit", "log-add", "log-power-up", "log-sample",
        "log-first", "put",
    };
    return names[kind];
}

bool call_is_double(enum kind kind)
{
    return kind == VALUE || kind == LIMIT;
}

bool call_is_of_log(enum kind kind)
{
    return kind >= LOG_ADD && kind <= LOG_FIRST;
}

static void *grown(void *at, size_t *room, size_t wanted, size_t size)
{
    if (wanted <= *room)
        return at;
    *room = 2 * wanted;
    at = realloc(at, *room * size);
    if (!at) {
        fputs("compare: no memory left\n", stderr);
        exit(2);
    }
    return at;
}

/* Copies bytes into the list; gives where they are there. */
static size_t copied(struct list *list, struct bytes bytes)
{
    size_t at = list->used;
    if (!bytes.at || !bytes.len || bytes.len > REGION)
        return at;
    list->bytes = grown(list->bytes, &list->bytes_room, at + bytes.len, 1);
    memcpy(list->bytes + at, bytes.at, bytes.len);
    list->used = at + bytes.len;
    return at;
}

void list_begin(struct list *list, struct bytes state, enum place place)
{
    list->count = list->used = 0;
    list->place = place;
    list->state = state;
    copied(list, state);
    sum_state(state, place);
}

void list_add(struct list *list, const struct call *call)
{
    list->entries = grown(list->entries, &list->room, list->count + 1, sizeof *list->entries);
    struct entry *entry = &list->entries[list->count++];
    entry->call = *call;
    entry->first = copied(list, call->first);
    entry->second = copied(list, call->second);
    sum_call(call);
}

/* The bytes as they were when they were copied to `at`. */
static struct bytes kept(const struct list *list, struct bytes bytes, size_t at)
{
    if (bytes.at && bytes.len && bytes.len <= REGION)
        bytes.at = list->bytes + at;
    return bytes;
}

struct bytes list_state(const struct list *list)
{
    return kept(list, list->state, 0);
}

struct call list_call(const struct list *list, size_t i)
{
    const struct entry *entry = &list->entries[i];
    struct call call = entry->call;
    call.first = kept(list, call.first, entry->first);
    call.second = kept(list, call.second, entry->second);
    return call;
}
