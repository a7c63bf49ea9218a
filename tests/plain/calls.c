/* calls.c: the beginning and the list. See calls.h. */
#include "calls.h"

#include <stdio.h>
#include <stdlib.h>
#include <string.h>

static void *grown(void *old, size_t size)
{
    void *bigger = realloc(old, size);

    if (!bigger) {
        fputs("plain: out of memory\n", stderr);
        exit(2);
    }
    return bigger;
}

struct plain *plain_new(void)
{
    return calloc(1, sizeof(struct plain));
}

void plain_free(struct plain *m)
{
    if (m) {
        free(m->beginning);
        free(m->list);
        free(m);
    }
}

void plain_begin(struct plain *m, const uint8_t *state, size_t len)
{
    if (len > m->room) {
        m->beginning = grown(m->beginning, len);
        m->room = len;
    }
    if (len)
        memcpy(m->beginning, state, len);
    m->length = len;
    m->calls = 0;
    memset(m->last, 0, sizeof m->last);
}

struct call *append(struct plain *m, enum kind kind, uint64_t port, uint64_t address, uint64_t count, const uint8_t *bytes)
{
    size_t i = ++m->calls;

    if (i >= m->list_room) {
        m->list_room = 2 * i + 64;
        m->list = grown(m->list, m->list_room * sizeof m->list[0]);
    }
    struct call *c = &m->list[i];
    *c = (struct call){.previous = m->last[kind][port], .address = (uint8_t)address, .count = (unsigned)count};
    m->last[kind][port] = i;
    if (kind != READ)
        memcpy(c->bytes, bytes, count);
    return c;
}

bool in_run(const struct call *c, unsigned address)
{
    return c->address <= address && address < c->address + c->count;
}

size_t last_read(const struct plain *m, enum port port, unsigned address)
{
    size_t read = m->last[READ][port];

    while (read != 0 && !in_run(&m->list[read], address))
        read = m->list[read].previous;
    return read;
}
