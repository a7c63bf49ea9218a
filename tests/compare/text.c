/* text.c: writes a case as a script. */
#include "text.h"

#include <inttypes.h>
#include <string.h>

static void print_bytes(struct bytes bytes, FILE *to)
{
    if (bytes.len > REGION)
        fprintf(to, " zeros %zu", bytes.len);
    else if (!bytes.at)
        fputs(" null", to);
    for (size_t i = 0; bytes.at && bytes.len <= REGION && i < bytes.len; i++)
        fprintf(to, " %02X", bytes.at[i]);
}

/* Of a reset an image of no bytes has a line of its own: none in the reset's own is the one set up. The eight-channel module's
 * takes no image. */
static void print_module_call(const struct call *call, FILE *to)
{
    switch (call->kind) {
    case RESET:
        if (call->eight) {
            fputs("reset", to);
            break;
        }
        fputs(call->first.at && !call->first.len ? "image 0\nreset" : "reset", to);
        print_bytes(call->first, to);
        break;
    case SAMPLE:
        fputs("sample", to);
        print_bytes(call->first, to);
        break;
    case READ:
        fprintf(to, "read %" PRIu64 " %" PRIu64 " %" PRIu64, call->port, call->address, call->count);
        if (call->out_null)
            fputs(" null", to);
        else
            fprintf(to, " %zu", call->out_len);
        fprintf(to, " %02X", call->fill);
        break;
    case WRITE:
        fprintf(to, "write %" PRIu64 " %" PRIu64, call->port, call->address);
        print_bytes(call->first, to);
        break;
    case IDENTITY:
        fprintf(to, "identity %" PRIu64 " live", call->number);
        print_bytes(call->first, to);
        fputs(" factory", to);
        print_bytes(call->second, to);
        break;
    case LIMIT:
        fprintf(to, "limit %" PRIu64 " %" PRIu64, call->number, call->which);
        break;
    default:
        fprintf(to, "%s %" PRIu64, call->kind == LIMITS ? "limits" : "monitor", call->number);
    }
}

static void print_log_call(const struct call *call, FILE *to)
{
    fprintf(to, "used %" PRIu64 "\n", call->number);
    switch (call->kind) {
    case LOG_ADD:
        fputs("add", to);
        print_bytes(call->first, to);
        break;
    case LOG_POWER_UP:
        fputs("power-up", to);
        break;
    default:
        fprintf(to, "%s %" PRIu64, call->kind == LOG_SAMPLE ? "sample" : "first", call->which);
    }
}

/* The line that the memory is set up with. */
static const char *memory_word(const struct list *list)
{
    for (size_t i = 0; i < list->count; i++) {
        const struct call *call = &list->entries[i].call;
        if (call->eight || call_is_of_log(call->kind))
            return call->eight ? "eight" : "log";
    }
    return "state";
}

static void print_beginning(const struct list *list, FILE *to)
{
    struct bytes state = list_state(list);
    fprintf(to, "place %s\n%s", place_words[list->place], memory_word(list));
    if (!state.at && state.len <= REGION) {
        fputs(" null\n", to);
        return;
    }
    fprintf(to, " %zu 00\n", state.len);
    if (!state.len || state.len > REGION)
        return;
    fputs("put 0", to);
    print_bytes(state, to);
    fputc('\n', to);
}

void text_print(const struct list *list, FILE *to)
{
    print_beginning(list, to);
    for (size_t i = 0; i < list->count; i++) {
        struct call call = list_call(list, i);
        if (call.kind == PUT)
            fprintf(to, "put %" PRIu64 " %02X", call.number, call.fill);
        else
            (call_is_of_log(call.kind) ? print_log_call : print_module_call)(&call, to);
        fputc('\n', to);
    }
}
