/* json.c: see json.h. */
#include "json.h"
#include "decimals.h"
#include "dump.h"
#include "utf8.h"

#include <inttypes.h>
#include <stdio.h>
#include <string.h>

static void new_line(const struct json *json)
{
    printf("\n%*s", (int)(4 * json->indent), "");
}

/* What stands before a value in an array; in an object its key has seen to that. */
static void before(struct json *json)
{
    bool in_array = json->depth > 0 && json->closing[json->depth - 1] == ']';
    bool in_list = in_array && json->depth == json->listed;

    if (in_array && json->begun)
        fputs(in_list ? "," : ", ", stdout);
    if (in_list)
        new_line(json);
    json->begun = true;
}

/* Whether what is at this depth has a line for each value: an object that is in no list, and the list itself. */
static bool has_lines(const struct json *json, char closing)
{
    return closing == '}' ? json->listed == 0 : json->depth == json->listed;
}

void json_begin(struct json *json, char opening)
{
    before(json);
    putchar(opening);
    json->closing[json->depth++] = opening == '{' ? '}' : ']';
    json->indent += has_lines(json, json->closing[json->depth - 1]);
    json->begun = false;
}

void json_list(struct json *json)
{
    before(json);
    putchar('[');
    json->closing[json->depth++] = ']';
    json->listed = json->depth;
    json->indent++;
    json->begun = false;
}

void json_end(struct json *json)
{
    char closing = json->closing[json->depth - 1];
    bool lines = has_lines(json, closing);

    json->indent -= lines;
    if (lines && json->begun)
        new_line(json);
    putchar(closing);
    if (json->depth == json->listed)
        json->listed = 0;
    json->begun = true;
    if (--json->depth == 0)
        putchar('\n');
}

void json_key(struct json *json, const char *key)
{
    if (json->begun)
        fputs(json->listed ? ", " : ",", stdout);
    if (!json->listed)
        new_line(json);
    putchar('"');
    fputs(key, stdout);
    fputs("\": ", stdout);
}

void json_null(struct json *json)
{
    before(json);
    fputs("null", stdout);
}

void json_bool(struct json *json, bool value)
{
    before(json);
    fputs(value ? "true" : "false", stdout);
}

void json_number(struct json *json, double value)
{
    before(json);
    print_number(value);
}

void json_whole(struct json *json, uint64_t number)
{
    before(json);
    printf("%" PRIu64, number);
}

/* An ASCII character. */
static void put_ascii(uint8_t byte)
{
    if (byte == '"' || byte == '\\')
        printf("\\%c", byte);
    else if (printable(byte))
        putchar(byte);
    else
        printf("\\u%04X", byte);
}

void json_bytes(struct json *json, const uint8_t *bytes, size_t len)
{
    before(json);
    putchar('"');
    for (size_t at = 0; at < len; at++)
        put_ascii(bytes[at]);
    putchar('"');
}

void json_words(struct json *json, const char *words)
{
    before(json);
    putchar('"');
    for (const unsigned char *at = (const unsigned char *)words; *at;) {
        uint32_t code;
        unsigned len = utf8_at(at, &code);
        if (len == 1)
            put_ascii(*at);
        else
            printf("%.*s", len ? (int)len : (int)strlen(NO_CHARACTER), len ? (const char *)at : NO_CHARACTER);
        at += len ? len : 1;
    }
    putchar('"');
}
