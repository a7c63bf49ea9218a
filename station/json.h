/* json.h: JSON on standard output, one value after the other. Commas, lines and indents come by themselves: an object's members
 * have a line each, an array is one line; or an array has a line for each of its values, and an object in it is one line. */
#ifndef JSON_H
#define JSON_H

#include <stdbool.h>
#include <stddef.h>
#include <stdint.h>

enum { JSON_DEPTH = 8 };

struct json {
    char closing[JSON_DEPTH]; /* of what is open, the innermost last */
    unsigned depth, indent;
    unsigned listed;          /* the depth of an array that has a line for each value; 0 where there is none */
    bool begun;               /* the innermost has a value already */
};

void json_begin(struct json *json, char opening); /* '{' or '[' */
void json_list(struct json *json);                /* the array that has a line for each value; none is in another */
void json_end(struct json *json);                 /* the last one closes the line too */
void json_key(struct json *json, const char *key); /* in an object, before each value */
void json_null(struct json *json);
void json_bool(struct json *json, bool value);
void json_number(struct json *json, double value); /* the shortest decimal, as print_number has it */
void json_whole(struct json *json, uint64_t number);
void json_bytes(struct json *json, const uint8_t *bytes, size_t len); /* as text; what isn't printable ASCII as \u00XX */
void json_words(struct json *json, const char *words); /* text in UTF-8; what is none, in a file's name, as U+FFFD */

#endif
