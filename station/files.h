/* files.h: files read whole, replaced whole, and the text form of bytes. */
#ifndef FILES_H
#define FILES_H

#include <stdbool.h>
#include <stddef.h>
#include <stdint.h>
#include <sys/types.h>

/* Bytes as text: two hex digits each, white space between them. What a file whose name ends in ".hex" holds. */
struct hex {
    int high;      /* the first digit of a byte, or -1 */
    unsigned line; /* from 0 */
    bool bad;      /* there was something that is neither digit nor white space, or a digit alone */
};
bool is_hex(const char *name);

#define NO_HEX "%s: line %u has what is no byte of two hex digits"

/* Turns text into bytes, in place, up to what is bad; gives how many. */
size_t from_hex(struct hex *hex, uint8_t *bytes, size_t len);

/* Reads the front of a file, at most `room` bytes, and no more if it has more. Gives 0, or an exit status with the error said, of
 * the file as `name`. */
int load(const char *path, const char *name, uint8_t *bytes, size_t room, size_t *len);

/* Reads or writes a part of a regular file. Each gives -1 with errno set; read_at as many bytes as there are, up to `room`. */
ssize_t read_at(int fd, uint8_t *bytes, size_t room, off_t at);
int write_at(int fd, const uint8_t *bytes, size_t len, off_t at);

/* The folder that a file is in, opened, and synced; -1 with errno set. */
int folder_of(const char *path);
int sync_folder(const char *path);

/* Replaces a file, or makes it: the bytes are written beside it, synced, and renamed. Either it has all of them, or it is as it
 * was. Gives 0, or an exit status with the error said, of the file as `name`. Which of the two it is
 * goes to `replaced`, unless that is null: a file that is replaced, in a folder that cannot be synced, is an error too. */
int replace(const char *path, const char *name, const uint8_t *bytes, size_t len, bool *replaced);

#endif
