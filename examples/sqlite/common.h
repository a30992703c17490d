/* What all programs of this folder share: growing buffers, numbers in bytes, checksums, files, time. */
#ifndef COMMON_H
#define COMMON_H

#include <stdbool.h>
#include <stddef.h>
#include <stdint.h>

/* A growing byte array. All zeros is an empty one. */
struct buffer {
    uint8_t *at;
    size_t length, room;
};

/* Appends bytes. Returns false, and changes nothing, if memory runs out. */
bool buffer_add(struct buffer *buffer, const void *bytes, size_t length);

/* Makes room to append `more` bytes. Returns false if memory runs out. */
bool buffer_reserve(struct buffer *buffer, size_t more);

/* Drops the first bytes, and frees the array if it is large and becomes empty. */
void buffer_drop(struct buffer *buffer, size_t length);

/* Frees what the buffer holds, and leaves it empty. */
void buffer_free(struct buffer *buffer);

uint16_t get16(const uint8_t *at);
uint32_t get32(const uint8_t *at);
uint64_t get64(const uint8_t *at);
void put16(uint8_t *at, uint16_t value);
void put32(uint8_t *at, uint32_t value);
void put64(uint8_t *at, uint64_t value);

/* Returns the CRC-32 of bytes. */
uint32_t checksum(const void *bytes, size_t length);

/* Returns the CRC-32 of bytes whose first part has the CRC-32 `before` and whose other part is here. */
uint32_t checksum_more(uint32_t before, const void *bytes, size_t length);

/* Returns the milliseconds of a monotonic clock. */
uint64_t now_ms(void);

/* Writes the program's name and a line to standard error, and exits with status 1. */
_Noreturn void fail(const char *format, ...) __attribute__((format(printf, 1, 2)));

/* Writes the program's name and a line to standard error. */
void say(const char *format, ...) __attribute__((format(printf, 1, 2)));

/* The name that `fail` and `say` write. */
extern const char *program_name;

/* Returns the path of a file in a folder, or the name itself if it is absolute; NULL if memory runs out. */
char *path_in(const char *folder, const char *name);

/* Reads a whole file. Returns false and sets errno if it can't. */
bool file_read(const char *path, struct buffer *out);

/* Writes all bytes to a file at its offset. Returns false and sets errno if it can't. */
bool write_all(int fd, const void *bytes, size_t length);

/* Replaces a file atomically: after a crash it has its old bytes or the new ones. Returns false and sets errno if it
 * can't. */
bool file_replace(const char *folder, const char *name, const void *bytes, size_t length);

/* Syncs a folder, so that names in it survive a crash. */
bool folder_sync(const char *folder);

#endif
