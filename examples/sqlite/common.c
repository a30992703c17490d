#include "common.h"

#include <errno.h>
#include <fcntl.h>
#include <stdarg.h>
#include <stdio.h>
#include <stdlib.h>
#include <string.h>
#include <sys/stat.h>
#include <time.h>
#include <unistd.h>

enum { KEPT_ROOM = 1 << 20, READ_AT_ONCE = 1 << 16 };

const char *program_name = "volume";

bool buffer_reserve(struct buffer *buffer, size_t more) {
    if (more > SIZE_MAX / 4 - buffer->length)
        return false;
    size_t wanted = buffer->length + more;
    if (wanted <= buffer->room)
        return true;
    size_t room = buffer->room ? buffer->room : 64;
    while (room < wanted)
        room *= 2;
    uint8_t *made = realloc(buffer->at, room);
    if (!made)
        return false;
    buffer->at = made;
    buffer->room = room;
    return true;
}

bool buffer_add(struct buffer *buffer, const void *bytes, size_t length) {
    if (!buffer_reserve(buffer, length))
        return false;
    if (length > 0)
        memcpy(buffer->at + buffer->length, bytes, length);
    buffer->length += length;
    return true;
}

void buffer_drop(struct buffer *buffer, size_t length) {
    buffer->length -= length;
    if (buffer->length > 0)
        memmove(buffer->at, buffer->at + length, buffer->length);
    else if (buffer->room > KEPT_ROOM)
        buffer_free(buffer);
}

void buffer_free(struct buffer *buffer) {
    free(buffer->at);
    *buffer = (struct buffer){0};
}

uint16_t get16(const uint8_t *at) { return (uint16_t)(at[0] << 8 | at[1]); }

uint32_t get32(const uint8_t *at) {
    return (uint32_t)at[0] << 24 | (uint32_t)at[1] << 16 | (uint32_t)at[2] << 8 | at[3];
}

uint64_t get64(const uint8_t *at) { return (uint64_t)get32(at) << 32 | get32(at + 4); }

void put16(uint8_t *at, uint16_t value) {
    at[0] = (uint8_t)(value >> 8);
    at[1] = (uint8_t)value;
}

void put32(uint8_t *at, uint32_t value) {
    put16(at, (uint16_t)(value >> 16));
    put16(at + 2, (uint16_t)value);
}

void put64(uint8_t *at, uint64_t value) {
    put32(at, (uint32_t)(value >> 32));
    put32(at + 4, (uint32_t)value);
}

/* Fills the tables of the checksum: table K has the sum of each byte followed by K zero bytes. */
static void fill_tables(uint32_t tables[8][256]) {
    for (uint32_t i = 0; i < 256; i++) {
        uint32_t value = i;
        for (int bit = 0; bit < 8; bit++)
            value = value >> 1 ^ (value & 1 ? 0xedb88320u : 0);
        tables[0][i] = value;
    }
    for (uint32_t i = 0; i < 256; i++)
        for (int k = 1; k < 8; k++)
            tables[k][i] = tables[k - 1][i] >> 8 ^ tables[0][tables[k - 1][i] & 255];
}

/* Takes eight bytes a step: a node sums each message twice, which took a quarter of a recovery's time byte by byte. */
uint32_t checksum_more(uint32_t before, const void *bytes, size_t length) {
    static uint32_t tables[8][256];
    if (tables[0][1] == 0)
        fill_tables(tables);
    uint32_t sum = ~before;
    const uint8_t *at = bytes;
    for (; length >= 8; length -= 8, at += 8) {
        uint32_t low = sum ^ ((uint32_t)at[3] << 24 | (uint32_t)at[2] << 16 | (uint32_t)at[1] << 8 | at[0]);
        sum = tables[7][low & 255] ^ tables[6][low >> 8 & 255] ^ tables[5][low >> 16 & 255] ^ tables[4][low >> 24]
            ^ tables[3][at[4]] ^ tables[2][at[5]] ^ tables[1][at[6]] ^ tables[0][at[7]];
    }
    for (; length > 0; length--, at++)
        sum = sum >> 8 ^ tables[0][(sum ^ *at) & 255];
    return ~sum;
}

uint32_t checksum(const void *bytes, size_t length) { return checksum_more(0, bytes, length); }

uint64_t now_ms(void) {
    struct timespec time;
    clock_gettime(CLOCK_MONOTONIC, &time);
    return (uint64_t)time.tv_sec * 1000 + (uint64_t)time.tv_nsec / 1000000;
}

static void say_all(const char *format, va_list given) {
    char line[500];
    vsnprintf(line, sizeof line, format, given);
    fprintf(stderr, "%s: %s\n", program_name, line);
}

void say(const char *format, ...) {
    va_list given;
    va_start(given, format);
    say_all(format, given);
    va_end(given);
}

void fail(const char *format, ...) {
    va_list given;
    va_start(given, format);
    say_all(format, given);
    va_end(given);
    exit(1);
}

char *path_in(const char *folder, const char *name) {
    if (name[0] == '/')
        return strdup(name);
    size_t length = strlen(folder) + strlen(name) + 2;
    char *made = malloc(length);
    if (made)
        snprintf(made, length, "%s/%s", folder, name);
    return made;
}

bool file_read(const char *path, struct buffer *out) {
    int fd = open(path, O_RDONLY | O_CLOEXEC);
    if (fd < 0)
        return false;
    for (;;) {
        if (!buffer_reserve(out, READ_AT_ONCE)) {
            close(fd);
            errno = ENOMEM;
            return false;
        }
        ssize_t got = read(fd, out->at + out->length, READ_AT_ONCE);
        if (got < 0 && errno == EINTR)
            continue;
        if (got <= 0) {
            int fault = errno;
            close(fd);
            errno = fault;
            return got == 0;
        }
        out->length += (size_t)got;
    }
}

bool write_all(int fd, const void *bytes, size_t length) {
    for (const uint8_t *at = bytes; length > 0;) {
        ssize_t put = write(fd, at, length);
        if (put < 0 && errno == EINTR)
            continue;
        if (put < 0)
            return false;
        at += put;
        length -= (size_t)put;
    }
    return true;
}

bool folder_sync(const char *folder) {
    int fd = open(folder, O_RDONLY | O_DIRECTORY | O_CLOEXEC);
    if (fd < 0)
        return false;
    bool good = fsync(fd) == 0;
    return (close(fd) == 0) & good;
}

static bool file_write_synced(const char *path, const void *bytes, size_t length) {
    int fd = open(path, O_WRONLY | O_CREAT | O_TRUNC | O_CLOEXEC, 0644);
    if (fd < 0)
        return false;
    bool good = write_all(fd, bytes, length) && fsync(fd) == 0;
    return (close(fd) == 0) & good;
}

bool file_replace(const char *folder, const char *name, const void *bytes, size_t length) {
    char *path = path_in(folder, name);
    char *fresh = path ? malloc(strlen(path) + 5) : NULL;
    bool good = false;
    if (fresh) {
        sprintf(fresh, "%s.new", path);
        good = file_write_synced(fresh, bytes, length) && rename(fresh, path) == 0 && folder_sync(folder);
    }
    free(fresh);
    free(path);
    return good;
}
