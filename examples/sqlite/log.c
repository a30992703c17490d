#include "log.h"
#include "testing.h"

#include <errno.h>
#include <fcntl.h>
#include <stdio.h>
#include <stdlib.h>
#include <string.h>
#include <sys/file.h>
#include <unistd.h>

enum {
    SNAPSHOT_HEAD = 16,
    PIECE_HEAD = 4,
    SUM = 4,
    BATCH_HEAD = 24,
    ENTRY_HEAD = 9,
};

static const uint8_t SNAPSHOT_MARK[4] = "VSNP", BATCH_MARK[4] = "VBAT";

static char *log_path(const struct log *log, uint64_t generation) {
    char name[40];
    snprintf(name, sizeof name, "log.%llu", (unsigned long long)generation);
    char *path = path_in(log->folder, name);
    if (!path)
        fail("out of memory");
    return path;
}

void log_open(struct log *log, const char *folder) {
    *log = (struct log){.fd = -1, .folder = strdup(folder)};
    char *path = path_in(folder, "lock");
    if (!path || !log->folder)
        fail("out of memory");
    log->lock = open(path, O_RDWR | O_CREAT | O_CLOEXEC, 0644);
    if (log->lock < 0)
        fail("%s: %s", path, strerror(errno));
    if (flock(log->lock, LOCK_EX | LOCK_NB) != 0)
        fail("%s: another process has this folder", folder);
    free(path);
}

/* Joins the pieces of a section in place. Returns the place after them, or 0 if they aren't whole. */
static size_t joined(uint8_t *at, size_t length, size_t place, size_t *own) {
    size_t first = place;
    *own = 0;
    while (length - place >= PIECE_HEAD) {
        size_t piece = get32(at + place);
        place += PIECE_HEAD;
        if (piece == 0)
            return place;
        if (length - place < piece)
            return 0;
        memmove(at + first + *own, at + place, piece);
        *own += piece;
        place += piece;
    }
    return 0;
}

/* Calls `take` with each section of a snapshot. Returns false if the bytes aren't a whole snapshot. */
static bool sections_of(uint8_t *at, size_t length, log_section *take, void *context) {
    uint32_t count = get32(at + 12);
    size_t place = SNAPSHOT_HEAD;
    for (uint32_t i = 0; i < count; i++) {
        size_t own, group = place;
        place = length - place < 1 ? 0 : joined(at, length, place + 1, &own);
        if (place == 0)
            return false;
        take(context, at[group], at + group + 1, own);
    }
    return place == length;
}

bool log_read_snapshot(struct log *log, log_section *take, void *context) {
    struct buffer bytes = {0};
    char *path = path_in(log->folder, "snapshot");
    if (!path)
        fail("out of memory");
    if (!file_read(path, &bytes)) {
        if (errno != ENOENT)
            fail("%s: %s", path, strerror(errno));
        free(path);
        buffer_free(&bytes);
        return false;
    }
    bool good = bytes.length >= SNAPSHOT_HEAD + SUM && memcmp(bytes.at, SNAPSHOT_MARK, 4) == 0
        && checksum(bytes.at, bytes.length - SUM) == get32(bytes.at + bytes.length - SUM);
    if (good) {
        log->generation = get64(bytes.at + 4);
        good = sections_of(bytes.at, bytes.length - SUM, take, context);
    }
    if (!good)
        fail("%s: it is spoilt: nothing was changed", path);
    free(path);
    buffer_free(&bytes);
    return true;
}

/* Returns whether the bytes begin with a good head of the batch with this number. */
static bool head_is_good(const uint8_t *at, size_t left, uint64_t number) {
    return left >= BATCH_HEAD && memcmp(at, BATCH_MARK, 4) == 0 && get64(at + 4) == number
        && checksum(at, BATCH_HEAD - SUM) == get32(at + BATCH_HEAD - SUM);
}

/* Returns whether the bytes after the last good batch can be the effect of a crash: one batch that isn't whole. None
 * follows it, since a batch is written only after the one before it was synced. */
static bool is_torn_tail(const uint8_t *at, size_t left, uint64_t number) {
    if (head_is_good(at, left, number))
        return get32(at + 12) >= left - BATCH_HEAD;
    for (size_t place = 1; place + BATCH_HEAD <= left; place++)
        if (at[place] == 'V' && memcmp(at + place, BATCH_MARK, 4) == 0)
            for (uint64_t later = number + 1; later <= number + 2; later++)
                if (head_is_good(at + place, left - place, later))
                    return false;
    return true;
}

/* Calls `take`, if it isn't NULL, with each message of a batch. Returns false if they are spoilt. */
static bool messages_of(const uint8_t *at, size_t length, log_section *take, void *context) {
    for (size_t place = 0; place < length;) {
        if (length - place < ENTRY_HEAD || length - place - ENTRY_HEAD < get32(at + place + 1))
            return false;
        size_t own = get32(at + place + 1);
        const uint8_t *bytes = at + place + ENTRY_HEAD;
        if (checksum(bytes, own) != get32(at + place + 5))
            return false;
        if (take)
            take(context, at[place], bytes, own);
        place += ENTRY_HEAD + own;
    }
    return true;
}

/* Returns how many bytes of a log are whole batches, and counts the batches in `log->batch`. Ends the program if the
 * rest isn't a torn tail. */
static size_t whole_batches(struct log *log, const struct buffer *bytes, const char *path) {
    size_t place = 0;
    for (;;) {
        const uint8_t *at = bytes->at + place;
        size_t left = bytes->length - place;
        bool good = head_is_good(at, left, log->batch + 1) && left - BATCH_HEAD >= get32(at + 12);
        if (good)
            good = checksum(at + BATCH_HEAD, get32(at + 12)) == get32(at + 16)
                && messages_of(at + BATCH_HEAD, get32(at + 12), NULL, NULL);
        if (!good) {
            if (left > 0 && !is_torn_tail(at, left, log->batch + 1))
                fail("%s: batch %llu is spoilt: nothing was changed", path, (unsigned long long)log->batch + 1);
            return place;
        }
        log->batch++;
        place += BATCH_HEAD + get32(at + 12);
    }
}

void log_read(struct log *log, log_section *take, void *context) {
    struct buffer bytes = {0};
    char *path = log_path(log, log->generation);
    if (!file_read(path, &bytes))
        fail("%s: %s", path, strerror(errno));
    size_t length = whole_batches(log, &bytes, path);
    for (size_t place = 0; place < length; place += BATCH_HEAD + get32(bytes.at + place + 12))
        (void)messages_of(bytes.at + place + BATCH_HEAD, get32(bytes.at + place + 12), take, context);
    log->fd = open(path, O_WRONLY | O_CLOEXEC);
    if (log->fd < 0)
        fail("%s: %s", path, strerror(errno));
    if (length < bytes.length) {
        say("%s: a torn tail of %zu bytes is dropped", path, bytes.length - length);
        if (ftruncate(log->fd, (off_t)length) != 0 || fsync(log->fd) != 0)
            fail("%s: %s", path, strerror(errno));
    }
    if (lseek(log->fd, (off_t)length, SEEK_SET) < 0)
        fail("%s: %s", path, strerror(errno));
    log->length = length;
    testing_synced(log->folder, log->generation, log->length);
    free(path);
    buffer_free(&bytes);
}

void log_add(struct buffer *body, uint8_t group, const uint8_t *bytes, size_t length) {
    uint8_t head[ENTRY_HEAD] = {group};
    put32(head + 1, (uint32_t)length);
    put32(head + 5, checksum(bytes, length));
    if (!buffer_reserve(body, ENTRY_HEAD + length))
        fail("out of memory");
    (void)buffer_add(body, head, ENTRY_HEAD);
    (void)buffer_add(body, bytes, length);
}

/* Appends one batch to the log file. */
static void write_batch(struct log *log, const struct buffer *body) {
    uint8_t head[BATCH_HEAD];
    if (body->length > UINT32_MAX)
        fail("a batch of %zu bytes", body->length);
    memcpy(head, BATCH_MARK, 4);
    put64(head + 4, log->batch + 1);
    put32(head + 12, (uint32_t)body->length);
    put32(head + 16, checksum(body->at, body->length));
    put32(head + 20, checksum(head, BATCH_HEAD - SUM));
    if (!write_all(log->fd, head, BATCH_HEAD) || !write_all(log->fd, body->at, body->length))
        fail("%s: the log can't be written: %s", log->folder, strerror(errno));
    log->batch++;
    log->length += BATCH_HEAD + body->length;
}

void log_write(struct log *log) {
    if (log->body.length == 0)
        return;
    write_batch(log, &log->body);
    buffer_drop(&log->body, log->body.length);
}

void log_sync(struct log *log) {
    if (log->body.length == 0)
        return;
    log_write(log);
    if (fdatasync(log->fd) != 0)
        fail("%s: the log can't be synced: %s", log->folder, strerror(errno));
    testing_synced(log->folder, log->generation, log->length);
}

/* Makes the log of the next generation. The old log counts until the new snapshot is written. Returns the old file. */
static int new_log(struct log *log, uint64_t generation, const struct buffer *first) {
    char *path = log_path(log, generation);
    int old = log->fd;
    log->fd = open(path, O_WRONLY | O_CREAT | O_TRUNC | O_CLOEXEC, 0644);
    if (log->fd < 0)
        fail("%s: %s", path, strerror(errno));
    log->batch = log->length = 0;
    if (first->length > 0)
        write_batch(log, first);
    if (fsync(log->fd) != 0)
        fail("%s: %s", path, strerror(errno));
    free(path);
    return old;
}

/* Writes bytes of the snapshot. */
static void put_saved(struct log *log, const void *bytes, size_t length) {
    log->sum = checksum_more(log->sum, bytes, length);
    if (!write_all(log->saving, bytes, length))
        fail("%s: the snapshot can't be written: %s", log->folder, strerror(errno));
}

void log_begin_snapshot(struct log *log, uint32_t count) {
    uint8_t head[SNAPSHOT_HEAD];
    char *path = path_in(log->folder, "snapshot.new");
    if (!path)
        fail("out of memory");
    log->saving = open(path, O_WRONLY | O_CREAT | O_TRUNC | O_CLOEXEC, 0644);
    if (log->saving < 0)
        fail("%s: %s", path, strerror(errno));
    free(path);
    log->sum = 0;
    memcpy(head, SNAPSHOT_MARK, 4);
    put64(head + 4, log->generation + 1);
    put32(head + 12, count);
    put_saved(log, head, sizeof head);
}

void log_begin_section(struct log *log, uint8_t group) { put_saved(log, &group, 1); }

void log_add_piece(struct log *log, const uint8_t *bytes, size_t length) {
    uint8_t head[PIECE_HEAD];
    put32(head, (uint32_t)length);
    put_saved(log, head, sizeof head);
    put_saved(log, bytes, length);
}

void log_end_section(struct log *log) { log_add_piece(log, (const uint8_t *)"", 0); }

/* Puts the snapshot that was written in the place of the old one. */
static void replace_snapshot(struct log *log) {
    char *fresh = path_in(log->folder, "snapshot.new"), *path = path_in(log->folder, "snapshot");
    if (!fresh || !path)
        fail("out of memory");
    bool good = fsync(log->saving) == 0;
    good = (close(log->saving) == 0) & good;
    if (!good || rename(fresh, path) != 0 || !folder_sync(log->folder))
        fail("%s: the snapshot can't be written: %s", log->folder, strerror(errno));
    free(fresh);
    free(path);
}

void log_end_snapshot(struct log *log, const struct buffer *first) {
    uint8_t sum[SUM];
    uint64_t generation = log->generation + 1;
    put32(sum, log->sum);
    put_saved(log, sum, sizeof sum);
    int old = new_log(log, generation, first);
    replace_snapshot(log);
    if (old >= 0) {
        char *path = log_path(log, log->generation);
        close(old);
        (void)unlink(path); /* a log that remains is never read: the snapshot has another generation */
        free(path);
    }
    log->generation = generation;
    log->body.length = 0;
    testing_synced(log->folder, log->generation, log->length);
}

void log_close(struct log *log) {
    if (log->fd >= 0)
        close(log->fd);
    close(log->lock);
    free(log->folder);
    buffer_free(&log->body);
}
