/* A node's disk: a snapshot of its segments, and a log of the messages that they took after it.
 *
 * The file `snapshot` (a number is a field's bytes): VSNP, generation 8, number of sections 4; each section: group 1,
 * the pieces of a segment's snapshot, each after its length 4, then a length 0; checksum 4 of all before. The file
 * `log.GENERATION` is a list of batches, one for each sync: VBAT, number 8 (from 1), length 4, checksum 4 of the body,
 * checksum 4 of these fields; the body has for each message: group 1, length 4, checksum 4, bytes. */
#ifndef LOG_H
#define LOG_H

#include "common.h"

struct log {
    char *folder;
    int lock, fd;
    uint64_t generation; /* of the present snapshot; 0 before the first */
    uint64_t batch;      /* the number of the last batch */
    uint64_t length;     /* of the written part of the log file */
    struct buffer body;  /* messages that aren't written yet */
    int saving;          /* the file of the snapshot that is being written */
    uint32_t sum;        /* of what was written to it */
};

typedef void log_section(void *context, uint8_t group, const uint8_t *bytes, size_t length);

/* Opens a node's folder and locks it. Ends the program if another process holds the lock. */
void log_open(struct log *log, const char *folder);

/* Reads the snapshot and calls `take` with each section. Returns false if there is no snapshot. Ends the program with
 * a message, and changes nothing, if the file is spoilt. */
bool log_read_snapshot(struct log *log, log_section *take, void *context);

/* Reads the log of the snapshot's generation and calls `take` with each message in order. Cuts off a last batch that
 * is torn. Ends the program with a message, and changes nothing, if more is spoilt. */
void log_read(struct log *log, log_section *take, void *context);

/* Appends a message to a body, which the next sync writes. Ends the program if memory runs out. */
void log_add(struct buffer *body, uint8_t group, const uint8_t *bytes, size_t length);

/* Writes and syncs the appended messages. Ends the program if it can't, before any answer to them is sent. */
void log_sync(struct log *log);

/* Writes the appended messages without a sync: for a test's planted fault. */
void log_write(struct log *log);

/* Begins a new snapshot of `count` sections. The old one is replaced once the new one is whole. */
void log_begin_snapshot(struct log *log, uint32_t count);

/* Begins the section of a group, adds a piece to it, and ends it. */
void log_begin_section(struct log *log, uint8_t group);
void log_add_piece(struct log *log, const uint8_t *bytes, size_t length);
void log_end_section(struct log *log);

/* Syncs the new snapshot, and begins a new log with the messages of `first`. Drops the appended messages that aren't
 * written yet: the snapshot has them. */
void log_end_snapshot(struct log *log, const struct buffer *first);

/* Closes the files. */
void log_close(struct log *log);

#endif
