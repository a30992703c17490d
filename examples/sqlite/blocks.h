/* A cache of the blocks that a volume's writer has read or written, and the transaction that it is building. */
#ifndef BLOCKS_H
#define BLOCKS_H

#include "client.h"

enum { CHANGES = 32, CHANGES_A_BLOCK = 8, FETCHED = 64 };

struct cached {
    uint8_t group;
    uint32_t block;
    uint8_t bytes[BLOCK];
};

/* An empty cache is all zeros, except for `client`. */
struct blocks {
    struct client *client;
    struct cached **table; /* open addressing; `room` is a power of two */
    size_t count, room;
    struct volume_change changes[CHANGES];
    size_t change_count;
    enum client_result broken; /* the result of an issue that failed: the cache then has bytes that the log lacks */
};

/* Sets `out` to the bytes of a block. A `fresh` block was never written: it is all zeros and isn't read. */
enum client_result blocks_get(struct blocks *blocks, uint8_t group, uint32_t block, bool fresh, uint8_t **out);

/* Returns whether the cache has a block. */
bool blocks_has(const struct blocks *blocks, uint8_t group, uint32_t block);

/* Reads the blocks that the cache lacks, all at once. Ignores and overwrites the `out` fields. */
enum client_result blocks_fetch(struct blocks *blocks, struct wanted *wanted, size_t count);

/* Issues the transaction if it has no room for a block's changes and a file's sizes. */
enum client_result blocks_make_room(struct blocks *blocks);

/* Writes bytes to a block. Adds those that differ to the transaction, in changes of at most 64 bytes. */
enum client_result blocks_put(struct blocks *blocks, uint8_t group, uint32_t block, uint16_t offset,
                              const uint8_t *bytes, size_t length, bool fresh);

/* Writes at most 64 bytes to a block as one change. Replaces the transaction's last change of the same bytes. */
enum client_result blocks_put_whole(struct blocks *blocks, uint8_t group, uint32_t block, uint16_t offset,
                                    const uint8_t *bytes, uint8_t length);

/* Issues the transaction. */
enum client_result blocks_flush(struct blocks *blocks);

/* Issues the transaction and waits until everything issued is durable. */
enum client_result blocks_sync(struct blocks *blocks);

void blocks_free(struct blocks *blocks);

#endif
