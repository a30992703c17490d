/* Files in a volume: at most 16. Each has one block for its name and sizes; its bytes are in blocks of all groups.
 *
 * File N has the 2^28 blocks from N * 2^28 on in each group. The first one of group 0 is its head (a number is a
 * field's bytes): VFL1, used 1, groups 1, length of the name 2, size 8, reach 8 (how many blocks were ever written),
 * name. Block I of the file is block 1 + I / groups, counted from N * 2^28, of group I % groups. A write to a block
 * and the new size are one transaction. */
#ifndef STORE_H
#define STORE_H

#include "client.h"

enum { FILES = 16, NAME_MOST = 400 };

struct store;

/* Takes a cluster's volume over and reads the heads of its files. Returns NULL on failure, and writes the reason to
 * `fault`. */
struct store *store_open(const char *cluster, uint64_t timeout, char fault[FAULT_LINE]);

/* Returns the number of the file with this name, or -1. */
int store_find(const struct store *store, const char *name);

/* Makes an empty file. Returns `CLIENT_FULL` if all 16 numbers are in use, or the name is too long. */
enum client_result store_create(struct store *store, const char *name, int *file);

uint64_t store_size(const struct store *store, int file);

/* Reads bytes of a file. Sets `got` to their number, which is less than `length` at the end of the file. */
enum client_result store_read(struct store *store, int file, uint64_t offset, void *out, size_t length, size_t *got);

/* Writes bytes in one or more transactions. The bytes between the old end and the offset become zeros. */
enum client_result store_write(struct store *store, int file, uint64_t offset, const void *bytes, size_t length);

/* Makes a file shorter. Does nothing if it isn't longer than `size`. */
enum client_result store_truncate(struct store *store, int file, uint64_t size);

/* Returns whether a segment is too full for a new transaction of SQLite's: less than a quarter is left. This quarter
 * is for transactions under way and for rollbacks. */
bool store_is_full(const struct store *store);

/* Removes a file. */
enum client_result store_remove(struct store *store, int file);

/* Waits until all writes are durable. */
enum client_result store_sync(struct store *store);

void store_close(struct store *store);

#endif
