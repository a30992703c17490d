#include "store.h"
#include "blocks.h"
#include "testing.h"

#include <stdlib.h>
#include <string.h>

enum {
    HEAD_USED = 4,
    HEAD_GROUPS = 5,
    HEAD_NAME_LENGTH = 6,
    HEAD_SIZES = 8,
    HEAD_NAME = 24,
    SIZES = 16,
    FILE_SHIFT = 28,
};

static const uint8_t MARK[4] = "VFL1";

struct store_file {
    bool used;
    uint32_t groups;
    uint64_t size, reach;
    uint64_t expected, window; /* the next block of a sequential reader, and how many blocks to read then */
    char name[NAME_MOST + 1];  /* a removed file keeps its name: a new file of this name takes its blocks again */
};

struct store {
    struct client *client;
    struct blocks blocks;
    struct store_file files[FILES];
};

static uint32_t head_block(int file) { return (uint32_t)file << FILE_SHIFT; }

/* Reads the head of a file. */
static enum client_result read_head(struct store *store, int number) {
    struct store_file *file = &store->files[number];
    uint8_t *head;
    enum client_result result = blocks_get(&store->blocks, 0, head_block(number), false, &head);
    if (result != CLIENT_OK || memcmp(head, MARK, sizeof MARK) != 0)
        return result;
    size_t length = get16(head + HEAD_NAME_LENGTH);
    if (length > NAME_MOST || head[HEAD_GROUPS] == 0)
        return CLIENT_FAULT;
    file->used = head[HEAD_USED] == 1;
    file->groups = head[HEAD_GROUPS];
    file->size = get64(head + HEAD_SIZES);
    file->reach = get64(head + HEAD_SIZES + 8);
    memcpy(file->name, head + HEAD_NAME, length);
    return CLIENT_OK;
}

struct store *store_open(const char *cluster, uint64_t timeout, char fault[FAULT_LINE]) {
    struct store *store = calloc(1, sizeof *store);
    struct client *client = store ? client_open(cluster, timeout, fault) : NULL;
    if (!client) {
        free(store);
        return NULL;
    }
    store->client = client;
    store->blocks.client = client;
    for (int file = 0; file < FILES; file++)
        if (read_head(store, file) != CLIENT_OK) {
            strcpy(fault, "the heads of the files can't be read");
            store_close(store);
            return NULL;
        }
    return store;
}

int store_find(const struct store *store, const char *name) {
    for (int file = 0; file < FILES; file++)
        if (store->files[file].used && strcmp(store->files[file].name, name) == 0)
            return file;
    return -1;
}

/* Returns a free number: one whose removed file had this name, or else the first; -1 if none is free. */
static int free_number(const struct store *store, const char *name) {
    int first = -1;
    for (int file = FILES - 1; file >= 0; file--) {
        if (store->files[file].used)
            continue;
        if (strcmp(store->files[file].name, name) == 0)
            return file;
        first = file;
    }
    return first;
}

/* Adds a file's sizes to the transaction. */
static enum client_result put_sizes(struct store *store, int number) {
    uint8_t sizes[SIZES];
    put64(sizes, store->files[number].size);
    put64(sizes + 8, store->files[number].reach);
    return blocks_put_whole(&store->blocks, 0, head_block(number), HEAD_SIZES, sizes, SIZES);
}

enum client_result store_create(struct store *store, const char *name, int *out) {
    int number = free_number(store, name);
    size_t length = strlen(name);
    uint8_t head[HEAD_NAME + NAME_MOST] = {0};
    if (number < 0 || length > NAME_MOST)
        return CLIENT_FULL;
    struct store_file *file = &store->files[number];
    uint32_t groups = client_groups(store->client);
    if (file->groups != 0 && file->groups != groups) /* round up to the same number of blocks in each group */
        file->reach = (file->reach + file->groups - 1) / file->groups * groups;
    file->used = true;
    file->groups = groups;
    file->size = 0;
    memcpy(file->name, name, length + 1);
    memcpy(head, MARK, sizeof MARK);
    head[HEAD_USED] = 1;
    head[HEAD_GROUPS] = (uint8_t)groups;
    put16(head + HEAD_NAME_LENGTH, (uint16_t)length);
    put64(head + HEAD_SIZES + 8, file->reach);
    memcpy(head + HEAD_NAME, name, length);
    *out = number;
    enum client_result result = blocks_make_room(&store->blocks);
    return result != CLIENT_OK ? result
                               : blocks_put(&store->blocks, 0, head_block(number), 0, head, HEAD_NAME + length, false);
}

uint64_t store_size(const struct store *store, int file) { return store->files[file].size; }

/* Returns the group and the block in it that a file's block is. */
static struct wanted place_of_block(const struct store *store, int number, uint64_t index) {
    uint32_t groups = store->files[number].groups;
    return (struct wanted){(uint8_t)(index % groups), head_block(number) + 1 + (uint32_t)(index / groups), NULL};
}

/* Reads a block, and the following ones too if the file is read sequentially, in one round trip. This makes it a fifth
 * faster to open a database and scan its 100,000 rows. */
static enum client_result read_ahead(struct store *store, int number, uint64_t index) {
    struct store_file *file = &store->files[number];
    struct wanted wanted[FETCHED];
    size_t count = 0;
    file->window = index == file->expected && file->window > 0 ? file->window * 2 : 1;
    if (file->window > FETCHED)
        file->window = FETCHED;
    while (count < file->window && index + count < file->reach) {
        wanted[count] = place_of_block(store, number, index + count);
        count++;
    }
    file->expected = index + count;
    return blocks_fetch(&store->blocks, wanted, count);
}

static enum client_result get_block(struct store *store, int number, uint64_t index, uint8_t **out) {
    struct wanted place = place_of_block(store, number, index);
    bool fresh = index >= store->files[number].reach;
    enum client_result result = CLIENT_OK;
    if (!fresh && !blocks_has(&store->blocks, place.group, place.block))
        result = read_ahead(store, number, index);
    return result != CLIENT_OK ? result : blocks_get(&store->blocks, place.group, place.block, fresh, out);
}

enum client_result store_read(struct store *store, int file, uint64_t offset, void *out, size_t length, size_t *got) {
    uint64_t size = store->files[file].size;
    uint64_t left = offset < size ? size - offset : 0;
    *got = left < length ? (size_t)left : length;
    for (size_t done = 0; done < *got;) {
        size_t within = (offset + done) % BLOCK, part = BLOCK - within;
        uint8_t *block;
        enum client_result result = get_block(store, file, (offset + done) / BLOCK, &block);
        if (result != CLIENT_OK)
            return result;
        if (part > *got - done)
            part = *got - done;
        memcpy((uint8_t *)out + done, block + within, part);
        done += part;
    }
    return CLIENT_OK;
}

/* Writes bytes of one block and the file's new sizes in one transaction. */
static enum client_result write_part(struct store *store, int number, uint64_t offset, const uint8_t *bytes,
                                     size_t length) {
    struct store_file *file = &store->files[number];
    uint64_t index = offset / BLOCK;
    if (index / file->groups >= (1u << FILE_SHIFT) - 1)
        return CLIENT_FULL;
    struct wanted place = place_of_block(store, number, index);
    uint8_t *old;
    enum client_result result = get_block(store, number, index, &old);
    if (result == CLIENT_OK)
        result = blocks_make_room(&store->blocks);
    if (result == CLIENT_OK)
        result = blocks_put(&store->blocks, place.group, place.block, (uint16_t)(offset % BLOCK), bytes, length,
                            false);
    if (result != CLIENT_OK || (offset + length <= file->size && index < file->reach))
        return result;
    if (file->size < offset + length)
        file->size = offset + length;
    if (file->reach <= index)
        file->reach = index + 1;
    return put_sizes(store, number);
}

static enum client_result write_parts(struct store *store, int file, uint64_t offset, const uint8_t *bytes,
                                      uint64_t length) {
    static const uint8_t zeros[BLOCK];
    for (uint64_t done = 0; done < length;) {
        uint64_t part = BLOCK - (offset + done) % BLOCK;
        if (part > length - done)
            part = length - done;
        enum client_result result = write_part(store, file, offset + done, bytes ? bytes + done : zeros, (size_t)part);
        if (result != CLIENT_OK)
            return result;
        done += part;
    }
    return CLIENT_OK;
}

enum client_result store_write(struct store *store, int file, uint64_t offset, const void *bytes, size_t length) {
    uint64_t size = store->files[file].size;
    enum client_result result = CLIENT_OK;
    if (offset > size) /* bytes from before a truncation must not reappear */
        result = write_parts(store, file, size, NULL, offset - size);
    return result != CLIENT_OK ? result : write_parts(store, file, offset, bytes, length);
}

enum client_result store_truncate(struct store *store, int file, uint64_t size) {
    if (store->files[file].size <= size)
        return CLIENT_OK;
    enum client_result result = blocks_make_room(&store->blocks);
    store->files[file].size = size;
    return result != CLIENT_OK ? result : put_sizes(store, file);
}

bool store_is_full(const struct store *store) { return client_room(store->client) < testing_room() / 4; }

enum client_result store_remove(struct store *store, int file) {
    static const uint8_t unused = 0;
    enum client_result result = store_truncate(store, file, 0);
    if (result == CLIENT_OK)
        result = blocks_make_room(&store->blocks);
    store->files[file].used = false;
    return result != CLIENT_OK ? result
                               : blocks_put(&store->blocks, 0, head_block(file), HEAD_USED, &unused, 1, false);
}

enum client_result store_sync(struct store *store) { return blocks_sync(&store->blocks); }

void store_close(struct store *store) {
    (void)blocks_flush(&store->blocks);
    client_close(store->client);
    blocks_free(&store->blocks);
    free(store);
}
