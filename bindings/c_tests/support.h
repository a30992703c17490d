/* What the C tests share: bytes that own their memory, lists of messages, random numbers, and checks that end the
 * test. */
#ifndef SUPPORT_H
#define SUPPORT_H

#include "volume.h"

#include <stdio.h>
#include <stdlib.h>
#include <string.h>

/* The kinds of messages, as docs/WIRE.md numbers them. */
enum kind {
    VIEW = 1,
    STEP_TO,
    FENCE,
    REPORT,
    INSTALL,
    WRITE,
    GOSSIP,
    ACK,
    COPY_ASK,
    COPY_REPORT,
    PAGE_ASK,
    PAGE,
    KINDS
};

/* The bytes of a block. */
enum { BLOCK = 512 };

/* Ends the test where a condition doesn't hold. */
#define WANT(condition) \
    do { \
        if (!(condition)) \
            fail(__FILE__, __LINE__, #condition); \
    } while (0)

/* Ends the test where a call doesn't return a number. */
#define GIVES(number, call) want_status((call), (number), __FILE__, __LINE__, #call)
#define DO(call) GIVES(VOLUME_OK, call)

struct bytes {
    uint8_t *at;
    size_t length;
};

struct messages {
    struct bytes *at;
    size_t count, room;
};

void fail(const char *file, int line, const char *condition);
void want_status(uint8_t status, uint8_t wanted, const char *file, int line, const char *call);

/* realloc that ends the test where there is no memory. */
void *memory(void *old, size_t size);

struct bytes bytes_of(const uint8_t *at, size_t length);
void free_bytes(struct bytes *bytes);
bool are_same(const struct bytes *left, const struct bytes *right);
void append(struct bytes *bytes, const void *at, size_t length);
struct bytes read_file(const char *name);

void add_message(struct messages *list, const uint8_t *at, size_t length);
void free_messages(struct messages *list);

/* Appends a message behind its length, as docs/WIRE.md lays a frame out. */
void append_framed(struct bytes *frame, const struct bytes *message);

/* The number of four bytes, the first one the greatest. */
uint32_t number_at(const uint8_t *at);

/* The next of a sequence of random numbers, below a bound. The state isn't 0. */
uint64_t random_below(uint64_t *state, uint64_t bound);

/* The state of a sequence that a seed begins. */
uint64_t seeded(uint64_t seed);

/* Takes the next message that an actor made; returns whether there was one. */
bool next_message(struct volume_handle *actor, struct bytes *out);

/* What is left of a snapshot, read into a buffer of so many bytes, again and again. */
struct bytes snapshot_bytes(struct volume_handle *snapshot, size_t room);

struct bytes segment_snapshot(struct volume_handle *segment);
struct bytes authority_snapshot(struct volume_handle *authority);

/* Whether a handle is all zeros. */
bool is_empty(const struct volume_handle *handle);

#endif
