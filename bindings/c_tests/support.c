#include "support.h"

void fail(const char *file, int line, const char *condition) {
    fprintf(stderr, "%s:%d: not so: %s\n", file, line, condition);
    exit(1);
}

void want_status(uint8_t status, uint8_t wanted, const char *file, int line, const char *call) {
    uint8_t name[40];
    size_t length = 0;
    if (status == wanted)
        return;
    if (volume_fault_name(status, name, sizeof name, &length) != VOLUME_OK)
        length = 0;
    fprintf(stderr, "%s:%d: %s: %d %.*s", file, line, call, status, (int)length, (char *)name);
    fprintf(stderr, ", where %d is wanted\n", wanted);
    exit(1);
}

void *memory(void *old, size_t size) {
    void *made = realloc(old, size > 0 ? size : 1);
    WANT(made != NULL);
    return made;
}

struct bytes bytes_of(const uint8_t *at, size_t length) {
    struct bytes made = {memory(NULL, length), length};
    memcpy(made.at, at, length);
    return made;
}

void free_bytes(struct bytes *bytes) {
    free(bytes->at);
    *bytes = (struct bytes){0};
}

bool are_same(const struct bytes *left, const struct bytes *right) {
    return left->length == right->length && memcmp(left->at, right->at, left->length) == 0;
}

void append(struct bytes *bytes, const void *at, size_t length) {
    if (length == 0)
        return;
    bytes->at = memory(bytes->at, bytes->length + length);
    memcpy(bytes->at + bytes->length, at, length);
    bytes->length += length;
}

struct bytes read_file(const char *name) {
    enum { MOST = 1 << 16 };
    FILE *file = fopen(name, "rb");
    struct bytes made = {memory(NULL, MOST), 0};
    WANT(file != NULL);
    made.length = fread(made.at, 1, MOST, file);
    WANT(made.length > 0 && made.length < MOST);
    fclose(file);
    return made;
}

void add_message(struct messages *list, const uint8_t *at, size_t length) {
    if (list->count == list->room) {
        list->room = 2 * list->room + 8;
        list->at = memory(list->at, list->room * sizeof *list->at);
    }
    list->at[list->count++] = bytes_of(at, length);
}

void free_messages(struct messages *list) {
    for (size_t i = 0; i < list->count; i++)
        free_bytes(&list->at[i]);
    free(list->at);
    *list = (struct messages){0};
}

void append_framed(struct bytes *frame, const struct bytes *message) {
    const uint32_t n = (uint32_t)message->length;
    const uint8_t length[4] = {(uint8_t)(n >> 24), (uint8_t)(n >> 16), (uint8_t)(n >> 8), (uint8_t)n};
    append(frame, length, sizeof length);
    append(frame, message->at, message->length);
}

uint32_t number_at(const uint8_t *at) {
    return (uint32_t)at[0] << 24 | (uint32_t)at[1] << 16 | (uint32_t)at[2] << 8 | at[3];
}

uint64_t random_below(uint64_t *state, uint64_t bound) {
    *state ^= *state << 13;
    *state ^= *state >> 7;
    *state ^= *state << 17;
    return (*state >> 11) % bound;
}

uint64_t seeded(uint64_t seed) {
    uint64_t state = seed * 2654435769u + 88172645463325252u;
    for (int i = 0; i < 8; i++)
        (void)random_below(&state, 2);
    return state;
}

bool next_message(struct volume_handle *actor, struct bytes *out) {
    uint8_t none[1];
    size_t needed = 0;
    uint8_t status = volume_next_message(actor, none, 0, &needed);
    if (status == VOLUME_NO_MORE)
        return false;
    GIVES(VOLUME_TOO_SMALL, status);
    *out = (struct bytes){memory(NULL, needed), needed};
    DO(volume_next_message(actor, out->at, needed, &needed));
    WANT(needed == out->length);
    return true;
}

struct bytes snapshot_bytes(struct volume_handle *snapshot, size_t room) {
    struct bytes made = {0};
    uint8_t *piece = memory(NULL, room);
    size_t written = 0;
    uint8_t status;
    while ((status = volume_snapshot_read(snapshot, piece, room, &written)) == VOLUME_OK) {
        WANT(written > 0 && written <= room);
        append(&made, piece, written);
    }
    GIVES(VOLUME_NO_MORE, status);
    WANT(written == 0);
    free(piece);
    return made;
}

struct bytes segment_snapshot(struct volume_handle *segment) {
    struct volume_handle snapshot = {0};
    DO(volume_segment_snapshot(segment, &snapshot));
    struct bytes made = snapshot_bytes(&snapshot, 4096);
    volume_close(&snapshot);
    return made;
}

struct bytes authority_snapshot(struct volume_handle *authority) {
    struct bytes made = {memory(NULL, 64), 64};
    DO(volume_authority_snapshot(authority, made.at, made.length, &made.length));
    return made;
}

bool is_empty(const struct volume_handle *handle) {
    return handle->at == NULL && !handle->live;
}
