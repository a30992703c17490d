#include "testing.h"

#ifdef VOLUME_TESTING

#include <fcntl.h>
#include <stdio.h>
#include <stdlib.h>
#include <string.h>
#include <unistd.h>

enum { LONGEST_DELAY = 40 };

/* A delayed frame. */
struct delayed {
    struct delayed *next;
    struct peer *peer;
    testing_append *append;
    uint64_t due;
    uint8_t head[FRAME_LENGTH + FRAME_HEAD];
    struct buffer body;
};

static uint64_t next_random(void) {
    static uint64_t state;
    if (state == 0) {
        const char *given = getenv("VOLUME_LOSS");
        state = 88172645463325252u + (given ? strtoull(given, NULL, 10) : 0) * 1000003u + (uint64_t)getpid();
    }
    state ^= state << 13;
    state ^= state >> 7;
    state ^= state << 17;
    return state;
}

static uint64_t per_mille(void) {
    const char *given = getenv("VOLUME_LOSS");
    const char *colon = given ? strchr(given, ':') : NULL;
    return colon ? strtoull(colon + 1, NULL, 10) : 0;
}

static void delay(struct peer *peer, const uint8_t *head, const void *body, size_t length, testing_append *append) {
    struct delayed *made = calloc(1, sizeof *made);
    if (!made || !buffer_add(&made->body, body, length)) {
        free(made);
        return;
    }
    made->peer = peer;
    made->append = append;
    made->due = now_ms() + 1 + next_random() % LONGEST_DELAY;
    memcpy(made->head, head, sizeof made->head);
    made->next = peer->net->delayed;
    peer->net->delayed = made;
}

bool testing_takes(struct peer *peer, const uint8_t *head, const void *body, size_t length, testing_append *append) {
    uint64_t each = per_mille(), fate = each ? next_random() % 1000 : 1000;
    if (fate < each)
        return true; /* lost */
    if (fate < 2 * each)
        append(peer, head, body, length); /* repeated: the caller sends it too */
    if (fate < 2 * each || fate >= 3 * each)
        return false;
    delay(peer, head, body, length, append);
    return true;
}

void testing_release(struct net *net) {
    uint64_t now = now_ms();
    for (struct delayed **at = &net->delayed; *at;) {
        struct delayed *one = *at;
        if (now < one->due) {
            at = &one->next;
            continue;
        }
        *at = one->next;
        if (one->peer->fd >= 0 && !one->peer->broken)
            one->append(one->peer, one->head, one->body.at, one->body.length);
        buffer_free(&one->body);
        free(one);
    }
}

void testing_forget(struct peer *peer) {
    for (struct delayed **at = &peer->net->delayed; *at;) {
        struct delayed *one = *at;
        if (one->peer != peer) {
            at = &one->next;
            continue;
        }
        *at = one->next;
        buffer_free(&one->body);
        free(one);
    }
}

bool testing_fault(const char *name) {
    const char *given = getenv("VOLUME_FAULT");
    return given && strcmp(given, name) == 0;
}

uint64_t testing_hold(void) {
    const char *given = getenv("VOLUME_HOLD");
    return given ? strtoull(given, NULL, 10) : 0;
}

uint64_t testing_room(void) {
    const char *given = getenv("VOLUME_ROOM");
    return given ? strtoull(given, NULL, 10) : SEGMENT_RECORDS;
}

void testing_synced(const char *folder, uint64_t generation, uint64_t length) {
    char line[60];
    char *path = path_in(folder, "synced");
    int fd = path ? open(path, O_WRONLY | O_CREAT | O_CLOEXEC, 0644) : -1;
    /* one write of a fixed length, so that a kill leaves the old line or the new one */
    int count = snprintf(line, sizeof line, "%020llu %020llu\n", (unsigned long long)generation,
                         (unsigned long long)length);
    if (fd < 0 || pwrite(fd, line, (size_t)count, 0) != count)
        fail("the test's note of what is synced can't be written");
    close(fd);
    free(path);
}

#endif
