/* The authority of the volume: it assigns volume epochs, advances groups and lets new groups join.
 *
 *     volume_authority --cluster FILE --dir FOLDER [--new]
 *
 * It writes its state to the disk before it answers. The file `authority` (a number is a field's bytes): VAUT; length
 * 4 and bytes of the snapshot; for each group, length 4 and bytes of its last StepTo; checksum 4 of all before. Nodes
 * ask for the StepTos. */
#include "cluster.h"
#include "net.h"

#include <errno.h>
#include <fcntl.h>
#include <signal.h>
#include <stdio.h>
#include <stdlib.h>
#include <string.h>
#include <sys/file.h>
#include <unistd.h>

enum { TURN = 500, SUM = 4, SNAPSHOT_ROOM = 64 };

static const uint8_t MARK[4] = "VAUT";

struct authority {
    struct cluster cluster;
    struct volume_handle plan, handle;
    struct net net;
    struct buffer steps[GROUPS], message;
    const char *folder;
};

static volatile sig_atomic_t ended;

static void end(int number) {
    (void)number;
    ended = 1;
}

static void add_item(struct buffer *out, const void *bytes, size_t length) {
    uint8_t head[4];
    put32(head, (uint32_t)length);
    if (!buffer_add(out, head, sizeof head) || !buffer_add(out, bytes, length))
        fail("out of memory");
}

static size_t snapshot_of(struct authority *authority, uint8_t out[SNAPSHOT_ROOM]) {
    size_t length = 0;
    uint8_t status = volume_authority_snapshot(&authority->handle, out, SNAPSHOT_ROOM, &length);
    if (status != VOLUME_OK)
        fail("the snapshot: refusal %u", status);
    return length;
}

/* Writes the state to the disk. Ends the program if it can't, before an answer is sent: the disk has the old state. */
static void save(struct authority *authority) {
    struct buffer all = {0};
    uint8_t bytes[SNAPSHOT_ROOM], sum[SUM];
    size_t length = snapshot_of(authority, bytes);
    if (!buffer_add(&all, MARK, sizeof MARK))
        fail("out of memory");
    add_item(&all, bytes, length);
    for (int group = 0; group < GROUPS; group++)
        add_item(&all, authority->steps[group].at, authority->steps[group].length);
    put32(sum, checksum(all.at, all.length));
    if (!buffer_add(&all, sum, SUM))
        fail("out of memory");
    if (!file_replace(authority->folder, "authority", all.at, all.length))
        fail("%s: the state can't be written: %s", authority->folder, strerror(errno));
    buffer_free(&all);
}

/* Reads the next item of the file. Returns false if there is none. */
static bool take_item(const struct buffer *all, size_t *place, const uint8_t **at, size_t *length) {
    size_t left = all->length - SUM - *place;
    if (left < 4 || left - 4 < get32(all->at + *place))
        return false;
    *length = get32(all->at + *place);
    *at = all->at + *place + 4;
    *place += 4 + *length;
    return true;
}

static bool take_state(struct authority *authority, const struct buffer *all) {
    const uint8_t *at;
    size_t place = sizeof MARK, length;
    if (all->length < sizeof MARK + SUM || memcmp(all->at, MARK, sizeof MARK) != 0
        || checksum(all->at, all->length - SUM) != get32(all->at + all->length - SUM))
        return false;
    if (!take_item(all, &place, &at, &length)
        || volume_authority_resume(&authority->plan, at, length, &authority->handle) != VOLUME_OK)
        return false;
    for (int group = 0; group < GROUPS; group++) {
        if (!take_item(all, &place, &at, &length))
            return false;
        if (!buffer_add(&authority->steps[group], at, length))
            fail("out of memory");
    }
    return place == all->length - SUM;
}

/* Reads the state. Returns false if there is none. */
static bool load(struct authority *authority) {
    struct buffer all = {0};
    char *path = path_in(authority->folder, "authority");
    if (!path)
        fail("out of memory");
    bool there = file_read(path, &all);
    if (!there && errno != ENOENT)
        fail("%s: %s", path, strerror(errno));
    if (there && !take_state(authority, &all))
        fail("%s: it is spoilt: nothing was changed", path);
    buffer_free(&all);
    free(path);
    return there;
}

static bool take_message(struct authority *authority) {
    bool good;
    bool taken = next_message(&authority->handle, &authority->message, &good);
    if (!good)
        fail("out of memory");
    return taken;
}

/* Sends the View that the authority made. */
static void send_view(struct authority *authority, struct peer *peer) {
    if (take_message(authority))
        net_send(peer, FRAME_MESSAGE, 0, 0, authority->message.at, authority->message.length);
}

static uint8_t advance(struct authority *authority, const struct frame *frame) {
    if (frame->length != 4 || frame->group >= GROUPS)
        return VOLUME_SHORT;
    uint8_t status = volume_authority_advance(&authority->handle, frame->group, get32(frame->body));
    if (status != VOLUME_OK || !take_message(authority))
        return status;
    struct buffer *step = &authority->steps[frame->group];
    step->length = 0;
    if (!buffer_add(step, authority->message.at, authority->message.length))
        fail("out of memory");
    save(authority);
    return status;
}

static uint8_t grow(struct authority *authority) {
    uint8_t status = volume_authority_grow(&authority->handle);
    if (status == VOLUME_OK)
        save(authority);
    return status;
}

static uint8_t assign(struct authority *authority, struct peer *peer) {
    uint8_t status = volume_authority_assign(&authority->handle);
    if (status == VOLUME_OK) {
        save(authority);
        send_view(authority, peer);
    }
    return status;
}

static uint8_t refresh(struct authority *authority, struct peer *peer, const struct frame *frame) {
    if (frame->length != 4)
        return VOLUME_SHORT;
    uint8_t status = volume_authority_refresh(&authority->handle, get32(frame->body));
    if (status == VOLUME_OK)
        send_view(authority, peer);
    return status;
}

static void send_steps(struct authority *authority, struct peer *peer) {
    for (uint8_t group = 0; group < GROUPS; group++)
        if (authority->steps[group].length > 0)
            net_send(peer, FRAME_MESSAGE, group, 0, authority->steps[group].at, authority->steps[group].length);
}

static void send_places(struct authority *authority, struct peer *peer) {
    uint8_t bytes[SNAPSHOT_ROOM];
    size_t length = snapshot_of(authority, bytes);
    net_send(peer, FRAME_PLACES, 0, 0, bytes, length);
}

/* Answers a call with a status. */
static void answer(struct peer *peer, const struct frame *frame, uint8_t status) {
    net_send(peer, status == VOLUME_OK ? FRAME_DONE : FRAME_REFUSED, frame->group, status, NULL, 0);
}

static void on_frame(struct net *net, struct peer *peer, const struct frame *frame) {
    struct authority *authority = net->context;
    uint8_t status = VOLUME_OK;
    switch (frame->kind) {
    case FRAME_ASSIGN:
        status = assign(authority, peer);
        break;
    case FRAME_REFRESH:
        status = refresh(authority, peer, frame);
        break;
    case FRAME_STEPS:
        send_steps(authority, peer);
        return;
    case FRAME_STATUS:
        send_places(authority, peer);
        return;
    case FRAME_ADVANCE:
        answer(peer, frame, advance(authority, frame));
        return;
    case FRAME_GROW:
        answer(peer, frame, grow(authority));
        return;
    default:
        say("a frame of kind %u: its connection is closed", frame->kind);
        peer->broken = true;
        return;
    }
    if (status == VOLUME_NO_MEMORY)
        fail("out of memory");
    if (status != VOLUME_OK)
        answer(peer, frame, status);
}

static void lock_folder(const char *folder) {
    char *path = path_in(folder, "lock");
    int fd = path ? open(path, O_RDWR | O_CREAT | O_CLOEXEC, 0644) : -1;
    if (fd < 0)
        fail("%s: %s", folder, strerror(errno));
    if (flock(fd, LOCK_EX | LOCK_NB) != 0) /* `fd` stays open while the process runs */
        fail("%s: another process has this folder", folder);
    free(path);
}

static void start(struct authority *authority, const char *cluster, bool fresh) {
    char fault[FAULT_LINE];
    if (!cluster_read(cluster, &authority->cluster, fault)
        || !cluster_plan(&authority->cluster, &authority->plan, fault))
        fail("%s", fault);
    lock_folder(authority->folder);
    bool known = load(authority);
    if (known && fresh)
        fail("%s: the authority was born already", authority->folder);
    if (!known && !fresh)
        fail("%s: no state: an authority that is new is born by --new", authority->folder);
    if (!known) {
        if (volume_authority_new(&authority->plan, &authority->handle) != VOLUME_OK)
            fail("out of memory");
        save(authority);
    }
}

int main(int count, char **given) {
    static struct authority authority;
    const char *cluster = NULL;
    bool fresh = false;
    program_name = "volume_authority";
    for (int i = 1; i < count; i++) {
        if (strcmp(given[i], "--new") == 0)
            fresh = true;
        else if (i + 1 < count && strcmp(given[i], "--cluster") == 0)
            cluster = given[++i];
        else if (i + 1 < count && strcmp(given[i], "--dir") == 0)
            authority.folder = given[++i];
        else
            fail("what is %s?", given[i]);
    }
    if (!cluster || !authority.folder)
        fail("--cluster FILE --dir FOLDER [--new]");
    start(&authority, cluster, fresh);
    authority.net = (struct net){.listener = -1, .on_frame = on_frame, .context = &authority};
    signal(SIGTERM, end);
    signal(SIGINT, end);
    if (!net_listen(&authority.net, authority.cluster.authority))
        fail("%s: %s", authority.cluster.authority, strerror(errno));
    while (!ended) {
        net_turn(&authority.net, TURN);
        net_flush(&authority.net);
    }
    net_close(&authority.net);
    for (int group = 0; group < GROUPS; group++)
        buffer_free(&authority.steps[group]);
    buffer_free(&authority.message);
    volume_close(&authority.handle);
    volume_close(&authority.plan);
    cluster_free(&authority.cluster);
    return 0;
}
