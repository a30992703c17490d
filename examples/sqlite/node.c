/* A node of the volume: the segments of one member in all groups that have it, their disk, and a socket.
 *
 *     volume_node --cluster FILE --member N --dir FOLDER [--plan FILE] [--listen ADDRESS] [--new]
 *
 * A message that a segment takes is in the synced log before its answers are sent. One sync serves all messages of a
 * turn. */
#include "cluster.h"
#include "log.h"
#include "net.h"
#include "testing.h"

#include <errno.h>
#include <signal.h>
#include <stdio.h>
#include <stdlib.h>
#include <string.h>

enum {
    TURN = 100,         /* milliseconds that a turn waits for frames, at most */
    STEPS_EACH = 200,   /* between two requests for the authority's steps */
    COPIES_EACH = 500,  /* between two requests for copies */
    LOG_MOST = 8 << 20, /* a log longer than this and than twice the snapshot is replaced by a new snapshot */
    STATE_LENGTH = 26,  /* of a group in FRAME_STATE: group, whole, two epochs, complete point, records */
    SYNC_LATE = 1000,
    PIECE = 1 << 16,    /* of a snapshot */
};

/* A segment of the node. */
struct own_segment {
    struct volume_handle handle;
    bool whole;
    bool installing;       /* it has some pieces of an Install, which a snapshot would drop */
    struct buffer birth;   /* until it is whole: its first snapshot */
    struct buffer carried; /* until it is whole: all messages that it took, in the log's form */
    struct buffer ask;     /* its last CopyAsk */
    uint64_t ask_at;
};

struct node {
    struct cluster cluster;
    struct volume_handle plan;
    struct log log;
    struct net net;
    struct peer *authority;
    struct own_segment segments[GROUPS];
    struct buffer message;
    uint8_t member;
    uint64_t steps_at, snapshot_length, synced_at;
};

static volatile sig_atomic_t ended;

static void end(int number) {
    (void)number;
    ended = 1;
}

static bool take_message(struct volume_handle *handle, struct buffer *out) {
    bool good;
    bool taken = next_message(handle, out, &good);
    if (!good)
        fail("out of memory");
    return taken;
}

typedef void takes_piece(void *context, const uint8_t *bytes, size_t length);

static void add_to_buffer(void *context, const uint8_t *bytes, size_t length) {
    if (!buffer_add(context, bytes, length))
        fail("out of memory");
}

static void add_to_log(void *context, const uint8_t *bytes, size_t length) {
    struct node *node = context;
    log_add_piece(&node->log, bytes, length);
    node->snapshot_length += length;
}

/* Calls `take` with each piece of a segment's snapshot. The segment drops the pieces of copies that it has, so it must be
 * whole or new. */
static void snapshot_of(struct own_segment *segment, takes_piece *take, void *context) {
    static uint8_t piece[PIECE];
    struct volume_handle snapshot = {0};
    size_t written = 0;
    uint8_t status = volume_segment_snapshot(&segment->handle, &snapshot);
    while (status == VOLUME_OK) {
        if (written > 0)
            take(context, piece, written);
        status = volume_snapshot_read(&snapshot, piece, sizeof piece, &written);
    }
    if (status != VOLUME_NO_MORE)
        fail("a snapshot: refusal %u", status);
    volume_close(&snapshot);
}

/* Writes a segment to the new snapshot. One that isn't whole stays as it was at birth, and its messages begin the new log. */
static void save_segment(struct node *node, uint8_t group, struct buffer *first) {
    struct own_segment *segment = &node->segments[group];
    log_begin_section(&node->log, group);
    if (segment->whole) {
        snapshot_of(segment, add_to_log, node);
        segment->installing = false; /* the pieces that it had are gone, and will be sent again */
    } else {
        add_to_log(node, segment->birth.at, segment->birth.length);
    }
    log_end_section(&node->log);
    if (!buffer_add(first, segment->carried.at, segment->carried.length))
        fail("out of memory");
}

/* Writes a snapshot of all segments. */
static void save(struct node *node) {
    struct buffer first = {0};
    uint32_t count = 0;
    for (uint8_t group = 0; group < GROUPS; group++)
        count += node->segments[group].handle.live;
    node->snapshot_length = 0;
    log_begin_snapshot(&node->log, count);
    for (uint8_t group = 0; group < GROUPS; group++)
        if (node->segments[group].handle.live)
            save_segment(node, group, &first);
    log_end_snapshot(&node->log, &first);
    buffer_free(&first);
}

/* Tries to make a segment whole. Returns whether this call made it whole. */
static bool becomes_whole(struct own_segment *segment) {
    uint8_t status = segment->whole ? VOLUME_ALREADY_WHOLE : volume_segment_hydrate(&segment->handle);
    if (status == VOLUME_NO_MEMORY)
        fail("out of memory");
    if (status == VOLUME_OK || status == VOLUME_ALREADY_WHOLE) {
        segment->whole = true;
        buffer_free(&segment->carried);
        buffer_free(&segment->birth);
        buffer_free(&segment->ask);
    }
    return status == VOLUME_OK;
}

/* Makes the segments of a new node. */
static void birth(struct node *node) {
    for (uint8_t group = 0; group < GROUPS; group++) {
        struct own_segment *segment = &node->segments[group];
        uint8_t status = volume_segment_new(&node->plan, group, node->member, &segment->handle);
        if (status == VOLUME_NO_ACTOR)
            continue;
        if (status != VOLUME_OK)
            fail("the segment of group %u: refusal %u", group, status);
        snapshot_of(segment, add_to_buffer, &segment->birth);
        (void)becomes_whole(segment);
    }
    save(node);
}

/* A planted fault: replaces the promised volume epoch by that of the lineage's last entry. */
static void forget_promise(struct buffer *bytes) {
    enum { PROMISE = 2, LINEAGE = 20, ENTRY = 20 };
    if (bytes->length >= LINEAGE + 4 + ENTRY) {
        uint32_t entries = get32(bytes->at + LINEAGE);
        memcpy(bytes->at + PROMISE, bytes->at + LINEAGE + 4 + ENTRY * (entries - 1), 4);
    }
}

static void resume_section(void *context, uint8_t group, const uint8_t *bytes, size_t length) {
    struct node *node = context;
    struct buffer copy = {0};
    if (group >= GROUPS || node->segments[group].handle.live)
        fail("the snapshot has a section for group %u that can't be: nothing was changed", group);
    struct own_segment *segment = &node->segments[group];
    if (!buffer_add(&copy, bytes, length) || !buffer_add(&segment->birth, bytes, length))
        fail("out of memory");
    if (testing_fault("forgets-promise"))
        forget_promise(&copy);
    uint8_t status = volume_segment_resume(&node->plan, group, node->member, copy.at, copy.length, &segment->handle);
    if (status != VOLUME_OK)
        fail("the snapshot of group %u: refusal %u: nothing was changed", group, status);
    (void)becomes_whole(segment);
    node->snapshot_length += length;
    buffer_free(&copy);
}

/* Keeps a segment's CopyAsk, which is sent again until the segment is whole. */
static void keep_ask(struct own_segment *segment, const struct buffer *message) {
    segment->ask.length = 0;
    if (!buffer_add(&segment->ask, message->at, message->length))
        fail("out of memory");
    segment->ask_at = 0;
}

/* Notes whether the segment has pieces of an unfinished Install after a message. Only the last piece is answered. */
static void note_pieces(struct own_segment *segment, uint8_t kind, bool answered) {
    if (kind == INSTALL)
        segment->installing = !answered;
    else if (kind == STEP_TO)
        segment->installing = false;
}

static void replay(void *context, uint8_t group, const uint8_t *bytes, size_t length) {
    struct node *node = context;
    if (group >= GROUPS || !node->segments[group].handle.live)
        fail("the log has a message for group %u, of which the node has no segment: nothing was changed", group);
    struct own_segment *segment = &node->segments[group];
    if (testing_fault("forgets-promise") && bytes[1] == FENCE)
        return;
    uint8_t status = volume_segment_take(&segment->handle, bytes, length);
    if (status != VOLUME_OK && !testing_fault("forgets-promise"))
        fail("a message of the log: refusal %u: nothing was changed", status);
    bool answered = false;
    while (take_message(&segment->handle, &node->message)) {
        answered = true;
        if (message_kind(node->message.at) == COPY_ASK)
            keep_ask(segment, &node->message);
    }
    note_pieces(segment, message_kind(bytes), answered);
    if (!segment->whole)
        log_add(&segment->carried, group, bytes, length);
}

/* Replays the log on the segments of the snapshot. */
static void resume(struct node *node) {
    log_read(&node->log, replay, node);
    bool fresh = false;
    for (uint8_t group = 0; group < GROUPS; group++)
        if (node->segments[group].handle.live)
            fresh = becomes_whole(&node->segments[group]) || fresh;
    if (fresh)
        save(node);
}

/* A planted fault: a new member becomes whole without the records of any other. */
static void whole_too_early(struct node *node, struct own_segment *segment, uint8_t group) {
    enum { WHOLE = 11 };
    struct buffer made = {0};
    snapshot_of(segment, add_to_buffer, &made);
    made.at[WHOLE] = 1;
    volume_close(&segment->handle);
    if (volume_segment_resume(&node->plan, group, node->member, made.at, made.length, &segment->handle) != VOLUME_OK)
        fail("the planted fault doesn't fit the snapshots of the library");
    buffer_free(&made);
    (void)becomes_whole(segment);
    save(node);
}

/* Sends the messages that a segment made to the peer, and keeps a CopyAsk for `ask`. Returns whether it made any. */
static bool answer(struct node *node, struct own_segment *segment, struct peer *peer) {
    bool answered = false;
    while (take_message(&segment->handle, &node->message)) {
        const uint8_t *at = node->message.at;
        answered = true;
        if (message_kind(at) == COPY_ASK)
            keep_ask(segment, &node->message);
        else
            net_send(peer, FRAME_MESSAGE, message_group(at), 0, at, node->message.length);
    }
    return answered;
}

static void refuse(struct peer *peer, const struct frame *frame, uint8_t status) {
    size_t shown = frame->length < LABELLED ? frame->length : LABELLED;
    net_send(peer, FRAME_REFUSED, frame->group, status, frame->body, shown);
}

static void take_frame_message(struct node *node, struct peer *peer, const struct frame *frame) {
    struct own_segment *segment = frame->group < GROUPS ? &node->segments[frame->group] : NULL;
    if (!segment || !segment->handle.live) {
        refuse(peer, frame, VOLUME_NO_ACTOR);
        return;
    }
    uint8_t status = volume_segment_take(&segment->handle, frame->body, frame->length);
    if (status == VOLUME_NO_MEMORY)
        fail("out of memory");
    if (status != VOLUME_OK) {
        if (peer->id == UNKNOWN)
            refuse(peer, frame, status);
        return;
    }
    uint8_t kind = message_kind(frame->body);
    if (kind != PAGE_ASK) { /* a PageAsk changes nothing */
        log_add(&node->log.body, frame->group, frame->body, frame->length);
        if (!segment->whole)
            log_add(&segment->carried, frame->group, frame->body, frame->length);
    }
    note_pieces(segment, kind, answer(node, segment, peer));
    if (kind == STEP_TO && !segment->whole && testing_fault("whole-too-early"))
        whole_too_early(node, segment, frame->group);
    if (kind == COPY_REPORT && becomes_whole(segment)) {
        say("member %u is whole in group %u", node->member, frame->group);
        save(node);
    }
}

/* Appends a segment's state in the form of FRAME_STATE. */
static void add_state(struct own_segment *segment, uint8_t group, struct buffer *out) {
    uint8_t bytes[STATE_LENGTH] = {group};
    struct volume_segment_state state;
    uint8_t status = volume_segment_state(&segment->handle, &state);
    if (status != VOLUME_OK)
        fail("the state of group %u: refusal %u", group, status);
    bytes[1] = state.is_whole == 1;
    put32(bytes + 2, state.volume_epoch);
    put32(bytes + 6, state.membership_epoch);
    put64(bytes + 10, state.complete_point);
    put64(bytes + 18, state.records);
    if (!buffer_add(out, bytes, sizeof bytes))
        fail("out of memory");
}

static void send_state(struct node *node, struct peer *peer) {
    struct buffer out = {0};
    for (uint8_t group = 0; group < GROUPS; group++)
        if (node->segments[group].handle.live)
            add_state(&node->segments[group], group, &out);
    net_send(peer, FRAME_STATE, node->member, 0, out.at, out.length);
    buffer_free(&out);
}

static void on_frame(struct net *net, struct peer *peer, const struct frame *frame) {
    struct node *node = net->context;
    switch (frame->kind) {
    case FRAME_MESSAGE:
        take_frame_message(node, peer, frame);
        return;
    case FRAME_STATUS:
        send_state(node, peer);
        return;
    case FRAME_HYDRATE:
        for (int group = 0; group < GROUPS; group++)
            node->segments[group].ask_at = 0;
        net_send(peer, FRAME_DONE, frame->group, 0, NULL, 0);
        return;
    case FRAME_REFUSED: /* from a member that has no copy for us yet */
        return;
    default:
        say("a frame of kind %u: its connection is closed", frame->kind);
        peer->broken = true;
    }
}

/* Asks the authority for steps, and the other members for copies for each segment that isn't whole. */
static void ask(struct node *node) {
    uint64_t now = now_ms();
    if (now >= node->steps_at) {
        net_send(node->authority, FRAME_STEPS, 0, 0, NULL, 0);
        node->steps_at = now + STEPS_EACH;
    }
    for (uint8_t group = 0; group < GROUPS; group++) {
        struct own_segment *segment = &node->segments[group];
        if (segment->whole || segment->ask.length == 0 || now < segment->ask_at)
            continue;
        segment->ask_at = now + COPIES_EACH;
        for (size_t i = 0; i < node->net.count; i++)
            if (node->net.peers[i]->id < MEMBERS)
                net_send(node->net.peers[i], FRAME_MESSAGE, group, 0, segment->ask.at, segment->ask.length);
    }
}

static bool is_installing(const struct node *node) {
    for (int group = 0; group < GROUPS; group++)
        if (node->segments[group].installing)
            return true;
    return false;
}

/* Writes and syncs the messages of the turn. */
static void sync_turn(struct node *node) {
    if (testing_fault("answers-before-sync") && now_ms() < node->synced_at + SYNC_LATE) {
        log_write(&node->log);
        return;
    }
    node->synced_at = now_ms();
    log_sync(&node->log);
}

/* Writes a snapshot and begins a new log if the log is long. */
static void shorten_log(struct node *node) {
    uint64_t most = node->snapshot_length * 2 > LOG_MOST ? node->snapshot_length * 2 : LOG_MOST;
    if (node->log.length > most && !is_installing(node))
        save(node);
}

static void run(struct node *node) {
    while (!ended) {
        ask(node);
        net_flush(&node->net);
        net_turn(&node->net, TURN);
        sync_turn(node);
        net_flush(&node->net);
        shorten_log(node);
    }
}

static void dial(struct node *node) {
    node->authority = net_dial(&node->net, node->cluster.authority, AUTHORITY);
    bool good = node->authority != NULL;
    for (int member = 0; member < MEMBERS; member++)
        if (member != node->member && node->cluster.nodes[member])
            good = net_dial(&node->net, node->cluster.nodes[member], member) && good;
    if (!good)
        fail("out of memory");
}

/* Replaces a value of the cluster file by one of the command line, if there is one. */
static void replace(char **text, const char *given) {
    if (!given)
        return;
    free(*text);
    *text = strdup(given);
    if (!*text)
        fail("out of memory");
}

struct words {
    const char *cluster, *member, *dir, *plan, *listen;
    bool fresh;
};

static struct words read_words(int count, char **given) {
    struct words words = {0};
    for (int i = 1; i < count; i++) {
        bool more = i + 1 < count;
        if (strcmp(given[i], "--new") == 0)
            words.fresh = true;
        else if (more && strcmp(given[i], "--cluster") == 0)
            words.cluster = given[++i];
        else if (more && strcmp(given[i], "--member") == 0)
            words.member = given[++i];
        else if (more && strcmp(given[i], "--dir") == 0)
            words.dir = given[++i];
        else if (more && strcmp(given[i], "--plan") == 0)
            words.plan = given[++i];
        else if (more && strcmp(given[i], "--listen") == 0)
            words.listen = given[++i];
        else
            fail("what is %s?", given[i]);
    }
    if (!words.cluster || !words.member || !words.dir)
        fail("--cluster FILE --member N --dir FOLDER [--plan FILE] [--listen ADDRESS] [--new]");
    return words;
}

static void start(struct node *node, const struct words *words) {
    char fault[FAULT_LINE], *rest;
    unsigned long member = strtoul(words->member, &rest, 10);
    if (*rest || member >= MEMBERS || !words->member[0])
        fail("a member is 0 to 63, not %s", words->member);
    node->member = (uint8_t)member;
    if (!cluster_read(words->cluster, &node->cluster, fault))
        fail("%s", fault);
    replace(&node->cluster.plan, words->plan);
    replace(&node->cluster.nodes[member], words->listen);
    if (!node->cluster.nodes[member])
        fail("the cluster file has no node.%lu", member);
    if (!cluster_plan(&node->cluster, &node->plan, fault))
        fail("%s", fault);
    log_open(&node->log, words->dir);
    bool known = log_read_snapshot(&node->log, resume_section, node);
    if (known && words->fresh)
        fail("%s: the node was born already", words->dir);
    if (!known && !words->fresh)
        fail("%s: no snapshot: a node that lost its disk is replaced; one that is new is born by --new", words->dir);
    if (known)
        resume(node);
    else
        birth(node);
}

int main(int count, char **given) {
    static struct node node;
    program_name = "volume_node";
    struct words words = read_words(count, given);
    start(&node, &words);
    node.net = (struct net){.listener = -1, .on_frame = on_frame, .context = &node};
    signal(SIGTERM, end);
    signal(SIGINT, end);
    const char *address = node.cluster.nodes[node.member];
    if (!net_listen(&node.net, address))
        fail("%s: %s", address, strerror(errno));
    dial(&node);
    run(&node);
    net_close(&node.net);
    for (int group = 0; group < GROUPS; group++) {
        volume_close(&node.segments[group].handle);
        buffer_free(&node.segments[group].birth);
        buffer_free(&node.segments[group].carried);
        buffer_free(&node.segments[group].ask);
    }
    volume_close(&node.plan);
    log_close(&node.log);
    cluster_free(&node.cluster);
    buffer_free(&node.message);
    return 0;
}
