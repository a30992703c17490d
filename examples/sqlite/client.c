#include "client_state.h"

#include <stdio.h>
#include <stdlib.h>
#include <string.h>

enum {
    TURN = 10,          /* milliseconds between two checks of what is due, at most */
    REFRESH_EACH = 100, /* between two requests for the View */
    ASSIGN_EACH = 2000, /* between two requests for a volume epoch; each request assigns a new one */
    PAGE_WAIT = 100,    /* for a member's page, before another member is asked */
    LINGER = 100,       /* for slow members, before the client closes */
    LONG_FRAME = 1 << 16,
    PUMP_EACH = 16, /* transactions between two polls of the sockets */
};

/* Returns the reason why a client can't go on, or CLIENT_OK. A full segment isn't one: the client can still read. */
static enum client_result trouble(const struct client *client) {
    if (client->fenced && !testing_fault("ignores-fence"))
        return CLIENT_FENCED;
    if (client->no_memory)
        return CLIENT_NO_MEMORY;
    return client->fault ? CLIENT_FAULT : CLIENT_OK;
}

static void note_status(struct client *client, uint8_t status, const char *call) {
    char name[40];
    if (status == VOLUME_NO_MEMORY) {
        client->no_memory = true;
    } else {
        say("%s: refusal %u %s", call, status, fault_name(status, name));
        client->fault = true;
    }
}

/* Tries the recovery's next step, the cut or the opening, if a message came since the last try. */
static void step(struct client *client) {
    uint8_t status;
    if (!client->changed || (client->stage == FENCING && now_ms() < client->hold_until))
        return;
    client->changed = false;
    if (client->stage == FENCING) {
        status = volume_recovery_cut(&client->handle);
        if (status == VOLUME_OK) {
            client->stage = INSTALLING;
            send_made(client);
        }
    } else if (client->stage == INSTALLING) {
        status = volume_recovery_open(&client->handle);
        if (status == VOLUME_OK)
            client->stage = OPEN;
    } else {
        return;
    }
    if (status != VOLUME_OK && status != VOLUME_NOT_READY)
        note_status(client, status, "the recovery");
}

/* Asks the authority for a volume epoch, or for a View with the groups' present places. */
static void ask_for_view(struct client *client) {
    uint8_t epoch[4];
    if (client->stage == ASKING && client->authority->fd >= 0 && now_ms() >= client->assign_at) {
        client->assign_at = now_ms() + ASSIGN_EACH;
        net_send(client->authority, FRAME_ASSIGN, 0, 0, NULL, 0);
    }
    if (!client->refresh_wanted || now_ms() < client->refresh_at)
        return;
    client->refresh_at = now_ms() + REFRESH_EACH;
    put32(epoch, client->epoch);
    net_send(client->authority, FRAME_REFRESH, 0, 0, epoch, sizeof epoch);
}

/* Counts a long frame that is still arriving as progress: a Report may have a hundred megabytes. */
static void note_long_frames(struct client *client) {
    for (int member = 0; member < MEMBERS; member++) {
        const struct peer *node = client->nodes[member];
        if (node && node->in.length > LONG_FRAME && node->heard_at > client->progress)
            client->progress = node->heard_at;
    }
}

/* Polls the sockets once: sends what is due, waits up to `timeout` milliseconds, and takes what comes. */
static void pump(struct client *client, uint64_t timeout) {
    serve_all(client);
    ask_for_view(client);
    net_flush(&client->net);
    net_turn(&client->net, timeout < TURN ? timeout : TURN);
    note_long_frames(client);
    step(client);
    serve_all(client);
    net_flush(&client->net);
}

/* Takes a View: that of the client's assignment, or a later one with new places. */
static void take_view(struct client *client, const struct frame *frame) {
    uint8_t status;
    if (client->stage == ASKING) {
        client->view.length = 0;
        client->no_memory = client->no_memory || !buffer_add(&client->view, frame->body, frame->length);
        return;
    }
    if (frame->length < VIEW_PLACES || view_epoch(frame->body) != client->epoch)
        return;
    status = volume_client_take(&client->handle, frame->body, frame->length);
    if (status != VOLUME_OK) {
        note_status(client, status, "a View");
        return;
    }
    client->refresh_wanted = false;
    client->changed = true;
    send_made(client);
    take_places(client, frame->body);
}

static void take_page(struct client *client, const struct frame *frame) {
    for (size_t i = 0; i < client->wanted_count; i++) {
        struct wanted *one = &client->wanted[i];
        if (one->out && one->group == message_group(frame->body) && one->block == page_block(frame->body)) {
            memcpy(one->out, frame->body + PAGE_BYTES, BLOCK);
            one->out = NULL;
        }
    }
}

static void take_message(struct client *client, const struct frame *frame) {
    if (frame->length >= VIEW_PLACES && message_kind(frame->body) == VIEW) {
        take_view(client, frame);
        return;
    }
    if (client->stage == ASKING)
        return;
    uint8_t status = volume_client_take(&client->handle, frame->body, frame->length);
    if (status == VOLUME_NO_MEMORY)
        client->no_memory = true;
    if (status != VOLUME_OK)
        return;
    client->changed = true;
    send_made(client);
    if (message_kind(frame->body) == PAGE)
        take_page(client, frame);
    else
        take_answer(client, frame->body);
}

static void on_frame(struct net *net, struct peer *peer, const struct frame *frame) {
    struct client *client = net->context;
    if (frame->kind == FRAME_MESSAGE)
        take_message(client, frame);
    else if (frame->kind == FRAME_REFUSED && peer->id == AUTHORITY)
        client->fenced = client->fenced || frame->status == VOLUME_SUPERSEDED;
    else if (frame->kind == FRAME_REFUSED && frame->length >= LABELLED)
        take_refusal(client, (uint8_t)peer->id, frame);
    else if (frame->kind != FRAME_REFUSED)
        peer->broken = true;
}

static void on_connect(struct net *net, struct peer *peer) {
    struct client *client = net->context;
    if (peer->id != AUTHORITY)
        begin_again(client, (uint8_t)peer->id);
    else
        client->assign_at = client->refresh_at = 0;
}

/* Begins the recovery with the View of the client's assignment. */
static bool begin_recovery(struct client *client) {
    uint8_t status = volume_recovery_new(&client->plan, client->view.at, client->view.length, &client->handle);
    if (status != VOLUME_OK) {
        note_status(client, status, "the recovery's View");
        return false;
    }
    client->epoch = view_epoch(client->view.at);
    client->stage = FENCING;
    client->hold_until = now_ms() + testing_hold();
    send_made(client);
    take_places(client, client->view.at);
    return true;
}

static bool dial(struct client *client) {
    client->net = (struct net){.listener = -1, .on_frame = on_frame, .on_connect = on_connect, .context = client};
    client->authority = net_dial(&client->net, client->cluster.authority, AUTHORITY);
    bool good = client->authority != NULL;
    for (int member = 0; member < MEMBERS; member++)
        if (client->cluster.nodes[member]) {
            client->nodes[member] = net_dial(&client->net, client->cluster.nodes[member], member);
            good = good && client->nodes[member];
        }
    return good;
}

/* Returns whether there was progress within `timeout`. */
static bool is_patient(const struct client *client) { return now_ms() < client->progress + client->timeout; }

/* Waits for the assignment, and then for the recovery. */
static bool recover(struct client *client, char fault[FAULT_LINE]) {
    client->progress = now_ms();
    while (client->view.length == 0 && is_patient(client))
        pump(client, TURN);
    if (client->view.length == 0) {
        snprintf(fault, FAULT_LINE, "the authority doesn't answer");
        return false;
    }
    if (!begin_recovery(client))
        return false;
    client->progress = now_ms();
    while (client->stage != OPEN && trouble(client) == CLIENT_OK && is_patient(client))
        pump(client, TURN);
    client->joined = client->group_count;
    if (client->stage == OPEN)
        return true;
    snprintf(fault, FAULT_LINE,
             client->fenced ? "another writer takes the volume over" : "no quorum of nodes answers");
    return false;
}

struct client *client_open(const char *cluster, uint64_t timeout, char fault[FAULT_LINE]) {
    struct client *client = calloc(1, sizeof *client);
    snprintf(fault, FAULT_LINE, "out of memory");
    if (!client)
        return NULL;
    client->timeout = timeout;
    client->net.listener = -1;
    bool good = cluster_read(cluster, &client->cluster, fault) && cluster_plan(&client->cluster, &client->plan, fault);
    if (good && dial(client) && recover(client, fault))
        return client;
    client->stage = ASKING;
    client_close(client);
    return NULL;
}

uint32_t client_groups(const struct client *client) { return client->joined; }

uint64_t client_room(const struct client *client) {
    uint64_t most = 0, all = testing_room();
    for (uint32_t group = 0; group < client->joined && group < GROUPS; group++)
        if (group_records(&client->groups[group]) > most)
            most = group_records(&client->groups[group]);
    return client->full || most > all ? 0 : all - most;
}

enum client_result client_issue(struct client *client, const struct volume_change *changes, size_t count) {
    uint64_t deadline = now_ms() + client->timeout;
    while (trouble(client) == CLIENT_OK && !client->full) {
        uint8_t status = volume_writer_issue(&client->handle, changes, count);
        if (status == VOLUME_OK) {
            send_made(client);
            if (++client->issued % PUMP_EACH == 0)
                pump(client, 0);
            return trouble(client);
        }
        if (status != VOLUME_LIMIT_REACHED)
            note_status(client, status, "a transaction");
        else if (now_ms() > deadline)
            return CLIENT_TIMEOUT;
        else
            pump(client, TURN);
    }
    return trouble(client) != CLIENT_OK ? trouble(client) : CLIENT_FULL;
}

enum client_result client_sync(struct client *client) {
    struct volume_points points = {0};
    uint64_t durable = 0, deadline = now_ms() + client->timeout;
    if (testing_fault("sync-without-wait"))
        return CLIENT_OK;
    for (;;) {
        if (client->fenced && testing_fault("ignores-fence"))
            return CLIENT_OK;
        if (trouble(client) != CLIENT_OK)
            return trouble(client);
        if (volume_writer_points(&client->handle, &points) != VOLUME_OK)
            return CLIENT_FAULT;
        if (points.durable == points.last)
            return CLIENT_OK;
        if (client->full)
            return CLIENT_FULL;
        if (points.durable > durable)
            deadline = now_ms() + client->timeout;
        durable = points.durable;
        if (now_ms() > deadline)
            return CLIENT_TIMEOUT;
        pump(client, TURN);
    }
}

/* Returns the next connected member to ask for pages, or -1 if none is connected. */
static int next_reader(struct client *client) {
    for (int i = 1; i <= MEMBERS; i++) {
        int member = (client->reader + i) % MEMBERS;
        if (client->nodes[member] && client->nodes[member]->fd >= 0)
            return member;
    }
    return -1;
}

static bool all_came(const struct client *client) {
    for (size_t i = 0; i < client->wanted_count; i++)
        if (client->wanted[i].out)
            return false;
    return true;
}

/* Asks `reader` for the blocks that haven't come; returns whether all have come. */
static bool ask_reader(struct client *client) {
    struct peer *node = client->nodes[client->reader];
    uint64_t until = now_ms() + PAGE_WAIT;
    client->page_refused = false;
    if (!node || node->fd < 0)
        return false;
    for (size_t i = 0; i < client->wanted_count; i++) {
        struct wanted *one = &client->wanted[i];
        bool good;
        if (!one->out)
            continue;
        uint8_t status = volume_writer_read(&client->handle, one->group, one->block);
        if (status != VOLUME_OK || !next_message(&client->handle, &client->message, &good)) {
            note_status(client, status != VOLUME_OK ? status : VOLUME_NO_MEMORY, "a read");
            return false;
        }
        net_send(node, FRAME_MESSAGE, one->group, 0, client->message.at, client->message.length);
    }
    while (!all_came(client) && !client->page_refused && trouble(client) == CLIENT_OK && now_ms() < until)
        pump(client, TURN);
    return all_came(client);
}

enum client_result client_read(struct client *client, struct wanted *wanted, size_t count) {
    uint64_t deadline = now_ms() + client->timeout;
    enum client_result result = CLIENT_TIMEOUT;
    client->wanted = wanted;
    client->wanted_count = count;
    while (result == CLIENT_TIMEOUT && trouble(client) == CLIENT_OK && now_ms() < deadline) {
        if (ask_reader(client)) {
            result = CLIENT_OK;
            break;
        }
        int next = next_reader(client);
        if (next < 0 || next <= client->reader)
            pump(client, TURN); /* all members were asked */
        client->reader = next < 0 ? client->reader : next;
    }
    client->wanted_count = 0;
    return result == CLIENT_OK || trouble(client) == CLIENT_OK ? result : trouble(client);
}

void client_close(struct client *client) {
    uint64_t until = now_ms() + LINGER;
    while (client->stage == OPEN && trouble(client) == CLIENT_OK && now_ms() < until && !all_have_all(client))
        pump(client, TURN);
    net_close(&client->net);
    volume_close(&client->handle);
    volume_close(&client->plan);
    cluster_free(&client->cluster);
    free_groups(client);
    buffer_free(&client->view);
    buffer_free(&client->message);
    free(client);
}
