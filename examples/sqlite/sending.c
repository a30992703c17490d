/* What a client sends again, and to whom: a Fence until the Report, an Install until the Ack, and a record until the
 * member's complete point has reached it. A member's window of records begins small and grows with each Ack. */
#include "client_state.h"

#include <stdlib.h>
#include <string.h>

enum {
    FIRST_WAIT = 1000,
    LONGEST_WAIT = 8000, /* for a Report or an Install, which may be long */
    WRITE_WAIT = 100,
    LONGEST_WRITE_WAIT = 2000,
    WINDOW = 4096,
    SMALL_WINDOW = 16,
    PROBE = 16,
    WAITING = 1 << 20, /* bytes that may be queued for a member's socket */
};

static size_t record_count(const struct group_state *group) { return group->lsns.length / sizeof(uint64_t); }

static uint64_t record_lsn(const struct group_state *group, size_t number) {
    return ((const uint64_t *)(const void *)group->lsns.at)[number];
}

uint64_t group_records(const struct group_state *group) { return group->found + record_count(group); }

/* Returns whether the kept Install has the group's present label. If not, no member takes it any more. */
static bool install_is_current(const struct group_state *group) {
    return group->piece_count > 0 && message_membership(group->pieces[0].at) == group->membership;
}

static void restart_sending(struct member_state *state) {
    state->sent = state->acked;
    state->window = SMALL_WINDOW;
    state->piece = 0;
    state->held = state->due = 0;
    state->wait = 0;
}

static void restart_group(struct client *client, uint8_t group) {
    for (int member = 0; member < MEMBERS; member++)
        restart_sending(&client->members[member][group]);
}

void begin_again(struct client *client, uint8_t member) {
    for (int group = 0; group < GROUPS; group++)
        restart_sending(&client->members[member][group]);
}

/* Doubles a member's wait before the next resend, up to `longest`. */
static void wait_longer(struct member_state *state, uint64_t now, uint32_t first, uint32_t longest) {
    state->wait = state->wait == 0 ? first : state->wait * 2;
    if (state->wait > longest)
        state->wait = longest;
    state->due = now + state->wait;
}

/* Sends a new record to the members that were sent all before it. `serve_records` sends it to the others. */
static void send_record(struct client *client, const struct buffer *message) {
    uint8_t number = message_group(message->at);
    struct group_state *group = &client->groups[number];
    uint64_t lsn = write_lsn(message->at);
    size_t before = record_count(group);
    if (!buffer_add(&group->lsns, &lsn, sizeof lsn)) {
        client->no_memory = true;
        return;
    }
    for (int member = 0; member < MEMBERS; member++) {
        struct member_state *state = &client->members[member][number];
        struct peer *node = client->nodes[member];
        if (!node || node->fd < 0 || state->sent != before || before - state->acked >= state->window
            || now_ms() < state->held || net_waiting(node) > WAITING
            || (!state->installed && install_is_current(group)))
            continue;
        if (state->sent == state->acked)
            state->due = now_ms() + WRITE_WAIT;
        state->sent++;
        net_send(node, FRAME_MESSAGE, number, 0, message->at, message->length);
    }
}

static void keep_piece(struct client *client, const struct buffer *message) {
    uint8_t number = message_group(message->at);
    struct group_state *group = &client->groups[number];
    if (install_piece(message->at) == 0) {
        for (size_t i = 0; i < group->piece_count; i++)
            buffer_free(&group->pieces[i]);
        group->piece_count = 0;
        group->found = 0;
        for (int member = 0; member < MEMBERS; member++) {
            client->members[member][number].installed = false;
            client->members[member][number].most = 0;
        }
        restart_group(client, number);
    }
    if (group->piece_count == group->piece_room) {
        size_t room = group->piece_room * 2 + 8;
        struct buffer *made = realloc(group->pieces, room * sizeof *made);
        if (!made) {
            client->no_memory = true;
            return;
        }
        group->pieces = made;
        group->piece_room = room;
    }
    struct buffer copy = {0};
    if (!buffer_add(&copy, message->at, message->length)) {
        client->no_memory = true;
        return;
    }
    group->pieces[group->piece_count++] = copy;
    group->found += install_records(message->at);
}

static void keep_fence(struct client *client, const struct buffer *message) {
    struct group_state *group = &client->groups[message_group(message->at)];
    group->fence.length = 0;
    if (!buffer_add(&group->fence, message->at, message->length))
        client->no_memory = true;
    for (int member = 0; member < MEMBERS; member++)
        client->members[member][message_group(message->at)].reported = false;
    restart_group(client, message_group(message->at));
}

void send_made(struct client *client) {
    bool good;
    while (next_message(&client->handle, &client->message, &good)) {
        uint8_t kind = message_kind(client->message.at);
        if (kind == WRITE)
            send_record(client, &client->message);
        else if (kind == INSTALL)
            keep_piece(client, &client->message);
        else if (kind == FENCE)
            keep_fence(client, &client->message);
    }
    client->no_memory = client->no_memory || !good;
}

void take_places(struct client *client, const uint8_t *view) {
    client->group_count = view_groups(view);
    for (uint8_t group = 0; group < client->group_count && group < GROUPS; group++) {
        uint32_t membership = view_membership(view, group);
        if (membership != client->groups[group].membership)
            restart_group(client, group);
        client->groups[group].membership = membership;
    }
}

/* Takes a member's complete point: counts the records up to it. */
static void take_point(struct group_state *group, struct member_state *state, uint64_t point) {
    size_t before = state->acked;
    while (state->acked < record_count(group) && record_lsn(group, state->acked) <= point)
        state->acked++;
    if (state->sent < state->acked)
        state->sent = state->acked;
    if (state->acked == before)
        return;
    state->wait = 0;
    state->due = now_ms() + WRITE_WAIT;
    state->window = state->window * 2 > WINDOW ? WINDOW : state->window * 2;
}

void take_answer(struct client *client, const uint8_t *message) {
    uint8_t number = message_group(message), member = message_sender(message);
    if (number >= GROUPS || member >= MEMBERS)
        return;
    struct group_state *group = &client->groups[number];
    struct member_state *state = &client->members[member][number];
    if (message_membership(message) > group->membership) {
        client->refresh_wanted = true; /* the handle doesn't count the answer until it knows that membership epoch */
        return;
    }
    if (message_kind(message) == REPORT) {
        state->reported = true;
        client->progress = now_ms();
    }
    if (message_kind(message) != ACK)
        return;
    if (!state->installed) {
        state->installed = true;
        client->progress = now_ms();
        restart_sending(state);
    }
    take_point(group, state, ack_complete_point(message));
}

void take_refusal(struct client *client, uint8_t member, const struct frame *frame) {
    uint8_t kind = message_kind(frame->body), number = message_group(frame->body);
    if (number >= GROUPS || member >= MEMBERS || message_volume_epoch(frame->body) != client->epoch)
        return;
    struct member_state *state = &client->members[member][number];
    if (kind == PAGE_ASK && member == client->reader)
        client->page_refused = true;
    if (kind == WRITE && now_ms() >= state->held) { /* until `held`, refusals of later records are ignored */
        restart_sending(state);
        wait_longer(state, now_ms(), WRITE_WAIT, LONGEST_WRITE_WAIT);
        state->held = state->due;
    }
    if (frame->status == VOLUME_STALE_VOLUME)
        client->fenced = true;
    if (frame->status == VOLUME_STALE_MEMBER && message_membership(frame->body) == client->groups[number].membership)
        client->refresh_wanted = true;
    if (frame->status == VOLUME_FULL)
        client->full = true;
}

/* Sends a Fence, and again only if the member has sent nothing for a while: a Report may be long on its way. */
static void serve_fence(struct group_state *group, struct member_state *state, struct peer *node, uint64_t now) {
    if (state->reported || now < state->due || group->fence.length == 0 || now < node->heard_at + state->wait)
        return;
    net_send(node, FRAME_MESSAGE, message_group(group->fence.at), 0, group->fence.at, group->fence.length);
    wait_longer(state, now, FIRST_WAIT, LONGEST_WAIT);
}

/* Sends the pieces of an Install as the socket takes them. A piece's first sending counts as progress. */
static void serve_install(struct client *client, struct group_state *group, struct member_state *state,
                          struct peer *node, uint64_t now) {
    if (state->piece == group->piece_count) {
        if (now < state->due)
            return;
        state->piece = 0;
    }
    while (state->piece < group->piece_count && net_waiting(node) < WAITING) {
        const struct buffer *piece = &group->pieces[state->piece++];
        net_send(node, FRAME_MESSAGE, message_group(piece->at), 0, piece->at, piece->length);
    }
    if (state->piece > state->most) {
        state->most = state->piece;
        client->progress = now;
    }
    if (state->piece == group->piece_count)
        wait_longer(state, now, FIRST_WAIT, LONGEST_WAIT);
}

/* Makes a record's Write again and sends it to one member. */
static void send_again(struct client *client, uint64_t lsn, struct peer *node) {
    bool good;
    if (volume_writer_resend(&client->handle, lsn) != VOLUME_OK)
        return;
    while (next_message(&client->handle, &client->message, &good))
        net_send(node, FRAME_MESSAGE, message_group(client->message.at), 0, client->message.at,
                 client->message.length);
    client->no_memory = client->no_memory || !good;
}

/* Sends a member the next records, up to its window. After a time without an answer, sends the first records again
 * that it lacks. */
static void serve_records(struct client *client, struct group_state *group, struct member_state *state,
                          struct peer *node, uint64_t now) {
    if (now < state->held)
        return;
    if (state->sent > state->acked && now >= state->due) {
        for (size_t i = state->acked; i < state->sent && i < state->acked + PROBE; i++)
            send_again(client, record_lsn(group, i), node);
        wait_longer(state, now, WRITE_WAIT, LONGEST_WRITE_WAIT);
    }
    while (state->sent < record_count(group) && state->sent - state->acked < state->window
           && net_waiting(node) < WAITING) {
        if (state->sent == state->acked)
            state->due = now + (state->wait ? state->wait : WRITE_WAIT);
        send_again(client, record_lsn(group, state->sent++), node);
    }
}

static void serve(struct client *client, int member, uint8_t number, uint64_t now) {
    struct group_state *group = &client->groups[number];
    struct member_state *state = &client->members[member][number];
    struct peer *node = client->nodes[member];
    if (client->stage == FENCING)
        serve_fence(group, state, node, now);
    else if (!state->installed && install_is_current(group))
        serve_install(client, group, state, node, now);
    else if (client->stage == OPEN)
        serve_records(client, group, state, node, now);
}

void serve_all(struct client *client) {
    uint64_t now = now_ms();
    if (client->stage == ASKING)
        return;
    for (int member = 0; member < MEMBERS; member++)
        if (client->nodes[member] && client->nodes[member]->fd >= 0)
            for (uint8_t group = 0; group < client->group_count; group++)
                serve(client, member, group, now);
}

bool all_have_all(const struct client *client) {
    for (int member = 0; member < MEMBERS; member++)
        for (uint32_t group = 0; group < client->group_count; group++) {
            const struct member_state *state = &client->members[member][group];
            if (client->nodes[member] && client->nodes[member]->fd >= 0 && state->installed
                && state->acked < record_count(&client->groups[group]))
                return false;
        }
    return true;
}

void free_groups(struct client *client) {
    for (int number = 0; number < GROUPS; number++) {
        struct group_state *group = &client->groups[number];
        for (size_t i = 0; i < group->piece_count; i++)
            buffer_free(&group->pieces[i]);
        free(group->pieces);
        buffer_free(&group->fence);
        buffer_free(&group->lsns);
    }
}
