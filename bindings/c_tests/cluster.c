#include "cluster.h"

enum { MOST_ON_THE_WIRE = 300, ROUNDS = 200, PATIENCE = 20 };

static uint64_t pick(struct cluster *cluster, uint64_t bound) {
    return random_below(&cluster->random, bound);
}

/* Adds a byte to the hash of the traffic (FNV-1a). */
static void note(struct cluster *cluster, uint8_t number) {
    cluster->traffic = (cluster->traffic ^ number) * 1099511628211u;
}

static void put_on_wire(struct cluster *cluster, uint8_t to, const struct bytes *message) {
    if (cluster->wire_count == cluster->wire_room) {
        cluster->wire_room = 2 * cluster->wire_room + 8;
        cluster->wire = memory(cluster->wire, cluster->wire_room * sizeof *cluster->wire);
    }
    cluster->wire[cluster->wire_count++] = (struct letter){to, bytes_of(message->at, message->length)};
}

/* Sends a message: a Report, Ack or Page to the client, all others to each member but the sender. */
static void post(struct cluster *cluster, const struct bytes *message, uint8_t from) {
    uint8_t kind = message->at[1];
    if (kind == REPORT || kind == ACK || kind == PAGE) {
        put_on_wire(cluster, CLIENT, message);
        return;
    }
    for (uint8_t member = 0; member < MEMBERS; member++)
        if (member != from)
            put_on_wire(cluster, member, message);
}

static void keep(struct cluster *cluster, const struct bytes *message) {
    uint8_t kind = message->at[1];
    if (kind == STEP_TO)
        add_message(&cluster->steps, message->at, message->length);
    if (kind == FENCE || kind == INSTALL)
        add_message(&cluster->kept, message->at, message->length);
}

/* Sends all messages that an actor made. */
static void send_all(struct cluster *cluster, struct volume_handle *actor, uint8_t from) {
    struct bytes message;
    while (next_message(actor, &message)) {
        WANT(message.length > 2 && message.at[1] < KINDS);
        cluster->made[message.at[1]]++;
        if (cluster->look)
            cluster->look(cluster->with, &message);
        keep(cluster, &message);
        post(cluster, &message, from);
        free_bytes(&message);
    }
}

void cluster_save(struct cluster *cluster, uint8_t member) {
    struct node *node = &cluster->nodes[member];
    free_bytes(&node->snapshot);
    node->snapshot = segment_snapshot(&node->segment);
    free_messages(&node->log);
}

/* Returns the bytes that represent a node's state: its snapshot or, if it has copies, which a snapshot drops, its
 * complete point. */
static struct bytes state_of(struct node *node) {
    struct bytes state = {0};
    uint64_t scl = 0;
    if (!node->has_copies)
        return segment_snapshot(&node->segment);
    DO(volume_segment_scl(&node->segment, &scl));
    append(&state, &scl, sizeof scl);
    return state;
}

/* Replays a node's log message by message. */
static void replay_singly(struct node *node) {
    struct bytes answer;
    for (size_t i = 0; i < node->log.count; i++) {
        DO(volume_segment_take(&node->segment, node->log.at[i].at, node->log.at[i].length));
        while (next_message(&node->segment, &answer))
            free_bytes(&answer);
    }
}

/* Replays a node's log as a frame. */
static void replay_framed(struct node *node) {
    struct bytes answer, frame = {0};
    size_t taken = 0;
    for (size_t i = 0; i < node->log.count; i++)
        append_framed(&frame, &node->log.at[i]);
    if (frame.length > 0)
        DO(volume_segment_take_frame(&node->segment, frame.at, frame.length, &taken));
    WANT(taken == frame.length);
    while (next_message(&node->segment, &answer))
        free_bytes(&answer);
    free_bytes(&frame);
}

void cluster_resume(struct cluster *cluster, uint8_t member) {
    struct node *node = &cluster->nodes[member];
    struct bytes before = state_of(node), after;
    volume_close(&node->segment);
    DO(volume_segment_resume(&cluster->plan, 0, member, node->snapshot.at, node->snapshot.length, &node->segment));
    if (member % 2 == 0)
        replay_framed(node);
    else
        replay_singly(node);
    after = state_of(node);
    WANT(are_same(&before, &after));
    free_bytes(&before);
    free_bytes(&after);
}

/* Passes a node a message. The node logs it before its answers are sent. */
static uint8_t node_takes(struct cluster *cluster, uint8_t member, const struct bytes *message) {
    struct node *node = &cluster->nodes[member];
    uint8_t status = volume_segment_take(&node->segment, message->at, message->length);
    if (status == VOLUME_OK) {
        add_message(&node->log, message->at, message->length);
        node->has_copies = node->has_copies || message->at[1] == COPY_REPORT;
        send_all(cluster, &node->segment, member);
    }
    return status;
}

static uint8_t client_takes(struct cluster *cluster, const struct bytes *message) {
    uint8_t status = volume_client_take(&cluster->client, message->at, message->length);
    if (status == VOLUME_OK)
        send_all(cluster, &cluster->client, CLIENT);
    return status;
}

static void deliver(struct cluster *cluster, const struct letter *letter) {
    const struct bytes *message = &letter->message;
    uint8_t status = letter->to == CLIENT ? client_takes(cluster, message) : node_takes(cluster, letter->to, message);
    note(cluster, letter->to);
    note(cluster, status);
    for (size_t i = 0; i < message->length; i++)
        note(cluster, message->at[i]);
}

/* Removes a letter from the wire and returns it. */
static struct letter taken_off(struct cluster *cluster, size_t i) {
    struct letter letter = cluster->wire[i];
    cluster->wire[i] = cluster->wire[--cluster->wire_count];
    return letter;
}

/* Delivers a random message. One in eight is lost instead, and one in eight is sent again. */
static void deliver_any(struct cluster *cluster) {
    if (cluster->wire_count == 0)
        return;
    struct letter letter = taken_off(cluster, pick(cluster, cluster->wire_count));
    uint64_t fate = pick(cluster, 8);
    if (fate != 0)
        deliver(cluster, &letter);
    if (fate == 1)
        put_on_wire(cluster, letter.to, &letter.message);
    free_bytes(&letter.message);
}

/* Delivers all messages in random order, without loss. */
static void deliver_all(struct cluster *cluster) {
    while (cluster->wire_count > 0) {
        struct letter letter = taken_off(cluster, pick(cluster, cluster->wire_count));
        deliver(cluster, &letter);
        free_bytes(&letter.message);
    }
}

static void lose_some(struct cluster *cluster) {
    while (cluster->wire_count > MOST_ON_THE_WIRE) {
        struct letter letter = taken_off(cluster, pick(cluster, cluster->wire_count));
        free_bytes(&letter.message);
    }
}

/* Sends the kept messages of the client and the authority again. */
static void send_again(struct cluster *cluster) {
    for (size_t i = 0; i < cluster->steps.count; i++)
        post(cluster, &cluster->steps.at[i], CLIENT);
    for (size_t i = 0; i < cluster->kept.count; i++)
        post(cluster, &cluster->kept.at[i], CLIENT);
}

static void issue(struct cluster *cluster) {
    struct volume_change changes[3];
    size_t count = 1 + pick(cluster, 3);
    for (size_t i = 0; i < count; i++) {
        changes[i] = (struct volume_change){.block = (uint32_t)pick(cluster, BLOCKS), .group = 0};
        changes[i].offset = (uint16_t)pick(cluster, BLOCK - 64);
        changes[i].length = (uint8_t)(1 + pick(cluster, 64));
        memset(changes[i].bytes, (int)pick(cluster, 256), sizeof changes[i].bytes);
    }
    uint8_t status = volume_writer_issue(&cluster->client, changes, count);
    note(cluster, status);
    WANT(status == (cluster->writes ? VOLUME_OK : VOLUME_NOT_OPEN) || status == VOLUME_LIMIT_REACHED);
    send_all(cluster, &cluster->client, CLIENT);
}

static void resend(struct cluster *cluster) {
    struct volume_points points;
    if (volume_writer_points(&cluster->client, &points) != VOLUME_OK || points.last == 0)
        return;
    uint64_t back = pick(cluster, 12);
    note(cluster, volume_writer_resend(&cluster->client, points.last > back ? points.last - back : 1));
    send_all(cluster, &cluster->client, CLIENT);
}

static void offer(struct cluster *cluster) {
    uint8_t member = (uint8_t)pick(cluster, MEMBERS);
    uint64_t scl = 0;
    DO(volume_segment_scl(&cluster->nodes[member].segment, &scl));
    note(cluster, volume_segment_offer(&cluster->nodes[member].segment, 1 + pick(cluster, scl + 3)));
    send_all(cluster, &cluster->nodes[member].segment, member);
}

static void read_block(struct cluster *cluster) {
    note(cluster, volume_writer_read(&cluster->client, 0, (uint32_t)pick(cluster, BLOCKS)));
    send_all(cluster, &cluster->client, CLIENT);
}

/* Takes the authority's message, and restarts the authority from a snapshot. */
static void resume_authority(struct cluster *cluster, struct bytes *made) {
    struct bytes disk = authority_snapshot(&cluster->authority);
    WANT(next_message(&cluster->authority, made));
    cluster->made[made->at[1]]++;
    if (cluster->look)
        cluster->look(cluster->with, made);
    volume_close(&cluster->authority);
    DO(volume_authority_resume(&cluster->plan, disk.at, disk.length, &cluster->authority));
    free_bytes(&disk);
}

/* Replaces the client by a recovery of a new volume epoch. */
static void fail_client(struct cluster *cluster) {
    struct bytes view;
    volume_close(&cluster->client);
    free_messages(&cluster->kept);
    DO(volume_authority_assign(&cluster->authority));
    resume_authority(cluster, &view);
    cluster->volume_epoch = number_at(view.at + 2);
    cluster->writes = false;
    DO(volume_recovery_new(&cluster->plan, view.at, view.length, &cluster->client));
    send_all(cluster, &cluster->client, CLIENT);
    free_bytes(&view);
}

/* Cuts and opens the recovery, if it is ready. */
static void go_on(struct cluster *cluster) {
    uint8_t cut = volume_recovery_cut(&cluster->client);
    note(cluster, cut);
    if (cut == VOLUME_OK) {
        free_messages(&cluster->kept);
        send_all(cluster, &cluster->client, CLIENT);
    }
    uint8_t opened = volume_recovery_open(&cluster->client);
    note(cluster, opened);
    cluster->writes = cluster->writes || opened == VOLUME_OK;
}

/* Hands a new View of the authority to the client. */
static void refresh(struct cluster *cluster) {
    struct bytes view;
    DO(volume_authority_refresh(&cluster->authority, cluster->volume_epoch));
    WANT(next_message(&cluster->authority, &view));
    cluster->made[VIEW]++;
    note(cluster, client_takes(cluster, &view));
    free_bytes(&view);
}

static void advance(struct cluster *cluster) {
    struct bytes step;
    uint8_t to = cluster->configuration == 0 ? 1 : (uint8_t)(2 + pick(cluster, 2));
    if (cluster->configuration > 1)
        return;
    DO(volume_authority_advance(&cluster->authority, 0, to));
    cluster->configuration = to;
    resume_authority(cluster, &step);
    keep(cluster, &step);
    post(cluster, &step, CLIENT);
    free_bytes(&step);
}

/* Makes the fresh member whole if it has enough copies, or else asks the others for copies. */
static void make_whole(struct cluster *cluster) {
    struct node *node = &cluster->nodes[FRESH];
    uint8_t epoch = cluster->configuration > 1 ? 3 : (uint8_t)(1 + cluster->configuration);
    const uint8_t text[] = {1, COPY_ASK, 0, 0, 0, 0, epoch};
    struct bytes ask = bytes_of(text, sizeof text);
    uint8_t status = volume_segment_hydrate(&node->segment);
    note(cluster, status);
    if (status == VOLUME_OK) {
        node->has_copies = false;
        cluster_save(cluster, FRESH);
    } else if (status != VOLUME_ALREADY_WHOLE) {
        post(cluster, &ask, FRESH);
    }
    free_bytes(&ask);
}

/* Delivers some messages. */
static void deliver_some(struct cluster *cluster) {
    for (uint64_t left = 1 + pick(cluster, 12); left > 0; left--)
        deliver_any(cluster);
}

void cluster_act(struct cluster *cluster) {
    uint64_t which = pick(cluster, 200);
    if (which < 110)
        deliver_some(cluster);
    else if (which < 140)
        issue(cluster);
    else if (which < 152)
        resend(cluster);
    else if (which < 160)
        offer(cluster);
    else if (which < 166)
        read_block(cluster);
    else if (which < 178)
        go_on(cluster);
    else if (which < 186)
        send_again(cluster);
    else if (which < 192)
        refresh(cluster);
    else if (which < 196)
        make_whole(cluster);
    else if (which < 197)
        advance(cluster);
    else if (which < 198 && (cluster->writes || pick(cluster, 4) == 0))
        fail_client(cluster);
    lose_some(cluster);
}

/* Returns whether a member is in the group's present configuration. */
static bool is_member(const struct cluster *cluster, uint8_t member) {
    static const uint8_t absent[] = {FRESH, MEMBERS, FRESH - 1, FRESH};
    return member != absent[cluster->configuration];
}

/* Returns the least SCL of the group's members. */
static uint64_t lowest_scl(struct cluster *cluster) {
    uint64_t lowest = UINT64_MAX;
    for (uint8_t member = 0; member < MEMBERS; member++) {
        uint64_t scl = 0;
        DO(volume_segment_scl(&cluster->nodes[member].segment, &scl));
        if (is_member(cluster, member) && scl < lowest)
            lowest = scl;
    }
    return lowest;
}

/* Returns whether all records are acknowledged, each member has all, and the wire is empty. Resends the records that
 * some member lacks. */
static bool is_settled(struct cluster *cluster) {
    struct volume_points points;
    uint64_t lowest = lowest_scl(cluster);
    if (volume_writer_points(&cluster->client, &points) != VOLUME_OK)
        return false;
    for (uint64_t lsn = lowest + 1; lsn <= points.last; lsn++)
        if (volume_writer_resend(&cluster->client, lsn) == VOLUME_OK)
            send_all(cluster, &cluster->client, CLIENT);
    return points.durable == points.last && lowest == points.last && cluster->wire_count == 0;
}

void cluster_settle(struct cluster *cluster) {
    for (int round = 0; round < ROUNDS; round++) {
        deliver_all(cluster);
        if (is_settled(cluster))
            return;
        send_again(cluster);
        deliver_all(cluster);
        refresh(cluster);
        make_whole(cluster);
        go_on(cluster);
        /* a member that took a step before the Install takes only the Install of a later recovery */
        if (round % PATIENCE == PATIENCE - 1)
            fail_client(cluster);
    }
    WANT(!"settled");
}

struct bytes cluster_end(struct cluster *cluster) {
    struct bytes end = {0};
    struct volume_points points;
    DO(volume_writer_points(&cluster->client, &points));
    append(&end, &points, sizeof points);
    append(&end, &cluster->traffic, sizeof cluster->traffic);
    for (uint8_t member = 0; member < MEMBERS; member++) {
        struct volume_handle *segment = &cluster->nodes[member].segment;
        struct bytes snapshot = segment_snapshot(segment);
        uint8_t page[BLOCK];
        uint64_t scl = 0;
        DO(volume_segment_scl(segment, &scl));
        append(&end, &scl, sizeof scl);
        append(&end, snapshot.at, snapshot.length);
        free_bytes(&snapshot);
        for (uint32_t block = 0; block < BLOCKS; block++) {
            uint8_t status = volume_segment_page(segment, block, points.durable, page, sizeof page);
            append(&end, &status, sizeof status);
            if (status == VOLUME_OK)
                append(&end, page, sizeof page);
        }
    }
    return end;
}

void cluster_birth(struct cluster *cluster, const struct bytes *plan, uint64_t seed) {
    uint8_t line[100];
    size_t needed = 0;
    *cluster = (struct cluster){.random = seeded(seed), .volume_epoch = 1, .writes = true};
    cluster->traffic = 14695981039346656037u;
    DO(volume_plan_read(plan->at, plan->length, &cluster->plan, line, sizeof line, &needed));
    DO(volume_authority_new(&cluster->plan, &cluster->authority));
    DO(volume_writer_first(&cluster->plan, &cluster->client));
    for (uint8_t member = 0; member < MEMBERS; member++) {
        DO(volume_segment_new(&cluster->plan, 0, member, &cluster->nodes[member].segment));
        cluster_save(cluster, member);
    }
}

void cluster_close(struct cluster *cluster) {
    for (uint8_t member = 0; member < MEMBERS; member++) {
        volume_close(&cluster->nodes[member].segment);
        free_bytes(&cluster->nodes[member].snapshot);
        free_messages(&cluster->nodes[member].log);
    }
    for (size_t i = 0; i < cluster->wire_count; i++)
        free_bytes(&cluster->wire[i].message);
    free(cluster->wire);
    free_messages(&cluster->kept);
    free_messages(&cluster->steps);
    volume_close(&cluster->plan);
    volume_close(&cluster->authority);
    volume_close(&cluster->client);
    *cluster = (struct cluster){0};
}
