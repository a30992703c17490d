/* Passes spoilt messages and snapshots: each call must return a status, and a refusal must change nothing.
 *
 *     spoilt PLAN MESSAGES SNAPSHOTS
 *
 * PLAN is examples/member_replaced.json, MESSAGES and SNAPSHOTS are numbers of tries. Spoilt bytes that are taken must
 * still be a message or a snapshot by docs/WIRE.md; the test then makes the actor again. */
#include "cluster.h"
#include "layout.h"

enum { ACTS = 1500, POOL = 24, CHECKED = 500, TARGETS = 4 };

/* The last messages of each kind that a run made. */
struct pool {
    struct messages of[KINDS];
    size_t next[KINDS];
};

/* All messages with which a recovery becomes a writer, and the Installs that it makes from them. */
struct recovering {
    struct bytes view;
    struct messages reports, installs, acks;
};

struct spoiling {
    struct cluster cluster;
    struct pool pool;
    struct recovering recovering;
    struct volume_handle segments[2]; /* a whole segment, and one that isn't */
    struct bytes snapshots[2];
    struct volume_handle recovery, writer; /* a recovery that took one report, and the writer that it becomes */
    struct volume_points points;
    uint64_t random;
    size_t refused, taken;
};

static void put_in_pool(void *with, const struct bytes *message) {
    struct pool *pool = with;
    uint8_t kind = message->at[1];
    struct messages *list = &pool->of[kind];
    if (list->count < POOL) {
        add_message(list, message->at, message->length);
        return;
    }
    struct bytes *at = &list->at[pool->next[kind]++ % POOL];
    free_bytes(at);
    *at = bytes_of(message->at, message->length);
}

/* Replaces the bytes from `from` to `to` by others. */
static void splice(struct bytes *bytes, size_t from, size_t to, const uint8_t *at, size_t length) {
    struct bytes made = {memory(NULL, bytes->length - (to - from) + length), 0};
    memcpy(made.at, bytes->at, from);
    memcpy(made.at + from, at, length);
    memcpy(made.at + from + length, bytes->at + to, bytes->length - to);
    made.length = bytes->length - (to - from) + length;
    free_bytes(bytes);
    *bytes = made;
}

/* Spoils bytes in one place. */
static void spoil_once(struct bytes *bytes, uint64_t *random) {
    static const uint8_t huge[] = {255, 255, 255, 255};
    uint8_t noise[16];
    size_t at = random_below(random, bytes->length), length = 1 + random_below(random, sizeof noise);
    size_t to = at + length < bytes->length ? at + length : bytes->length;
    for (size_t i = 0; i < sizeof noise; i++)
        noise[i] = (uint8_t)random_below(random, 256);
    switch (random_below(random, 8)) {
    case 0:
        bytes->length = at > 0 ? at : 1;
        break;
    case 1:
        splice(bytes, bytes->length, bytes->length, noise, length);
        break;
    case 2:
        splice(bytes, at, to, noise, length);
        break;
    case 3:
        splice(bytes, at, to, noise, 0);
        break;
    case 4:
        splice(bytes, at, bytes->length - at < 4 ? bytes->length : at + 4, huge, sizeof huge);
        break;
    case 5:
        bytes->at[at] = noise[0] < 128 ? 0 : noise[0] % 4;
        break;
    default:
        bytes->at[at] ^= (uint8_t)(1 << noise[0] % 8);
    }
    if (bytes->length == 0)
        splice(bytes, 0, 0, noise, 1);
}

/* Returns a copy with one or a few spoilt places, which differs from the given bytes. */
static struct bytes spoilt(const struct bytes *given, uint64_t *random) {
    struct bytes made = bytes_of(given->at, given->length);
    size_t times = 1 + random_below(random, 3);
    for (size_t i = 0; i < times || are_same(&made, given); i++)
        spoil_once(&made, random);
    return made;
}

/* Takes all messages that an actor made, in order. */
static struct messages all_messages(struct volume_handle *actor) {
    struct messages list = {0};
    struct bytes message;
    while (next_message(actor, &message)) {
        add_message(&list, message.at, message.length);
        free_bytes(&message);
    }
    return list;
}

static void take_all(struct volume_handle *client, const struct messages *list) {
    for (size_t i = 0; i < list->count; i++)
        DO(volume_client_take(client, list->at[i].at, list->at[i].length));
}

/* Makes a recovery and passes it the first report. */
static void make_recovery(struct spoiling *spoiling, struct volume_handle *out) {
    struct recovering *of = &spoiling->recovering;
    volume_close(out);
    DO(volume_recovery_new(&spoiling->cluster.plan, of->view.at, of->view.length, out));
    struct messages fences = all_messages(out);
    free_messages(&fences);
    DO(volume_client_take(out, of->reports.at[0].at, of->reports.at[0].length));
}

/* Passes a recovery all reports, and cuts. Returns the Installs. */
static struct messages installs(struct spoiling *spoiling, struct volume_handle *recovery) {
    take_all(recovery, &spoiling->recovering.reports);
    DO(volume_recovery_cut(recovery));
    return all_messages(recovery);
}

/* Makes the writer that the recovery becomes. */
static void make_writer(struct spoiling *spoiling) {
    make_recovery(spoiling, &spoiling->writer);
    struct messages made = installs(spoiling, &spoiling->writer);
    free_messages(&made);
    take_all(&spoiling->writer, &spoiling->recovering.acks);
    DO(volume_recovery_open(&spoiling->writer));
    DO(volume_writer_points(&spoiling->writer, &spoiling->points));
}

static void resume_segment(struct spoiling *spoiling, int which) {
    uint8_t member = which == 0 ? 0 : FRESH;
    volume_close(&spoiling->segments[which]);
    DO(volume_segment_resume(&spoiling->cluster.plan, 0, member, spoiling->snapshots[which].at,
        spoiling->snapshots[which].length, &spoiling->segments[which]));
}

/* Passes a message to all nodes, and adds their answers to a list. */
static void answers_of_all(struct spoiling *spoiling, const struct bytes *message, struct messages *list) {
    for (uint8_t member = 0; member < MEMBERS; member++) {
        struct volume_handle *segment = &spoiling->cluster.nodes[member].segment;
        if (volume_segment_take(segment, message->at, message->length) != VOLUME_OK)
            continue;
        struct messages answers = all_messages(segment);
        for (size_t i = 0; i < answers.count; i++) {
            add_message(list, answers.at[i].at, answers.at[i].length);
            put_in_pool(&spoiling->pool, &answers.at[i]);
        }
        free_messages(&answers);
    }
}

/* Makes a recovery after the run, and keeps the messages that it takes and makes. */
static void recovery_after(struct spoiling *spoiling) {
    struct cluster *cluster = &spoiling->cluster;
    struct recovering *of = &spoiling->recovering;
    struct volume_handle first = {0};
    DO(volume_authority_assign(&cluster->authority));
    WANT(next_message(&cluster->authority, &of->view));
    put_in_pool(&spoiling->pool, &of->view);
    DO(volume_recovery_new(&cluster->plan, of->view.at, of->view.length, &first));
    struct messages fences = all_messages(&first);
    WANT(fences.count == 1);
    answers_of_all(spoiling, &fences.at[0], &of->reports);
    of->installs = installs(spoiling, &first);
    WANT(of->installs.count > 0);
    for (size_t i = 0; i < of->installs.count; i++) {
        put_in_pool(&spoiling->pool, &of->installs.at[i]);
        answers_of_all(spoiling, &of->installs.at[i], &of->acks);
    }
    free_messages(&fences);
    volume_close(&first);
    make_recovery(spoiling, &spoiling->recovery);
    make_writer(spoiling);
}

static void begin(struct spoiling *spoiling, const struct bytes *plan) {
    struct cluster *cluster = &spoiling->cluster;
    *spoiling = (struct spoiling){.random = seeded(5)};
    cluster_birth(cluster, plan, 3);
    spoiling->snapshots[1] = segment_snapshot(&cluster->nodes[FRESH].segment);
    cluster->look = put_in_pool;
    cluster->with = &spoiling->pool;
    for (int i = 0; i < ACTS; i++)
        cluster_act(cluster);
    cluster_settle(cluster);
    spoiling->snapshots[0] = segment_snapshot(&cluster->nodes[0].segment);
    for (int which = 0; which < 2; which++)
        resume_segment(spoiling, which);
    recovery_after(spoiling);
}

/* Returns the actor that takes the message: a segment, the writer or the recovery. */
static struct volume_handle *target_of(struct spoiling *spoiling, int target) {
    return target < 2 ? &spoiling->segments[target] : target == 2 ? &spoiling->writer : &spoiling->recovery;
}

/* Checks that a refused message didn't change the target. */
static void is_unchanged(struct spoiling *spoiling, int target) {
    struct volume_handle *actor = target_of(spoiling, target);
    struct bytes none;
    WANT(!next_message(actor, &none));
    if (target < 2) {
        struct bytes now = segment_snapshot(actor);
        WANT(are_same(&now, &spoiling->snapshots[target]));
        free_bytes(&now);
    } else if (target == 2) {
        struct volume_points points;
        uint64_t point = 0;
        bool acknowledged = false;
        DO(volume_writer_points(actor, &points));
        DO(volume_writer_group_point(actor, 0, &point));
        DO(volume_writer_acknowledged(actor, points.last, &acknowledged));
        WANT(memcmp(&points, &spoiling->points, sizeof points) == 0 && point == points.last && acknowledged);
        WANT(points.durable == points.last);
    } else {
        struct volume_points points;
        GIVES(VOLUME_NOT_OPEN, volume_writer_points(actor, &points));
    }
}

/* Makes the target again, as it was before it took a message. */
static void make_anew(struct spoiling *spoiling, int target) {
    if (target < 2)
        resume_segment(spoiling, target);
    else if (target == 2)
        make_writer(spoiling);
    else
        make_recovery(spoiling, &spoiling->recovery);
}

/* Checks that the recovery makes the same Installs as one that no spoilt message reached. */
static void go_on(struct spoiling *spoiling) {
    struct messages made = installs(spoiling, &spoiling->recovery);
    WANT(made.count == spoiling->recovering.installs.count);
    for (size_t i = 0; i < made.count; i++)
        WANT(are_same(&made.at[i], &spoiling->recovering.installs.at[i]));
    free_messages(&made);
    make_recovery(spoiling, &spoiling->recovery);
}

static uint8_t give(struct volume_handle *actor, int target, const struct bytes *message) {
    return target < 2 ? volume_segment_take(actor, message->at, message->length)
                      : volume_client_take(actor, message->at, message->length);
}

static void spoilt_message(struct spoiling *spoiling) {
    int target = (int)random_below(&spoiling->random, TARGETS);
    size_t kind = VIEW + random_below(&spoiling->random, KINDS - VIEW);
    struct messages *of = &spoiling->pool.of[kind];
    WANT(of->count > 0);
    struct bytes message = spoilt(&of->at[random_below(&spoiling->random, of->count)], &spoiling->random);
    struct bytes read = rewritten(&message);
    uint8_t status = give(target_of(spoiling, target), target, &message);
    WANT(read.at == NULL ? status >= VOLUME_SHORT && status <= VOLUME_TRAILING : are_same(&read, &message));
    if (status == VOLUME_OK) {
        spoiling->taken++;
        make_anew(spoiling, target);
    } else {
        spoiling->refused++;
        is_unchanged(spoiling, target);
    }
    free_bytes(&read);
    free_bytes(&message);
}

/* Resumes from spoilt bytes. If they are still a snapshot, the resumed actor must write the same bytes. */
static uint8_t spoilt_snapshot(struct spoiling *spoiling, uint8_t member) {
    struct cluster *cluster = &spoiling->cluster;
    struct volume_handle out = {0};
    struct bytes right = member < MEMBERS ? segment_snapshot(&cluster->nodes[member].segment)
                                          : authority_snapshot(&cluster->authority);
    struct bytes bytes = spoilt(&right, &spoiling->random), again = {0};
    uint8_t status = member < MEMBERS ? volume_segment_resume(&cluster->plan, 0, member, bytes.at, bytes.length, &out)
                                      : volume_authority_resume(&cluster->plan, bytes.at, bytes.length, &out);
    if (status == VOLUME_OK) {
        again = member < MEMBERS ? segment_snapshot(&out) : authority_snapshot(&out);
        WANT(are_same(&again, &bytes));
        volume_close(&out);
    }
    WANT(is_empty(&out));
    free_bytes(&again);
    free_bytes(&bytes);
    free_bytes(&right);
    return status;
}

/* An Install of two records, each given as its Write. */
static struct bytes install_of(const struct bytes *first, const struct bytes *second) {
    enum { HEAD = 11 };
    static const uint8_t piece[] = {0, 0, 0, 1, 0, 0, 0, 0, 0, 0, 0, 2}; /* 0 of 1, no entries, 2 records */
    struct bytes made = bytes_of(first->at, HEAD);
    made.at[1] = INSTALL;
    append(&made, piece, sizeof piece);
    append(&made, first->at + HEAD, first->length - HEAD);
    append(&made, second->at + HEAD, second->length - HEAD);
    return made;
}

/* The records of a message are in growing LSN, each once: of four Installs of two records one is taken. */
static void order_of_records(struct volume_handle *plan) {
    struct volume_handle writer = {0}, segment = {0};
    struct volume_change changes[2] = {{.length = 1}, {.length = 1}};
    DO(volume_writer_first(plan, &writer));
    DO(volume_segment_new(plan, 0, 0, &segment));
    DO(volume_writer_issue(&writer, changes, 2));
    struct messages writes = all_messages(&writer);
    WANT(writes.count == 2);
    for (int first = 0; first < 2; first++) {
        for (int second = 0; second < 2; second++) {
            struct bytes install = install_of(&writes.at[first], &writes.at[second]);
            GIVES(first < second ? VOLUME_OK : VOLUME_BAD_FIELD,
                volume_segment_take(&segment, install.at, install.length));
            struct messages answers = all_messages(&segment);
            free_messages(&answers);
            free_bytes(&install);
        }
    }
    free_messages(&writes);
    volume_close(&segment);
    volume_close(&writer);
}

static void end(struct spoiling *spoiling) {
    for (int kind = 0; kind < KINDS; kind++)
        free_messages(&spoiling->pool.of[kind]);
    for (int i = 0; i < 2; i++) {
        volume_close(&spoiling->segments[i]);
        free_bytes(&spoiling->snapshots[i]);
    }
    volume_close(&spoiling->recovery);
    volume_close(&spoiling->writer);
    free_bytes(&spoiling->recovering.view);
    free_messages(&spoiling->recovering.reports);
    free_messages(&spoiling->recovering.installs);
    free_messages(&spoiling->recovering.acks);
    cluster_close(&spoiling->cluster);
}

int main(int count, char **words) {
    struct spoiling spoiling;
    size_t resumed = 0;
    WANT(count == 4);
    struct bytes plan = read_file(words[1]);
    size_t messages = strtoull(words[2], NULL, 10), snapshots = strtoull(words[3], NULL, 10);
    begin(&spoiling, &plan);
    order_of_records(&spoiling.cluster.plan);
    for (size_t i = 0; i < messages; i++) {
        spoilt_message(&spoiling);
        if (i % CHECKED == 0)
            go_on(&spoiling);
    }
    go_on(&spoiling);
    for (size_t i = 0; i < snapshots; i++)
        resumed += spoilt_snapshot(&spoiling, (uint8_t)(i % (MEMBERS + 1))) == VOLUME_OK;
    end(&spoiling);
    free_bytes(&plan);
    printf("spoilt: %zu messages refused, %zu taken; ", spoiling.refused, spoiling.taken);
    printf("%zu snapshots refused, %zu taken\n", snapshots - resumed, resumed);
    return 0;
}
