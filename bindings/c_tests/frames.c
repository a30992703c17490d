/* Compares frames with single messages: two volumes of the same plan get the same messages, one of them in frames.
 * After each round the statuses, the answers, the segments and the writers' points must be the same.
 *
 *     frames PLAN RUNS
 *
 * PLAN is examples/member_replaced.json. */
#include "cluster.h"

enum { ROUNDS = 40, COPIES = 6, MOST_CHANGES = 12, KEPT = 64, ACK_HEAD = 12 };

struct world {
    struct volume_handle plan, writer, segments[COPIES];
};

static size_t frames, messages_in_frames, refused_in_frames, acks_saved;

static void open_world(struct world *world, const struct bytes *plan) {
    uint8_t line[100];
    size_t needed = 0;
    *world = (struct world){0};
    DO(volume_plan_read(plan->at, plan->length, &world->plan, line, sizeof line, &needed));
    DO(volume_writer_first(&world->plan, &world->writer));
    for (uint8_t member = 0; member < COPIES; member++)
        DO(volume_segment_new(&world->plan, 0, member, &world->segments[member]));
}

static void close_world(struct world *world) {
    for (int member = 0; member < COPIES; member++)
        volume_close(&world->segments[member]);
    volume_close(&world->writer);
    volume_close(&world->plan);
}

static void take_all_out(struct volume_handle *actor, struct messages *list) {
    struct bytes message;
    while (next_message(actor, &message)) {
        add_message(list, message.at, message.length);
        free_bytes(&message);
    }
}

/* Returns whether a message is an Ack like an earlier one, with the same segment and label and no smaller point. */
static bool says_no_less(const struct bytes *ack, const struct bytes *earlier) {
    if (ack->at[1] != ACK || earlier->at[1] != ACK || memcmp(ack->at, earlier->at, ACK_HEAD) != 0)
        return false;
    return memcmp(ack->at + ACK_HEAD, earlier->at + ACK_HEAD, ack->length - ACK_HEAD) >= 0;
}

/* Appends the answers to a message. The first one replaces the answer before it if it is an Ack that includes it. */
static void join(struct messages *joined, const struct messages *answers) {
    if (answers->count == 0)
        return;
    if (joined->count > 0 && says_no_less(&answers->at[0], &joined->at[joined->count - 1])) {
        free_bytes(&joined->at[--joined->count]);
        acks_saved++;
    }
    for (size_t i = 0; i < answers->count; i++)
        add_message(joined, answers->at[i].at, answers->at[i].length);
}

static void want_same(const struct messages *left, const struct messages *right) {
    WANT(left->count == right->count);
    for (size_t i = 0; i < left->count; i++)
        WANT(are_same(&left->at[i], &right->at[i]));
}

/* Takes the messages one by one. Adds each answer to `all`, and to `joined` the answers of frames between refusals. */
static void take_singly(struct volume_handle *segment, const struct messages *batch, uint8_t *statuses,
                        struct messages *all, struct messages *joined) {
    struct messages part = {0};
    for (size_t i = 0; i <= batch->count; i++) {
        struct messages answers = {0};
        statuses[i] = i < batch->count ? volume_segment_take(segment, batch->at[i].at, batch->at[i].length) : 0;
        if (i == batch->count || statuses[i] != VOLUME_OK) {
            for (size_t k = 0; k < part.count; k++)
                add_message(joined, part.at[k].at, part.at[k].length);
            free_messages(&part);
            continue;
        }
        take_all_out(segment, &answers);
        join(&part, &answers);
        for (size_t k = 0; k < answers.count; k++)
            add_message(all, answers.at[k].at, answers.at[k].length);
        free_messages(&answers);
    }
}

/* Takes the messages as a frame, and skips each that is refused. */
static void take_framed(struct volume_handle *segment, const struct messages *batch, const uint8_t *statuses,
                        struct messages *answers) {
    struct bytes frame = {0};
    size_t at = 0, number = 0;
    for (size_t i = 0; i < batch->count; i++)
        append_framed(&frame, &batch->at[i]);
    for (;;) {
        size_t taken = 77;
        uint8_t status = volume_segment_take_frame(segment, frame.at == NULL ? &statuses[0] : frame.at + at,
                                                   frame.length - at, &taken);
        frames++;
        while (number < batch->count && statuses[number] == VOLUME_OK) {
            WANT(taken >= 4 + batch->at[number].length);
            taken -= 4 + batch->at[number].length;
            at += 4 + batch->at[number++].length;
            messages_in_frames++;
        }
        WANT(taken == 0);
        WANT(status == (number < batch->count ? statuses[number] : VOLUME_OK));
        take_all_out(segment, answers);
        if (number == batch->count)
            break;
        at += 4 + batch->at[number++].length;
        refused_in_frames++;
    }
    free_bytes(&frame);
}

/* Issues the same transaction in both volumes, and adds its Writes to the list. */
static void issue(struct world *plain, struct world *framed, uint64_t *random, struct messages *writes) {
    struct volume_change changes[MOST_CHANGES];
    struct messages fresh = {0}, same = {0};
    size_t count = 1 + random_below(random, MOST_CHANGES);
    for (size_t i = 0; i < count; i++) {
        changes[i] = (struct volume_change){.block = (uint32_t)random_below(random, BLOCKS), .group = 0};
        changes[i].offset = (uint16_t)random_below(random, BLOCK - 64);
        changes[i].length = (uint8_t)(1 + random_below(random, 64));
        memset(changes[i].bytes, (int)random_below(random, 256), sizeof changes[i].bytes);
    }
    uint8_t status = volume_writer_issue(&plain->writer, changes, count);
    GIVES(status, volume_writer_issue(&framed->writer, changes, count));
    WANT(status == VOLUME_OK || status == VOLUME_LIMIT_REACHED);
    take_all_out(&plain->writer, &fresh);
    take_all_out(&framed->writer, &same);
    want_same(&fresh, &same);
    for (size_t i = 0; i < fresh.count; i++)
        add_message(writes, fresh.at[i].at, fresh.at[i].length);
    free_messages(&fresh);
    free_messages(&same);
}

/* Returns a message for a node: a Write, spoilt or not, a Gossip, a PageAsk or a CopyAsk. */
static struct bytes any_message(const struct messages *writes, uint64_t *random) {
    static const uint8_t ask[] = {1, PAGE_ASK, 0, 0, 0, 0, 1, 0, 0, 0, 1, 0, 0, 0, 1, 0, 0, 0, 0, 0, 0, 0, 0};
    static const uint8_t copy[] = {1, COPY_ASK, 0, 0, 0, 0, 1};
    const struct bytes *write = &writes->at[random_below(random, writes->count)];
    uint64_t which = random_below(random, 40);
    if (which == 0)
        return bytes_of(ask, sizeof ask);
    if (which == 1)
        return bytes_of(copy, sizeof copy);
    struct bytes message = bytes_of(write->at, write->length);
    if (which == 2)
        message.at[random_below(random, message.length)] ^= (uint8_t)(1 + random_below(random, 255));
    if (which == 3)
        message.length -= random_below(random, message.length);
    if (which == 4)
        message.at[1] = GOSSIP;
    return message;
}

static void want_same_segments(struct volume_handle *plain, struct volume_handle *framed) {
    struct volume_segment_state left = {0}, right = {0};
    uint64_t scl = 0;
    DO(volume_segment_state(plain, &left));
    DO(volume_segment_state(framed, &right));
    DO(volume_segment_scl(plain, &scl));
    WANT(memcmp(&left, &right, sizeof left) == 0);
    struct bytes saved = segment_snapshot(plain), other = segment_snapshot(framed);
    WANT(are_same(&saved, &other));
    /* docs/WIRE.md: volume epoch, place, whole; after the lineage's one entry the number of records */
    WANT(left.volume_epoch == number_at(saved.at + 2) && left.configuration == saved.at[6]);
    WANT(left.membership_epoch == number_at(saved.at + 7) && left.is_whole == saved.at[11]);
    WANT(left.complete_point == scl && number_at(saved.at + 20) == 1 && left.records == number_at(saved.at + 44));
    free_bytes(&saved);
    free_bytes(&other);
}

static void deliver(struct world *world, const struct messages *answers) {
    for (size_t i = 0; i < answers->count; i++)
        if (answers->at[i].at[1] == ACK)
            DO(volume_client_take(&world->writer, answers->at[i].at, answers->at[i].length));
}

static void member_takes(struct world *plain, struct world *framed, int member, const struct messages *writes,
                         uint64_t *random) {
    struct messages batch = {0}, all = {0}, joined = {0}, answers = {0};
    uint8_t statuses[KEPT + 1];
    for (uint64_t left = random_below(random, KEPT); left > 0; left--) {
        struct bytes message = any_message(writes, random);
        add_message(&batch, message.at, message.length);
        free_bytes(&message);
    }
    take_singly(&plain->segments[member], &batch, statuses, &all, &joined);
    take_framed(&framed->segments[member], &batch, statuses, &answers);
    want_same(&joined, &answers);
    want_same_segments(&plain->segments[member], &framed->segments[member]);
    deliver(plain, &all);
    deliver(framed, &answers);
    free_messages(&batch);
    free_messages(&all);
    free_messages(&joined);
    free_messages(&answers);
}

static void run(const struct bytes *plan, uint64_t seed) {
    struct world plain, framed;
    struct messages writes = {0};
    uint64_t random = seeded(seed);
    open_world(&plain, plan);
    open_world(&framed, plan);
    for (int round = 0; round < ROUNDS; round++) {
        struct volume_points left, right;
        issue(&plain, &framed, &random, &writes);
        if (writes.count == 0)
            continue;
        for (int member = 0; member < COPIES; member++)
            member_takes(&plain, &framed, member, &writes, &random);
        DO(volume_writer_points(&plain.writer, &left));
        DO(volume_writer_points(&framed.writer, &right));
        WANT(memcmp(&left, &right, sizeof left) == 0);
    }
    free_messages(&writes);
    close_world(&plain);
    close_world(&framed);
}

/* Tests a frame of five Writes whose third is spoilt, one that is cut off, an empty one, and handles that take none. */
static void by_hand(const struct bytes *plan) {
    struct world world;
    struct messages writes = {0}, answers = {0};
    struct volume_change changes[5];
    struct bytes frame = {0};
    size_t taken = 77;
    open_world(&world, plan);
    for (int i = 0; i < 5; i++)
        changes[i] = (struct volume_change){.length = 1, .bytes = {(uint8_t)(97 + i)}};
    DO(volume_writer_issue(&world.writer, changes, 5));
    take_all_out(&world.writer, &writes);
    WANT(writes.count == 5 && writes.at[2].length == 57);
    for (size_t i = 0; i < writes.count; i++)
        append_framed(&frame, &writes.at[i]);
    struct volume_handle *segment = &world.segments[0];
    DO(volume_segment_take_frame(segment, frame.at, 0, &taken));
    WANT(taken == 0);
    frame.at[2 * 61 + 5] = 77; /* not a kind of message */
    GIVES(VOLUME_BAD_FIELD, volume_segment_take_frame(segment, frame.at, frame.length, &taken));
    WANT(taken == 2 * 61);
    GIVES(VOLUME_UNSENT, volume_segment_take_frame(segment, frame.at + 3 * 61, 2 * 61, &taken));
    WANT(taken == 0);
    take_all_out(segment, &answers);
    WANT(answers.count == 1 && answers.at[0].at[1] == ACK && answers.at[0].at[19] == 2);
    DO(volume_segment_take_frame(segment, frame.at + 3 * 61, 2 * 61, &taken));
    WANT(taken == 2 * 61);
    take_all_out(segment, &answers);
    WANT(answers.count == 2 && answers.at[1].at[19] == 2);
    GIVES(VOLUME_SHORT, volume_segment_take_frame(&world.segments[1], frame.at, 2 * 61 - 1, &taken));
    WANT(taken == 61);
    take_all_out(&world.segments[1], &answers);
    GIVES(VOLUME_SHORT, volume_segment_take_frame(&world.segments[1], frame.at, 3, &taken));
    WANT(taken == 0);
    GIVES(VOLUME_WRONG_HANDLE, volume_segment_take_frame(&world.writer, frame.at, 61, &taken));
    WANT(taken == 0);
    free_bytes(&frame);
    free_messages(&writes);
    free_messages(&answers);
    close_world(&world);
}

int main(int count, char **words) {
    WANT(count == 3);
    struct bytes plan = read_file(words[1]);
    uint64_t runs = strtoull(words[2], NULL, 10);
    by_hand(&plan);
    for (uint64_t seed = 1; seed <= runs; seed++)
        run(&plan, seed);
    free_bytes(&plan);
    printf("frames: %llu runs, %zu frames with %zu messages and %zu refused ones, %zu Acks fewer\n",
           (unsigned long long)runs, frames, messages_in_frames, refused_in_frames, acks_saved);
    return 0;
}
