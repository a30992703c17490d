/* An engine over the volume's library: six segments, a writer that fails, a recovery, and a member that is replaced.
 * Its transport, in memory, loses, repeats and reorders messages. Each node has its own disk, a snapshot and a log,
 * from which it is resumed. docs/EMBEDDING.md says which call comes when.
 *
 *     engine PLAN GROWING SEED
 *
 * PLAN is examples/member_replaced.json, GROWING is examples/growing.json. The last line is "engine: good".
 */
#include "volume.h"

#include <stdio.h>
#include <stdlib.h>
#include <string.h>

enum { VIEW = 1, STEP_TO, FENCE, REPORT, INSTALL, WRITE, GOSSIP, ACK, COPY_ASK, COPY_REPORT, PAGE_ASK, PAGE };
enum { MEMBERS = 7, BLOCKS = 4, BLOCK = 512 };

#define WANT(condition) \
    do { \
        if (!(condition)) { \
            printf("line %d: not so: %s\n", __LINE__, #condition); \
            exit(1); \
        } \
    } while (0)
#define DO(call) expect((call), 0, __LINE__, #call)

/* Bytes on the heap. */
struct bytes {
    uint8_t *at;
    size_t length;
};

/* A message on its way to a member, or to the client (255). */
struct letter {
    uint8_t to;
    struct bytes bytes;
};

struct letters {
    struct letter *at;
    size_t count, room;
};

/* A node: its segment and its disk. */
struct node {
    struct volume_handle segment;
    struct bytes snapshot;
    struct letters log;
};

static struct volume_handle plan, authority, client;
static struct node nodes[MEMBERS];
static struct letters wire; /* the messages on their way */
static struct letters kept; /* what the client sent, to be sent again */
static struct letters steps; /* the StepTo messages, which may be lost like any other */
static uint8_t pages[BLOCKS][BLOCK]; /* the bytes that the blocks must have at the durable point */
static uint32_t volume_epoch = 1;
static uint32_t acknowledged[MEMBERS]; /* the volume epoch of each member's last acknowledgement */
static struct bytes last_page;
static size_t lost, repeated, delivered, refused;
static uint64_t state;

static uint64_t next_random(void) {
    state ^= state << 13;
    state ^= state >> 7;
    state ^= state << 17;
    return state;
}

static void expect(uint8_t status, uint8_t wanted, int line, const char *call) {
    if (status != wanted) {
        uint8_t name[40];
        size_t length = 0;
        (void)volume_fault_name(status, name, sizeof name, &length);
        printf("line %d: %s: %d %.*s\n", line, call, status, (int)length, name);
        exit(1);
    }
}

static void *memory(void *old, size_t size) {
    void *made = realloc(old, size ? size : 1);
    WANT(made);
    return made;
}

static struct bytes copy_of(const uint8_t *at, size_t length) {
    struct bytes made = {memory(NULL, length), length};
    memcpy(made.at, at, length);
    return made;
}

static void add(struct letters *list, uint8_t to, const uint8_t *at, size_t length) {
    if (list->count == list->room) {
        list->room = 2 * list->room + 8;
        list->at = memory(list->at, list->room * sizeof *list->at);
    }
    list->at[list->count++] = (struct letter){to, copy_of(at, length)};
}

static void clear(struct letters *list) {
    for (size_t i = 0; i < list->count; i++)
        free(list->at[i].bytes.at);
    free(list->at);
    *list = (struct letters){0};
}

static uint32_t number_at(const uint8_t *at) {
    return (uint32_t)at[0] << 24 | (uint32_t)at[1] << 16 | (uint32_t)at[2] << 8 | at[3];
}

/* Puts a message on the wire. Reports, Acks and Pages go to the client of the present volume epoch, all others to each
 * member but the sender. */
static void post(const uint8_t *at, size_t length, uint8_t from) {
    switch (at[1]) {
    case REPORT:
    case ACK:
    case PAGE:
        if (number_at(at + 3) == volume_epoch)
            add(&wire, 255, at, length);
        return;
    case PAGE_ASK: /* sent to all: any member that is complete up to the point may answer */
    default:
        for (uint8_t member = 0; member < MEMBERS; member++)
            if (member != from)
                add(&wire, member, at, length);
    }
}

/* Sends all messages that an actor made. Keeps those of the client and the authority, to send them again. */
static void send_all(struct volume_handle *handle, uint8_t from) {
    for (;;) {
        size_t needed;
        uint8_t none[1];
        uint8_t status = volume_next_message(handle, none, 0, &needed);
        if (status == VOLUME_NO_MORE)
            return;
        expect(status, VOLUME_TOO_SMALL, __LINE__, "a message's length");
        uint8_t *at = memory(NULL, needed);
        DO(volume_next_message(handle, at, needed, &needed));
        if (from == 255)
            add(at[1] == STEP_TO ? &steps : &kept, 0, at, needed);
        post(at, needed, from);
        free(at);
    }
}

/* A snapshot goes to the disk piece by piece. */
static void save(struct node *node) {
    struct volume_handle snapshot = {0};
    uint8_t piece[512];
    size_t written;
    DO(volume_segment_snapshot(&node->segment, &snapshot));
    node->snapshot.length = 0;
    while (volume_snapshot_read(&snapshot, piece, sizeof piece, &written) == 0) {
        node->snapshot.at = memory(node->snapshot.at, node->snapshot.length + written);
        memcpy(node->snapshot.at + node->snapshot.length, piece, written);
        node->snapshot.length += written;
    }
    volume_close(&snapshot);
    clear(&node->log);
}

/* Returns the messages in one buffer, each after its length. */
static struct bytes frame_of(const struct letters *list) {
    struct bytes frame = {memory(NULL, 0), 0};
    for (size_t i = 0; i < list->count; i++) {
        const struct bytes *message = &list->at[i].bytes;
        const uint32_t n = (uint32_t)message->length;
        const uint8_t length[4] = {(uint8_t)(n >> 24), (uint8_t)(n >> 16), (uint8_t)(n >> 8), (uint8_t)n};
        frame.at = memory(frame.at, frame.length + 4 + n);
        memcpy(frame.at + frame.length, length, 4);
        memcpy(frame.at + frame.length + 4, message->at, n);
        frame.length += 4 + n;
    }
    return frame;
}

/* Restarts a node from its disk, and checks that its segment has the same state. */
static void crash(uint8_t member) {
    struct node *node = &nodes[member];
    struct volume_segment_state before = {0}, after = {0};
    struct bytes frame = frame_of(&node->log);
    size_t taken, needed;
    uint8_t answer[70000];
    DO(volume_segment_state(&node->segment, &before));
    volume_close(&node->segment);
    DO(volume_segment_resume(&plan, 0, member, node->snapshot.at, node->snapshot.length, &node->segment));
    DO(volume_segment_take_frame(&node->segment, frame.at, frame.length, &taken));
    WANT(taken == frame.length);
    while (volume_next_message(&node->segment, answer, sizeof answer, &needed) == 0) {
    }
    DO(volume_segment_state(&node->segment, &after));
    WANT(memcmp(&before, &after, sizeof before) == 0);
    free(frame.at);
}

/* Delivers a message. A node logs it before it sends its answers. */
static void deliver(const struct letter *letter) {
    uint8_t status;
    if (letter->to == 255) {
        status = volume_client_take(&client, letter->bytes.at, letter->bytes.length);
        if (status == 0 && letter->bytes.at[1] == PAGE) {
            free(last_page.at);
            last_page = copy_of(letter->bytes.at, letter->bytes.length);
        }
        if (status == 0 && letter->bytes.at[1] == ACK)
            acknowledged[letter->bytes.at[11]] = volume_epoch;
        if (status == 0)
            send_all(&client, 255);
    } else {
        struct node *node = &nodes[letter->to];
        status = volume_segment_take(&node->segment, letter->bytes.at, letter->bytes.length);
        if (status == 0) {
            add(&node->log, 0, letter->bytes.at, letter->bytes.length);
            send_all(&node->segment, letter->to);
        }
    }
    delivered += status == 0;
    refused += status != 0;
}

/* Delivers the messages on the wire in random order. One in eight is lost, and one in eight is repeated. */
static void pump(void) {
    while (wire.count > 0) {
        size_t i = next_random() % wire.count;
        struct letter letter = wire.at[i];
        uint64_t fate = next_random() % 8;
        if (fate == 0) {
            lost++;
        } else {
            deliver(&letter);
            repeated += fate == 1;
        }
        if (fate != 1) {
            /* `deliver` only appends to the list, so the message still has index i */
            wire.at[i] = wire.at[--wire.count];
            free(letter.bytes.at);
        }
    }
}

/* Sends again all that the client and the authority sent, as an engine does after a timeout. */
static void again(void) {
    for (size_t i = 0; i < steps.count; i++)
        post(steps.at[i].bytes.at, steps.at[i].bytes.length, 255);
    pump();
    for (size_t i = 0; i < kept.count; i++)
        post(kept.at[i].bytes.at, kept.at[i].bytes.length, 255);
    pump();
}

static struct volume_change change_of(uint32_t block, uint16_t offset, uint8_t value) {
    struct volume_change change = {.block = block, .offset = offset, .group = 0, .length = 1 + value % 3};
    memset(change.bytes, value, change.length);
    return change;
}

/* Returns the least complete point of all members. */
static uint64_t lowest_scl(void) {
    uint64_t lowest = UINT64_MAX;
    for (uint8_t member = 0; member < MEMBERS; member++) {
        uint64_t scl = 0;
        DO(volume_segment_scl(&nodes[member].segment, &scl));
        lowest = scl < lowest ? scl : lowest;
    }
    return lowest;
}

/* Sends again the records that some member lacks. */
static void fill_gaps(uint64_t last) {
    for (uint64_t lsn = lowest_scl() + 1; lsn <= last; lsn++)
        if (volume_writer_resend(&client, lsn) == 0)
            send_all(&client, 255);
}

/* Commits two changes, and waits until the commit is durable. */
static void commit(void) {
    struct volume_change changes[2];
    struct volume_points points;
    bool done = false;
    for (int i = 0; i < 2; i++) {
        changes[i] = change_of(next_random() % BLOCKS, next_random() % 500, next_random() % 256);
        memcpy(&pages[changes[i].block][changes[i].offset], changes[i].bytes, changes[i].length);
    }
    DO(volume_writer_issue(&client, changes, 2));
    send_all(&client, 255);
    DO(volume_writer_points(&client, &points));
    pump();
    for (int tries = 0; tries < 100; tries++) {
        DO(volume_writer_acknowledged(&client, points.last, &done));
        if (done)
            break;
        fill_gaps(points.last);
        again();
    }
    WANT(done);
    clear(&kept);
}

/* Reads a block through the writer, and from each segment that is complete up to the durable point. */
static void read_block(uint32_t block) {
    struct volume_points points;
    bool read = false;
    DO(volume_writer_points(&client, &points));
    free(last_page.at);
    last_page = (struct bytes){0};
    for (int tries = 0; tries < 100 && !last_page.at; tries++) {
        DO(volume_writer_read(&client, 0, block));
        send_all(&client, 255);
        pump();
        clear(&kept);
    }
    WANT(last_page.at && last_page.length == 24 + BLOCK);
    WANT(memcmp(last_page.at + 24, pages[block], BLOCK) == 0);
    for (uint8_t member = 0; member < 6; member++) {
        uint8_t page[BLOCK];
        uint8_t status = volume_segment_page(&nodes[member].segment, block, points.durable, page, sizeof page);
        WANT(status != 0 || memcmp(page, pages[block], BLOCK) == 0);
        read = read || status == 0;
    }
    WANT(read);
}

/* Each member that holds the record offers it to the others. */
static void gossip(uint64_t lsn) {
    for (uint8_t member = 0; member < MEMBERS; member++)
        if (volume_segment_offer(&nodes[member].segment, lsn) == 0)
            send_all(&nodes[member].segment, member);
    pump();
}

static void save_authority(uint8_t *disk, size_t *length) {
    DO(volume_authority_snapshot(&authority, disk, 40, length));
}

/* Hands a new View of the authority to the client. */
static void refresh(void) {
    size_t needed;
    uint8_t view[60];
    DO(volume_authority_refresh(&authority, volume_epoch));
    DO(volume_next_message(&authority, view, sizeof view, &needed));
    DO(volume_client_take(&client, view, needed));
    send_all(&client, 255);
    pump();
}

static void birth(void) {
    uint8_t disk[40];
    size_t length;
    for (uint8_t member = 0; member < MEMBERS; member++) {
        DO(volume_segment_new(&plan, 0, member, &nodes[member].segment));
        save(&nodes[member]);
    }
    DO(volume_authority_new(&plan, &authority));
    save_authority(disk, &length);
    volume_close(&authority);
    DO(volume_authority_resume(&plan, disk, length, &authority));
    DO(volume_writer_first(&plan, &client));
    printf("birth: seven segments, an authority of %zu bytes, a writer\n", length);
}

static void write_some(int commits) {
    struct volume_points points;
    uint64_t point = 0;
    for (int i = 0; i < commits; i++) {
        commit();
        if (i % 5 == 3)
            crash((uint8_t)(next_random() % 6));
        if (i % 7 == 6)
            save(&nodes[next_random() % 6]);
    }
    DO(volume_writer_points(&client, &points));
    DO(volume_writer_group_point(&client, 0, &point));
    WANT(points.durable == points.last && point == points.last && points.complete == points.last);
    gossip(points.last);
    for (uint32_t block = 0; block < BLOCKS; block++)
        read_block(block);
    printf("written: durable %llu, start %llu\n", (unsigned long long)points.durable, (unsigned long long)points.start);
}

/* The writer fails. A recovery finds what it acknowledged, and becomes the next writer. */
static void recover(void) {
    struct volume_points old, points;
    struct volume_change lone = change_of(0, 0, 1);
    uint8_t view[60], disk[40];
    size_t needed, length;
    DO(volume_writer_points(&client, &old));
    DO(volume_writer_issue(&client, &lone, 1)); /* its Write is never sent */
    volume_close(&client);
    clear(&kept);
    DO(volume_authority_assign(&authority));
    save_authority(disk, &length);
    DO(volume_next_message(&authority, view, sizeof view, &needed));
    volume_epoch = number_at(view + 2);
    DO(volume_recovery_new(&plan, view, needed, &client));
    WANT(volume_writer_points(&client, &points) == VOLUME_NOT_OPEN);
    send_all(&client, 255);
    WANT(volume_recovery_open(&client) == VOLUME_NOT_READY);
    pump();
    while (volume_recovery_cut(&client) == VOLUME_NOT_READY)
        again();
    clear(&kept);
    send_all(&client, 255);
    pump();
    while (volume_recovery_open(&client) == VOLUME_NOT_READY)
        again();
    DO(volume_writer_points(&client, &points));
    WANT(points.durable == old.durable && points.last == old.last && points.start > old.last);
    /* a write quorum has the log; the others get it too before another member fails or is replaced */
    for (uint8_t member = 0; member < 6; member++)
        while (acknowledged[member] < volume_epoch)
            again();
    clear(&kept);
    printf("recovered: volume epoch %u, durable %llu\n", (unsigned)volume_epoch, (unsigned long long)points.durable);
}

/* Returns whether the members that are whole satisfy the configuration's read expression. */
static bool may_advance(uint32_t configuration) {
    struct volume_readiness readiness;
    uint8_t whole[MEMBERS];
    size_t count = 0;
    for (uint8_t member = 0; member < MEMBERS; member++) {
        struct volume_segment_state found;
        DO(volume_segment_state(&nodes[member].segment, &found));
        if (found.is_whole)
            whole[count++] = member;
    }
    DO(volume_authority_may_advance(&authority, 0, configuration, whole, count, &readiness));
    return readiness.can_read;
}

/* Advances the group to a configuration, and tells the nodes and the writer. */
static void advance(uint32_t configuration) {
    uint8_t disk[40];
    size_t length;
    WANT(may_advance(configuration));
    DO(volume_authority_advance(&authority, 0, configuration));
    save_authority(disk, &length);
    send_all(&authority, 255);
    again();
    refresh();
}

/* Replaces member 5 by member 6, through a configuration that has both. */
static void replace(void) {
    uint8_t hydrated = VOLUME_NOT_ENOUGH;
    advance(1);
    commit();
    for (int tries = 0; tries < 100 && hydrated != 0; tries++) {
        /* the new member asks the other members for copies */
        static const uint8_t ask[] = {1, COPY_ASK, 0, 0, 0, 0, 2};
        post(ask, sizeof ask, 6);
        again();
        hydrated = volume_segment_hydrate(&nodes[6].segment);
    }
    expect(hydrated, 0, __LINE__, "member 6 becomes whole");
    save(&nodes[6]);
    WANT(volume_segment_hydrate(&nodes[6].segment) == VOLUME_ALREADY_WHOLE);
    crash(6);
    commit();
    advance(2);
    commit();
    for (uint32_t block = 0; block < BLOCKS; block++)
        read_block(block);
    printf("replaced: member 6 is whole, and stands in the place of member 5\n");
}

/* Makes mistakes that the library must refuse. */
static void mistakes(const uint8_t *text, size_t length) {
    struct volume_handle none = {0};
    struct volume_change much = {.length = 65};
    uint8_t line[100], page[BLOCK];
    uint64_t scl = 7;
    size_t needed;
    WANT(volume_plan_read(text, length / 2, &none, line, sizeof line, &needed) == VOLUME_MALFORMED && !none.live);
    printf("a plan that ends too early: %.*s\n", (int)needed, line);
    WANT(volume_plan_read(text, length, &plan, line, sizeof line, &needed) == VOLUME_WRONG_HANDLE);
    WANT(volume_segment_new(&plan, 0, 9, &none) == VOLUME_NO_ACTOR && !none.live);
    WANT(volume_segment_scl(&plan, &scl) == VOLUME_WRONG_HANDLE && scl == 7);
    WANT(volume_segment_scl(&none, &scl) == VOLUME_WRONG_HANDLE);
    WANT(volume_segment_take(&nodes[0].segment, line, 0) == VOLUME_SHORT);
    WANT(volume_segment_resume(&plan, 0, 0, line, 3, &none) == VOLUME_BAD_FIELD);
    WANT(volume_segment_page(&nodes[0].segment, 0, 1, page, BLOCK - 1) == VOLUME_TOO_SMALL);
    WANT(volume_writer_issue(&client, &much, 1) == VOLUME_BAD_LENGTH);
    WANT(volume_writer_issue(&client, &much, 0) == VOLUME_BAD_TRANSACTION);
    WANT(volume_writer_resend(&client, 1000) == VOLUME_NO_LOG_RECORD);
    WANT(volume_recovery_cut(&client) == VOLUME_ALREADY_DONE);
    WANT(volume_authority_grow(&authority) == VOLUME_ALL_GROWN);
    WANT(volume_authority_refresh(&authority, volume_epoch + 1) == VOLUME_SUPERSEDED);
    much.length = 1;
    DO(volume_writer_issue(&client, &much, 1));
    WANT(volume_writer_issue(&client, &much, 1) == VOLUME_UNSENT);
    send_all(&client, 255);
    pump();
    volume_close(&none);
}

static struct bytes read_file(const char *name) {
    FILE *file = fopen(name, "rb");
    struct bytes made = {memory(NULL, 1 << 16), 0};
    WANT(file);
    made.length = fread(made.at, 1, 1 << 16, file);
    fclose(file);
    return made;
}

/* A group joins while the volume has a writer. */
static void grow(const struct bytes *text) {
    struct volume_handle own = {0}, writer = {0}, grown = {0};
    uint8_t line[100], view[60];
    size_t needed;
    DO(volume_plan_read(text->at, text->length, &own, line, sizeof line, &needed));
    DO(volume_authority_new(&own, &grown));
    DO(volume_writer_first(&own, &writer));
    DO(volume_authority_grow(&grown));
    DO(volume_authority_refresh(&grown, 1));
    DO(volume_next_message(&grown, view, sizeof view, &needed));
    DO(volume_client_take(&writer, view, needed));
    DO(volume_next_message(&writer, line, sizeof line, &needed));
    WANT(line[1] == INSTALL && line[2] == 1);
    printf("grown: the writer installs group 1\n");
    volume_close(&own);
    volume_close(&writer);
    volume_close(&grown);
}

int main(int count, char **words) {
    uint8_t line[100];
    size_t needed;
    WANT(count == 4);
    struct bytes text = read_file(words[1]), growing = read_file(words[2]);
    state = 88172645463325252u + strtoull(words[3], NULL, 10);
    DO(volume_plan_read(text.at, text.length, &plan, line, sizeof line, &needed));
    birth();
    write_some(20);
    recover();
    write_some(20);
    replace();
    mistakes(text.at, text.length);
    grow(&growing);
    for (int member = 0; member < MEMBERS; member++) {
        volume_close(&nodes[member].segment);
        free(nodes[member].snapshot.at);
        clear(&nodes[member].log);
    }
    volume_close(&plan);
    volume_close(&authority);
    volume_close(&client);
    clear(&wire);
    clear(&kept);
    clear(&steps);
    free(last_page.at);
    free(text.at);
    free(growing.at);
    WANT(lost > 100 && repeated > 100 && delivered > 1000);
    printf("engine: good\n");
    return 0;
}
