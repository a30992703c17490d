/* Every export once, the mistakes of C that the header promises to find, and the bytes of every kind of message.
 *
 *     exports PLAN GROWING
 *
 * PLAN is examples/member_replaced.json, GROWING is examples/growing.json. */
#include "cluster.h"
#include "layout.h"

enum { ACTS = 4000, SAMPLES = 6 };

/* A handle of each kind, and an empty one. */
enum holder { EMPTY, PLAN, SEGMENT, RECOVERY, WRITER, AUTHORITY, SNAPSHOT, HOLDERS };

static const uint8_t NO_VIEW[] = {1, VIEW, 0, 0, 0, 2, 0, 0, 0, 1, 0, 0, 0, 0, 1};
static const uint8_t NO_FENCE[] = {1, FENCE, 0, 0, 0, 0, 2, 0, 0, 0, 1};
static const uint8_t NO_SEGMENT[28] = {1, 129, 0, 0, 0, 1, 0, 0, 0, 0, 1, 1};
static const uint8_t NO_AUTHORITY[] = {1, 130, 0, 0, 0, 1, 0};

static struct volume_handle made; /* where the calls below put what they make */

static uint8_t call_next_message(struct volume_handle *handle) {
    uint8_t out[100];
    size_t needed;
    return volume_next_message(handle, out, sizeof out, &needed);
}

static uint8_t call_segment_new(struct volume_handle *handle) {
    return volume_segment_new(handle, 0, 0, &made);
}

static uint8_t call_segment_resume(struct volume_handle *handle) {
    return volume_segment_resume(handle, 0, 0, NO_SEGMENT, sizeof NO_SEGMENT, &made);
}

static uint8_t call_segment_take(struct volume_handle *handle) {
    return volume_segment_take(handle, NO_FENCE, sizeof NO_FENCE);
}

static uint8_t call_segment_offer(struct volume_handle *handle) {
    return volume_segment_offer(handle, 1);
}

static uint8_t call_segment_page(struct volume_handle *handle) {
    uint8_t page[BLOCK];
    return volume_segment_page(handle, 0, 0, page, sizeof page);
}

static uint8_t call_segment_scl(struct volume_handle *handle) {
    uint64_t scl = 77;
    uint8_t status = volume_segment_scl(handle, &scl);
    WANT(status == VOLUME_OK || scl == 77);
    return status;
}

static uint8_t call_segment_state(struct volume_handle *handle) {
    struct volume_segment_state state = {.complete_point = 77, .records = 77};
    uint8_t status = volume_segment_state(handle, &state);
    WANT(status == VOLUME_OK || (state.complete_point == 77 && state.records == 77));
    return status;
}

static uint8_t call_segment_take_frame(struct volume_handle *handle) {
    static const uint8_t frame[] = {0, 0, 0, sizeof NO_FENCE, 1, FENCE, 0, 0, 0, 0, 2, 0, 0, 0, 1};
    size_t taken = 77;
    uint8_t status = volume_segment_take_frame(handle, frame, sizeof frame, &taken);
    WANT(taken == (status == VOLUME_OK ? sizeof frame : 0));
    return status;
}

static uint8_t call_segment_snapshot(struct volume_handle *handle) {
    uint8_t status = volume_segment_snapshot(handle, &made);
    volume_close(&made);
    return status;
}

static uint8_t call_snapshot_read(struct volume_handle *handle) {
    uint8_t out[8];
    size_t written = 77;
    uint8_t status = volume_snapshot_read(handle, out, sizeof out, &written);
    WANT(written == (status == VOLUME_OK ? sizeof out : 0));
    return status;
}

static uint8_t call_writer_first(struct volume_handle *handle) {
    return volume_writer_first(handle, &made);
}

static uint8_t call_recovery_new(struct volume_handle *handle) {
    return volume_recovery_new(handle, NO_VIEW, sizeof NO_VIEW, &made);
}

static uint8_t call_client_take(struct volume_handle *handle) {
    return volume_client_take(handle, NO_VIEW, sizeof NO_VIEW);
}

static uint8_t call_writer_issue(struct volume_handle *handle) {
    const struct volume_change change = {.length = 1};
    return volume_writer_issue(handle, &change, 1);
}

static uint8_t call_writer_resend(struct volume_handle *handle) {
    return volume_writer_resend(handle, 1);
}

static uint8_t call_writer_read(struct volume_handle *handle) {
    return volume_writer_read(handle, 0, 0);
}

static uint8_t call_writer_points(struct volume_handle *handle) {
    struct volume_points points = {1, 2, 3, 4};
    uint8_t status = volume_writer_points(handle, &points);
    WANT(status == VOLUME_OK || (points.complete == 1 && points.durable == 2 && points.start == 3 && points.last == 4));
    return status;
}

static uint8_t call_writer_group_point(struct volume_handle *handle) {
    uint64_t point = 77;
    uint8_t status = volume_writer_group_point(handle, 0, &point);
    WANT(status == VOLUME_OK || point == 77);
    return status;
}

static uint8_t call_writer_acknowledged(struct volume_handle *handle) {
    bool acknowledged = true;
    uint8_t status = volume_writer_acknowledged(handle, 1, &acknowledged);
    WANT(status == VOLUME_OK || acknowledged);
    return status;
}

static uint8_t call_authority_new(struct volume_handle *handle) {
    return volume_authority_new(handle, &made);
}

static uint8_t call_authority_resume(struct volume_handle *handle) {
    return volume_authority_resume(handle, NO_AUTHORITY, sizeof NO_AUTHORITY, &made);
}

static uint8_t call_authority_advance(struct volume_handle *handle) {
    return volume_authority_advance(handle, 0, 1);
}

static uint8_t call_authority_may_advance(struct volume_handle *handle) {
    static const uint8_t whole[] = {0};
    struct volume_readiness readiness = {true, true};
    uint8_t status = volume_authority_may_advance(handle, 0, 1, whole, sizeof whole, &readiness);
    WANT(status == VOLUME_OK || (readiness.can_read && readiness.can_write));
    return status;
}

static uint8_t call_authority_refresh(struct volume_handle *handle) {
    return volume_authority_refresh(handle, 1);
}

static uint8_t call_authority_snapshot(struct volume_handle *handle) {
    uint8_t out[100];
    size_t needed;
    return volume_authority_snapshot(handle, out, sizeof out, &needed);
}

/* A call, and the kinds of handles that it is for, a bit each. */
struct call {
    const char *name;
    uint8_t (*call)(struct volume_handle *handle);
    unsigned takes;
};

#define OF(holder) (1u << (holder))
#define CLIENTS (OF(RECOVERY) | OF(WRITER))
#define ACTORS (OF(SEGMENT) | CLIENTS | OF(AUTHORITY))

static const struct call CALLS[] = {
    {"next_message", call_next_message, ACTORS | OF(PLAN) | OF(SNAPSHOT)},
    {"segment_new", call_segment_new, OF(PLAN)},
    {"segment_resume", call_segment_resume, OF(PLAN)},
    {"segment_take", call_segment_take, OF(SEGMENT)},
    {"segment_hydrate", volume_segment_hydrate, OF(SEGMENT)},
    {"segment_offer", call_segment_offer, OF(SEGMENT)},
    {"segment_page", call_segment_page, OF(SEGMENT)},
    {"segment_scl", call_segment_scl, OF(SEGMENT)},
    {"segment_state", call_segment_state, OF(SEGMENT)},
    {"segment_take_frame", call_segment_take_frame, OF(SEGMENT)},
    {"segment_snapshot", call_segment_snapshot, OF(SEGMENT)},
    {"snapshot_read", call_snapshot_read, OF(SNAPSHOT)},
    {"writer_first", call_writer_first, OF(PLAN)},
    {"recovery_new", call_recovery_new, OF(PLAN)},
    {"client_take", call_client_take, CLIENTS},
    {"recovery_cut", volume_recovery_cut, CLIENTS},
    {"recovery_open", volume_recovery_open, CLIENTS},
    {"writer_issue", call_writer_issue, CLIENTS},
    {"writer_resend", call_writer_resend, CLIENTS},
    {"writer_read", call_writer_read, CLIENTS},
    {"writer_points", call_writer_points, CLIENTS},
    {"writer_group_point", call_writer_group_point, CLIENTS},
    {"writer_acknowledged", call_writer_acknowledged, CLIENTS},
    {"authority_new", call_authority_new, OF(PLAN)},
    {"authority_resume", call_authority_resume, OF(PLAN)},
    {"authority_assign", volume_authority_assign, OF(AUTHORITY)},
    {"authority_advance", call_authority_advance, OF(AUTHORITY)},
    {"authority_may_advance", call_authority_may_advance, OF(AUTHORITY)},
    {"authority_refresh", call_authority_refresh, OF(AUTHORITY)},
    {"authority_grow", volume_authority_grow, OF(AUTHORITY)},
    {"authority_snapshot", call_authority_snapshot, OF(AUTHORITY)},
};

static void read_plan(const struct bytes *text, struct volume_handle *plan) {
    uint8_t line[100];
    size_t needed;
    DO(volume_plan_read(text->at, text->length, plan, line, sizeof line, &needed));
}

static void drop_messages(struct volume_handle *actor) {
    struct bytes message;
    while (next_message(actor, &message))
        free_bytes(&message);
}

/* Makes a handle of each kind, with no message to hand out. */
static void hold_all(const struct bytes *text, struct volume_handle handles[HOLDERS]) {
    memset(handles, 0, HOLDERS * sizeof *handles);
    read_plan(text, &handles[PLAN]);
    DO(volume_segment_new(&handles[PLAN], 0, 0, &handles[SEGMENT]));
    DO(volume_recovery_new(&handles[PLAN], NO_VIEW, sizeof NO_VIEW, &handles[RECOVERY]));
    drop_messages(&handles[RECOVERY]);
    DO(volume_writer_first(&handles[PLAN], &handles[WRITER]));
    DO(volume_authority_new(&handles[PLAN], &handles[AUTHORITY]));
    DO(volume_segment_snapshot(&handles[SEGMENT], &handles[SNAPSHOT]));
}

static void close_all(struct volume_handle handles[HOLDERS]) {
    for (int i = 0; i < HOLDERS; i++) {
        volume_close(&handles[i]);
        WANT(is_empty(&handles[i]));
        volume_close(&handles[i]);
        WANT(is_empty(&handles[i]));
    }
}

/* Each call with each handle that it isn't for: 90, and the handle is as it was. */
static void wrong_handles(const struct bytes *text) {
    struct volume_handle handles[HOLDERS];
    hold_all(text, handles);
    for (size_t i = 0; i < sizeof CALLS / sizeof *CALLS; i++) {
        for (int of = 0; of < HOLDERS; of++) {
            void *at = handles[of].at;
            bool live = handles[of].live;
            if ((CALLS[i].takes & OF(of)) != 0)
                continue;
            want_status(CALLS[i].call(&handles[of]), VOLUME_WRONG_HANDLE, __FILE__, __LINE__, CALLS[i].name);
            WANT(handles[of].live == live && (live ? handles[of].at != NULL : handles[of].at == at));
            WANT(is_empty(&made));
        }
    }
    close_all(handles);
}

/* Each call that makes something, into a handle that is full: 90, and both are as they were. */
static void full_handles(const struct bytes *text) {
    struct volume_handle handles[HOLDERS];
    uint8_t line[40];
    size_t needed;
    hold_all(text, handles);
    struct bytes before = segment_snapshot(&handles[SEGMENT]);
    made = handles[SEGMENT];
    for (size_t i = 0; i < sizeof CALLS / sizeof *CALLS; i++)
        if (CALLS[i].takes == OF(PLAN))
            want_status(CALLS[i].call(&handles[PLAN]), VOLUME_WRONG_HANDLE, __FILE__, __LINE__, CALLS[i].name);
    GIVES(VOLUME_WRONG_HANDLE, volume_plan_read(text->at, text->length, &made, line, sizeof line, &needed));
    handles[SEGMENT] = made;
    made = (struct volume_handle){0};
    struct bytes after = segment_snapshot(&handles[SEGMENT]);
    WANT(are_same(&before, &after));
    GIVES(VOLUME_WRONG_HANDLE, volume_segment_snapshot(&handles[SEGMENT], &handles[SNAPSHOT]));
    DO(call_snapshot_read(&handles[SNAPSHOT]));
    DO(volume_segment_new(&handles[PLAN], 0, 1, &made));
    volume_close(&made);
    free_bytes(&before);
    free_bytes(&after);
    close_all(handles);
}

/* Fills a buffer, and says whether a call left it so. */
static void fill(uint8_t *at, size_t length) {
    memset(at, 0xA5, length);
}

static bool is_filled(const uint8_t *at, size_t length) {
    for (size_t i = 0; i < length; i++)
        if (at[i] != 0xA5)
            return false;
    return true;
}

typedef uint8_t writes(struct volume_handle *actor, uint8_t *out, size_t length, size_t *needed);

/* A call into each buffer that is too small: 92 and the length that it needs, and nothing is written; then into one that
 * is just large enough. */
static void short_buffers(struct volume_handle *actor, writes *call) {
    uint8_t out[400];
    size_t needed = 0;
    GIVES(VOLUME_TOO_SMALL, call(actor, out, 0, &needed));
    size_t length = needed;
    WANT(length > 0 && length < sizeof out);
    for (size_t room = 0; room < length; room++) {
        fill(out, sizeof out);
        GIVES(VOLUME_TOO_SMALL, call(actor, out, room, &needed));
        WANT(needed == length && is_filled(out, sizeof out));
    }
    fill(out, sizeof out);
    DO(call(actor, out, length, &needed));
    WANT(needed == length && is_filled(out + length, sizeof out - length));
}

/* A message stays until a buffer takes it, and is handed out once. */
static void short_message_buffers(struct volume_handle *actor) {
    uint8_t out[200];
    size_t needed = 0;
    short_buffers(actor, volume_next_message);
    fill(out, sizeof out);
    GIVES(VOLUME_NO_MORE, volume_next_message(actor, out, sizeof out, &needed));
    WANT(needed == 0 && is_filled(out, sizeof out));
}

static void short_page_buffers(struct volume_handle *segment) {
    uint8_t page[BLOCK + 8];
    for (size_t room = 0; room < BLOCK; room++) {
        fill(page, sizeof page);
        GIVES(VOLUME_TOO_SMALL, volume_segment_page(segment, 0, 0, page, room));
        WANT(is_filled(page, sizeof page));
    }
    DO(volume_segment_page(segment, 0, 0, page, sizeof page));
    WANT(page[0] == 0 && page[BLOCK - 1] == 0 && is_filled(page + BLOCK, sizeof page - BLOCK));
    fill(page, sizeof page);
    GIVES(VOLUME_POINT_AHEAD, volume_segment_page(segment, 0, 1000, page, sizeof page));
    WANT(is_filled(page, sizeof page));
}

/* The line of a plan's fault: as much of it as there is room for. */
static void short_lines(void) {
    static const uint8_t text[] = "{\"format\":1}";
    static const char line[] = "input: 13 Malformed";
    struct volume_handle plan = {0};
    for (size_t room = 0; room <= sizeof line; room++) {
        uint8_t out[sizeof line + 8];
        size_t needed = 0, written = room < sizeof line - 1 ? room : sizeof line - 1;
        fill(out, sizeof out);
        GIVES(VOLUME_MALFORMED, volume_plan_read(text, sizeof text - 1, &plan, out, room, &needed));
        WANT(needed == sizeof line - 1 && is_empty(&plan));
        WANT(memcmp(out, line, written) == 0 && is_filled(out + written, sizeof out - written));
    }
}

/* The names of all numbers: nothing for those that no call returns. */
static void names(void) {
    static const struct { uint8_t number; const char *name; } known[] = {
        {VOLUME_SHORT, "Short"}, {VOLUME_NO_MEMORY, "NoMemory"}, {VOLUME_MALFORMED, "Malformed"},
        {VOLUME_NOT_ENOUGH, "NotEnough"}, {VOLUME_LSN_SPENT, "LsnSpent"}, {VOLUME_JOURNAL_FULL, "JournalFull"},
    };
    size_t named = 0;
    for (unsigned number = 0; number < 256; number++) {
        uint8_t out[40];
        size_t needed = 0;
        fill(out, sizeof out);
        DO(volume_fault_name((uint8_t)number, out, sizeof out, &needed));
        WANT(needed < sizeof out && is_filled(out + needed, sizeof out - needed));
        named += needed > 0;
        for (size_t i = 0; i < sizeof known / sizeof *known; i++)
            if (known[i].number == number)
                WANT(strlen(known[i].name) == needed && memcmp(out, known[i].name, needed) == 0);
        for (size_t room = 0; room < needed; room++) {
            size_t wanted = 0;
            GIVES(VOLUME_TOO_SMALL, volume_fault_name((uint8_t)number, out, room, &wanted));
            WANT(wanted == needed);
        }
    }
    printf("exports: %zu numbers have names\n", named);
}

/* Calls that would make messages while there are some: 91, and they stay. */
static void unsent(struct volume_handle handles[HOLDERS]) {
    static const uint8_t page_ask[] = {1, PAGE_ASK, 0, 0, 0, 0, 1, 0, 0, 0, 1, 0, 0, 0, 0, 0, 0, 0, 0, 0, 0, 0, 0};
    DO(call_writer_issue(&handles[WRITER]));
    GIVES(VOLUME_UNSENT, call_writer_issue(&handles[WRITER]));
    GIVES(VOLUME_UNSENT, call_writer_resend(&handles[WRITER]));
    GIVES(VOLUME_UNSENT, call_writer_read(&handles[WRITER]));
    GIVES(VOLUME_UNSENT, call_client_take(&handles[WRITER]));
    GIVES(VOLUME_UNSENT, call_segment_take(&handles[WRITER]));
    DO(call_writer_points(&handles[WRITER]));
    short_message_buffers(&handles[WRITER]);
    DO(volume_segment_take(&handles[SEGMENT], page_ask, sizeof page_ask));
    GIVES(VOLUME_UNSENT, call_segment_take(&handles[SEGMENT]));
    GIVES(VOLUME_UNSENT, call_segment_offer(&handles[SEGMENT]));
    GIVES(VOLUME_UNSENT, volume_segment_hydrate(&handles[SEGMENT]));
    GIVES(VOLUME_UNSENT, call_segment_snapshot(&handles[SEGMENT]));
    drop_messages(&handles[SEGMENT]);
    DO(volume_authority_assign(&handles[AUTHORITY]));
    GIVES(VOLUME_UNSENT, volume_authority_assign(&handles[AUTHORITY]));
    GIVES(VOLUME_UNSENT, call_authority_advance(&handles[AUTHORITY]));
    short_message_buffers(&handles[AUTHORITY]);
}

static void changes_of_bad_length(struct volume_handle *writer) {
    struct volume_change changes[33];
    struct volume_points before, after;
    memset(changes, 0, sizeof changes);
    for (size_t i = 0; i < 33; i++)
        changes[i].length = 1;
    DO(volume_writer_points(writer, &before));
    GIVES(VOLUME_BAD_TRANSACTION, volume_writer_issue(writer, changes, 0));
    GIVES(VOLUME_BAD_TRANSACTION, volume_writer_issue(writer, changes, 33));
    for (unsigned length = 0; length < 256; length = length == 0 ? 65 : length + 1) {
        changes[31].length = (uint8_t)length;
        GIVES(VOLUME_BAD_LENGTH, volume_writer_issue(writer, changes, 32));
    }
    changes[31] = (struct volume_change){.length = 64, .offset = BLOCK - 63};
    GIVES(VOLUME_BAD_TRANSACTION, volume_writer_issue(writer, changes, 32));
    DO(volume_writer_points(writer, &after));
    WANT(memcmp(&before, &after, sizeof before) == 0);
}

static void buffers(const struct bytes *text) {
    struct volume_handle handles[HOLDERS];
    hold_all(text, handles);
    changes_of_bad_length(&handles[WRITER]);
    unsent(handles);
    short_buffers(&handles[AUTHORITY], volume_authority_snapshot);
    short_page_buffers(&handles[SEGMENT]);
    GIVES(VOLUME_NOT_OPEN, call_writer_points(&handles[RECOVERY]));
    GIVES(VOLUME_NOT_READY, volume_recovery_cut(&handles[RECOVERY]));
    GIVES(VOLUME_ALREADY_DONE, volume_recovery_cut(&handles[WRITER]));
    GIVES(VOLUME_ALREADY_DONE, volume_recovery_open(&handles[WRITER]));
    close_all(handles);
}

/* A plan is closed, and the actors over it go on. A group joins. */
static void grown(const struct bytes *growing) {
    struct volume_handle handles[HOLDERS];
    hold_all(growing, handles);
    volume_close(&handles[PLAN]);
    DO(volume_authority_grow(&handles[AUTHORITY]));
    DO(volume_authority_grow(&handles[AUTHORITY]));
    GIVES(VOLUME_ALL_GROWN, volume_authority_grow(&handles[AUTHORITY]));
    DO(volume_authority_refresh(&handles[AUTHORITY], 1));
    struct bytes view;
    WANT(next_message(&handles[AUTHORITY], &view));
    DO(volume_client_take(&handles[WRITER], view.at, view.length));
    drop_messages(&handles[WRITER]);
    struct volume_change change = {.group = 1, .length = 1};
    GIVES(VOLUME_NOT_JOINED, volume_writer_issue(&handles[WRITER], &change, 1));
    free_bytes(&view);
    close_all(handles);
}

/* The message that an actor made of another. */
static struct bytes answer(struct volume_handle *segment, const struct bytes *message) {
    struct bytes made_of = {0};
    DO(volume_segment_take(segment, message->at, message->length));
    WANT(next_message(segment, &made_of));
    return made_of;
}

/* The fresh member takes the copies that it asks for. */
static void take_copies(struct volume_handle *fresh, struct volume_handle *whole, size_t count,
    const struct bytes *ask) {
    for (size_t i = 0; i < count; i++) {
        struct bytes copy = answer(&whole[i], ask);
        DO(volume_segment_take(fresh, copy.at, copy.length));
        free_bytes(&copy);
    }
}

/* An authority says what whole members allow after the step to the joint configuration: 3 of 0 to 5 or 3 of 0 to 4 and 6
 * read it, and 4 of each write it. 200 is no member's number. */
static void readiness_of_members(const struct bytes *text) {
    static const struct {
        uint8_t count, whole[4];
        bool can_read, can_write;
    } rows[] = {{0, {0}, false, false}, {2, {0, 1}, false, false}, {3, {0, 1, 6}, true, false},
        {4, {0, 1, 2, 3}, true, true}, {4, {0, 1, 2, 200}, true, false}, {4, {5, 5, 5, 5}, false, false}};
    struct volume_handle plan = {0}, authority = {0};
    struct volume_readiness readiness;
    read_plan(text, &plan);
    DO(volume_authority_new(&plan, &authority));
    for (size_t i = 0; i < sizeof rows / sizeof *rows; i++) {
        DO(volume_authority_may_advance(&authority, 0, 1, rows[i].whole, rows[i].count, &readiness));
        WANT(readiness.can_read == rows[i].can_read && readiness.can_write == rows[i].can_write);
    }
    GIVES(VOLUME_NOT_IN_PLAN, volume_authority_may_advance(&authority, 0, 2, rows[0].whole, 0, &readiness));
    GIVES(VOLUME_NO_GROUP, volume_authority_may_advance(&authority, 9, 1, rows[0].whole, 0, &readiness));
    volume_close(&authority);
    volume_close(&plan);
}

/* A resumed segment goes on counting the copies that it made: its snapshot is the one that it was resumed from. */
static void counted_copies(struct volume_handle *plan, struct volume_handle *segment, uint32_t copies) {
    struct volume_handle again = {0};
    struct bytes before = segment_snapshot(segment);
    WANT(number_at(before.at + 12) == 0 && number_at(before.at + 16) == copies);
    DO(volume_segment_resume(plan, 0, 0, before.at, before.length, &again));
    struct bytes after = segment_snapshot(&again);
    WANT(are_same(&before, &after));
    volume_close(&again);
    free_bytes(&before);
    free_bytes(&after);
}

/* A snapshot drops the copies that a fresh member took, and one that isn't made leaves them. */
static void copies_and_snapshots(const struct bytes *text) {
    struct volume_handle plan = {0}, authority = {0}, fresh = {0}, again = {0}, whole[3] = {{0}};
    struct bytes step;
    read_plan(text, &plan);
    DO(volume_authority_new(&plan, &authority));
    DO(volume_authority_advance(&authority, 0, 1));
    WANT(next_message(&authority, &step));
    DO(volume_segment_new(&plan, 0, FRESH, &fresh));
    struct bytes ask = answer(&fresh, &step);
    for (uint8_t member = 0; member < 3; member++) {
        DO(volume_segment_new(&plan, 0, member, &whole[member]));
        DO(volume_segment_take(&whole[member], step.at, step.length));
    }
    take_copies(&fresh, whole, 3, &ask);
    struct bytes snapshot = segment_snapshot(&fresh);
    DO(volume_segment_resume(&plan, 0, FRESH, snapshot.at, snapshot.length, &again));
    GIVES(VOLUME_NOT_ENOUGH, volume_segment_hydrate(&again));
    GIVES(VOLUME_NOT_ENOUGH, volume_segment_hydrate(&fresh));
    take_copies(&fresh, whole, 3, &ask);
    GIVES(VOLUME_WRONG_HANDLE, volume_segment_snapshot(&fresh, &again));
    DO(volume_segment_hydrate(&fresh));
    counted_copies(&plan, &whole[0], 2);
    struct volume_handle *const all[] = {&plan, &authority, &fresh, &again, &whole[0], &whole[1], &whole[2]};
    for (size_t i = 0; i < sizeof all / sizeof *all; i++)
        volume_close(all[i]);
    free_bytes(&step);
    free_bytes(&ask);
    free_bytes(&snapshot);
}

/* A writer's record that writes so many bytes is delivered to a segment. Its Ack is taken as that of four members. */
static void write_one(struct volume_handle *writer, struct volume_handle *segment, uint8_t length) {
    struct volume_change change = {.block = length, .length = length};
    struct bytes write;
    memset(change.bytes, length, length);
    DO(volume_writer_issue(writer, &change, 1));
    WANT(next_message(writer, &write));
    struct bytes ack = answer(segment, &write);
    for (uint8_t member = 0; member < 4; member++) {
        ack.at[11] = member;
        DO(volume_client_take(writer, ack.at, ack.length));
    }
    free_bytes(&write);
    free_bytes(&ack);
}

/* The bytes that a whole member's snapshot has after so many records of 1, 2, 3.. bytes: the fields before the lineage's
 * entries have 24, the one entry of the volume's birth 20, the number of records 4, a record 45 and what it writes. */
static size_t snapshot_length(size_t records) {
    return 24 + 20 + 4 + records * 45 + records * (records + 1) / 2;
}

/* A snapshot in pieces of any length is the snapshot at once, whatever the segment does meanwhile. */
static void pieces_of_a_snapshot(const struct bytes *text) {
    enum { RECORDS = 40, LONGEST = 45 + RECORDS };
    struct volume_handle handles[HOLDERS];
    uint8_t out[LONGEST];
    hold_all(text, handles);
    for (uint8_t length = 1; length <= RECORDS; length++)
        write_one(&handles[WRITER], &handles[SEGMENT], length);
    struct bytes whole = segment_snapshot(&handles[SEGMENT]);
    WANT(whole.length == snapshot_length(RECORDS));
    for (size_t room = LONGEST; room <= whole.length; room++) {
        size_t written = 0;
        volume_close(&handles[SNAPSHOT]);
        DO(volume_segment_snapshot(&handles[SEGMENT], &handles[SNAPSHOT]));
        fill(out, sizeof out);
        DO(volume_snapshot_read(&handles[SNAPSHOT], out, 1, &written));
        WANT(written == 1 && out[0] == whole.at[0] && is_filled(out + 1, sizeof out - 1));
        struct bytes rest = snapshot_bytes(&handles[SNAPSHOT], room);
        WANT(rest.length == whole.length - 1 && memcmp(rest.at, whole.at + 1, rest.length) == 0);
        free_bytes(&rest);
    }
    free_bytes(&whole);
    close_all(handles);
}

/* The first bytes of a snapshot were read: its segment goes on and is closed, and the others are the same. */
static void snapshot_stays(const struct bytes *text) {
    struct volume_handle handles[HOLDERS], again = {0};
    uint8_t out[300];
    size_t written = 0;
    hold_all(text, handles);
    for (uint8_t length = 1; length <= 3; length++)
        write_one(&handles[WRITER], &handles[SEGMENT], length);
    struct bytes before = segment_snapshot(&handles[SEGMENT]);
    volume_close(&handles[SNAPSHOT]);
    DO(volume_segment_snapshot(&handles[SEGMENT], &handles[SNAPSHOT]));
    DO(volume_snapshot_read(&handles[SNAPSHOT], out, 48, &written));
    WANT(written == 48);
    fill(out + 48, sizeof out - 48);
    GIVES(VOLUME_TOO_SMALL, volume_snapshot_read(&handles[SNAPSHOT], out + 48, 45, &written));
    GIVES(VOLUME_TOO_SMALL, volume_snapshot_read(&handles[SNAPSHOT], out + 48, 0, &written));
    WANT(written == 0 && is_filled(out + 48, sizeof out - 48));
    write_one(&handles[WRITER], &handles[SEGMENT], 4);
    struct bytes after = segment_snapshot(&handles[SEGMENT]);
    WANT(after.length == snapshot_length(4) && before.length == snapshot_length(3));
    volume_close(&handles[SEGMENT]);
    DO(volume_snapshot_read(&handles[SNAPSHOT], out + 48, sizeof out - 48, &written));
    WANT(48 + written == before.length && memcmp(out, before.at, before.length) == 0);
    WANT(is_filled(out + before.length, sizeof out - before.length));
    GIVES(VOLUME_NO_MORE, volume_snapshot_read(&handles[SNAPSHOT], out, sizeof out, &written));
    GIVES(VOLUME_NO_MORE, volume_snapshot_read(&handles[SNAPSHOT], out, 0, &written));
    DO(volume_segment_resume(&handles[PLAN], 0, 0, before.at, before.length, &again));
    struct bytes resumed = segment_snapshot(&again);
    WANT(are_same(&resumed, &before));
    volume_close(&again);
    free_bytes(&before);
    free_bytes(&after);
    free_bytes(&resumed);
    close_all(handles);
}

/* The first messages of each kind that a run makes. */
struct samples {
    struct messages of[KINDS];
};

static void sample(void *with, const struct bytes *message) {
    struct samples *samples = with;
    struct messages *list = &samples->of[message->at[1]];
    struct bytes again = rewritten(message);
    WANT(are_same(message, &again));
    free_bytes(&again);
    if (list->count < SAMPLES)
        add_message(list, message->at, message->length);
    else if (list->at[SAMPLES - 1].length < message->length) {
        free_bytes(&list->at[SAMPLES - 1]);
        list->at[SAMPLES - 1] = bytes_of(message->at, message->length);
    }
}

/* Bytes around those of a message: each has one spelling, and others are refused by the first fault. */
static void spelling(struct volume_handle *segment, const struct bytes *message) {
    static const uint8_t kinds[] = {0, KINDS, 129, 255};
    struct bytes longer = bytes_of(message->at, message->length);
    append(&longer, "", 1);
    for (size_t length = 0; length < message->length; length++)
        GIVES(VOLUME_SHORT, volume_segment_take(segment, message->at, length));
    GIVES(VOLUME_TRAILING, volume_segment_take(segment, longer.at, longer.length));
    for (unsigned version = 0; version < 256; version++) {
        longer.at[0] = (uint8_t)version;
        if (version != 1)
            GIVES(VOLUME_BAD_FIELD, volume_segment_take(segment, longer.at, message->length));
    }
    longer.at[0] = 1;
    for (size_t i = 0; i < sizeof kinds; i++) {
        longer.at[1] = kinds[i];
        GIVES(VOLUME_BAD_FIELD, volume_segment_take(segment, longer.at, message->length));
    }
    free_bytes(&longer);
}

/* A run that makes every kind of message: each is read and written again as docs/WIRE.md says. */
static void messages_of_a_run(const struct bytes *text) {
    struct samples samples = {0};
    struct cluster cluster;
    struct volume_handle segment = {0};
    size_t made_in_all = 0;
    cluster_birth(&cluster, text, 1);
    cluster.look = sample;
    cluster.with = &samples;
    for (int i = 0; i < ACTS; i++)
        cluster_act(&cluster);
    cluster_settle(&cluster);
    DO(volume_segment_new(&cluster.plan, 0, 0, &segment));
    struct bytes before = segment_snapshot(&segment);
    for (int kind = VIEW; kind < KINDS; kind++) {
        WANT(samples.of[kind].count > 0);
        made_in_all += cluster.made[kind];
        for (size_t i = 0; i < samples.of[kind].count; i++)
            spelling(&segment, &samples.of[kind].at[i]);
        free_messages(&samples.of[kind]);
    }
    struct bytes after = segment_snapshot(&segment);
    WANT(are_same(&before, &after));
    free_bytes(&before);
    free_bytes(&after);
    volume_close(&segment);
    cluster_close(&cluster);
    printf("exports: %zu messages of 12 kinds were read and written again\n", made_in_all);
}

int main(int count, char **words) {
    WANT(count == 3);
    struct bytes text = read_file(words[1]), growing = read_file(words[2]);
    wrong_handles(&text);
    full_handles(&text);
    buffers(&text);
    short_lines();
    names();
    grown(&growing);
    readiness_of_members(&text);
    copies_and_snapshots(&text);
    pieces_of_a_snapshot(&text);
    snapshot_stays(&text);
    messages_of_a_run(&text);
    free_bytes(&text);
    free_bytes(&growing);
    printf("exports: good\n");
    return 0;
}
