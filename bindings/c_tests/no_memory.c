/* Memory that runs out: in a run each growth of memory in each call is refused in turn. The call returns 9 and changes
 * nothing, and is made again; so the run must end as without.
 *
 *     no_memory PLAN RUNS
 *
 * PLAN is examples/member_replaced.json. The linker wraps malloc, realloc and the calls below (`-Wl,--wrap=NAME`). */
#include "cluster.h"

enum { ACTS = 250 };

static bool is_refusing;  /* whether calls are made with refusals */
static long growths_left; /* until one is refused, where it is above 0 */
static bool was_refused;  /* whether one was */
static size_t refusals;

/* Whether this growth is the one that is refused. */
static bool refuses(void) {
    if (growths_left == 0 || --growths_left > 0)
        return false;
    was_refused = true;
    return true;
}

void *__real_malloc(size_t size);
void *__wrap_malloc(size_t size);
void *__real_realloc(void *old, size_t size);
void *__wrap_realloc(void *old, size_t size);

void *__wrap_malloc(size_t size) {
    return refuses() ? NULL : __real_malloc(size);
}

void *__wrap_realloc(void *old, size_t size) {
    return refuses() ? NULL : __real_realloc(old, size);
}

static void begin_refusing(long growth) {
    growths_left = is_refusing ? growth : 0;
    was_refused = false;
}

/* Whether a growth was refused since. */
static bool has_refused(void) {
    growths_left = 0;
    refusals += was_refused;
    return was_refused;
}

/* Makes a call with the first growth refused, then with the second one, until none is left to refuse. */
#define REFUSING(call, is_unchanged) \
    do { \
        for (long growth = 1;; growth++) { \
            begin_refusing(growth); \
            uint8_t status = (call); \
            if (!has_refused()) \
                return status; \
            GIVES(VOLUME_NO_MEMORY, status); \
            WANT(is_unchanged); \
        } \
    } while (0)

/* Declares a call of the library and what is linked in its place. */
#define WRAPPED(name, parameters) \
    uint8_t __real_##name parameters; \
    uint8_t __wrap_##name parameters; \
    uint8_t __wrap_##name parameters

/* A segment's complete point. A snapshot would say more, but it drops the pieces that are under way. */
static uint64_t scl_of(struct volume_handle *segment) {
    uint64_t scl = 0;
    DO(volume_segment_scl(segment, &scl));
    return scl;
}

/* The reading of a plan does without some growths that are refused. */
WRAPPED(volume_plan_read, (const uint8_t *text, size_t length, struct volume_handle *out, uint8_t *line, size_t room,
    size_t *needed)) {
    for (long growth = 1;; growth++) {
        begin_refusing(growth);
        uint8_t status = __real_volume_plan_read(text, length, out, line, room, needed);
        if (!has_refused())
            return status;
        WANT(status == VOLUME_NO_MEMORY ? is_empty(out) : status == VOLUME_OK);
        volume_close(out);
    }
}

WRAPPED(volume_next_message, (struct volume_handle *handle, uint8_t *out, size_t length, size_t *needed)) {
    REFUSING(__real_volume_next_message(handle, out, length, needed), handle->live);
}

WRAPPED(volume_segment_new, (struct volume_handle *plan, uint8_t group, uint8_t member, struct volume_handle *out)) {
    REFUSING(__real_volume_segment_new(plan, group, member, out), is_empty(out));
}

WRAPPED(volume_segment_resume, (struct volume_handle *plan, uint8_t group, uint8_t member, const uint8_t *bytes,
    size_t length, struct volume_handle *out)) {
    REFUSING(__real_volume_segment_resume(plan, group, member, bytes, length, out), is_empty(out));
}

WRAPPED(volume_segment_take, (struct volume_handle *segment, const uint8_t *bytes, size_t length)) {
    uint64_t scl = scl_of(segment);
    REFUSING(__real_volume_segment_take(segment, bytes, length), scl_of(segment) == scl);
}

/* A segment's state, which the test below compares; it needs memory itself. */
WRAPPED(volume_segment_state, (struct volume_handle *segment, struct volume_segment_state *state)) {
    uint64_t scl = scl_of(segment);
    REFUSING(__real_volume_segment_state(segment, state), scl_of(segment) == scl);
}

/* A frame that is refused for want of memory is taken in part: what is left is passed again. */
WRAPPED(volume_segment_take_frame, (struct volume_handle *segment, const uint8_t *frame, size_t length,
    size_t *taken)) {
    size_t at = 0, part = 0;
    struct bytes dropped;
    for (long growth = 1;; growth++) {
        begin_refusing(growth);
        uint8_t status = __real_volume_segment_take_frame(segment, frame + at, length - at, &part);
        at += part;
        if (!has_refused()) {
            *taken = at;
            return status;
        }
        WANT(status == VOLUME_NO_MEMORY && at < length);
        while (next_message(segment, &dropped))
            free_bytes(&dropped);
        growth = part > 0 ? 0 : growth;
    }
}

WRAPPED(volume_segment_hydrate, (struct volume_handle *segment)) {
    uint64_t scl = scl_of(segment);
    REFUSING(__real_volume_segment_hydrate(segment), scl_of(segment) == scl);
}

WRAPPED(volume_segment_offer, (struct volume_handle *segment, uint64_t lsn)) {
    uint64_t scl = scl_of(segment);
    REFUSING(__real_volume_segment_offer(segment, lsn), scl_of(segment) == scl);
}

WRAPPED(volume_segment_page, (struct volume_handle *segment, uint32_t block, uint64_t point, uint8_t *page,
    size_t length)) {
    uint64_t scl = scl_of(segment);
    REFUSING(__real_volume_segment_page(segment, block, point, page, length), scl_of(segment) == scl);
}

WRAPPED(volume_segment_snapshot, (struct volume_handle *segment, struct volume_handle *out)) {
    uint64_t scl = scl_of(segment);
    REFUSING(__real_volume_segment_snapshot(segment, out), is_empty(out) && scl_of(segment) == scl);
}

WRAPPED(volume_snapshot_read, (struct volume_handle *snapshot, uint8_t *out, size_t length, size_t *written)) {
    REFUSING(__real_volume_snapshot_read(snapshot, out, length, written), false); /* it needs no memory */
}

WRAPPED(volume_writer_first, (struct volume_handle *plan, struct volume_handle *out)) {
    REFUSING(__real_volume_writer_first(plan, out), is_empty(out));
}

WRAPPED(volume_recovery_new, (struct volume_handle *plan, const uint8_t *view, size_t length,
    struct volume_handle *out)) {
    REFUSING(__real_volume_recovery_new(plan, view, length, out), is_empty(out));
}

WRAPPED(volume_client_take, (struct volume_handle *client, const uint8_t *bytes, size_t length)) {
    REFUSING(__real_volume_client_take(client, bytes, length), client->live);
}

WRAPPED(volume_recovery_cut, (struct volume_handle *recovery)) {
    REFUSING(__real_volume_recovery_cut(recovery), recovery->live);
}

WRAPPED(volume_recovery_open, (struct volume_handle *recovery)) {
    REFUSING(__real_volume_recovery_open(recovery), recovery->live);
}

WRAPPED(volume_writer_issue, (struct volume_handle *writer, const struct volume_change *given, size_t count)) {
    REFUSING(__real_volume_writer_issue(writer, given, count), writer->live);
}

WRAPPED(volume_writer_resend, (struct volume_handle *writer, uint64_t lsn)) {
    REFUSING(__real_volume_writer_resend(writer, lsn), writer->live);
}

WRAPPED(volume_writer_read, (struct volume_handle *writer, uint8_t group, uint32_t block)) {
    REFUSING(__real_volume_writer_read(writer, group, block), writer->live);
}

WRAPPED(volume_authority_new, (struct volume_handle *plan, struct volume_handle *out)) {
    REFUSING(__real_volume_authority_new(plan, out), is_empty(out));
}

WRAPPED(volume_authority_resume, (struct volume_handle *plan, const uint8_t *bytes, size_t length,
    struct volume_handle *out)) {
    REFUSING(__real_volume_authority_resume(plan, bytes, length, out), is_empty(out));
}

WRAPPED(volume_authority_assign, (struct volume_handle *authority)) {
    REFUSING(__real_volume_authority_assign(authority), authority->live);
}

WRAPPED(volume_authority_advance, (struct volume_handle *authority, uint8_t group, uint32_t configuration)) {
    REFUSING(__real_volume_authority_advance(authority, group, configuration), authority->live);
}

WRAPPED(volume_authority_refresh, (struct volume_handle *authority, uint32_t volume)) {
    REFUSING(__real_volume_authority_refresh(authority, volume), authority->live);
}

WRAPPED(volume_authority_snapshot, (struct volume_handle *authority, uint8_t *out, size_t length, size_t *needed)) {
    REFUSING(__real_volume_authority_snapshot(authority, out, length, needed), authority->live);
}

/* Makes the run of a seed; returns the state at its end. */
static struct bytes end_of(const struct bytes *plan, uint64_t seed) {
    struct cluster cluster;
    cluster_birth(&cluster, plan, seed);
    for (int i = 0; i < ACTS; i++)
        cluster_act(&cluster);
    for (uint8_t member = 0; member < MEMBERS; member++)
        cluster_resume(&cluster, member);
    cluster_settle(&cluster);
    struct bytes end = cluster_end(&cluster);
    cluster_close(&cluster);
    return end;
}

int main(int count, char **words) {
    WANT(count == 3);
    struct bytes plan = read_file(words[1]);
    uint64_t runs = strtoull(words[2], NULL, 10);
    for (uint64_t seed = 1; seed <= runs; seed++) {
        struct bytes plain = end_of(&plan, seed);
        is_refusing = true;
        struct bytes refused = end_of(&plan, seed);
        is_refusing = false;
        WANT(are_same(&plain, &refused));
        free_bytes(&plain);
        free_bytes(&refused);
    }
    free_bytes(&plan);
    printf("no_memory: %llu runs, %zu growths refused\n", (unsigned long long)runs, refusals);
    return 0;
}
