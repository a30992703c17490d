/* Measures calls of the C library: processor time in nanoseconds a call, the least of several rounds.
 *
 *     library_calls PLAN RECORDS [ROUNDS]
 *
 * PLAN is examples/long_log.json. Each line has a call's name and its time. With ROUNDS, messages of 256 records aren't
 * measured. bench/library_calls.py runs it. */
#define _POSIX_C_SOURCE 199309L

#include "support.h"

#include <time.h>

enum { MOST_BYTES = 128, BATCH = 32, COPIES = 3, CALLS = 200000, READS = 2000 };

static struct volume_handle plan, writer, segments[COPIES];
static struct bytes *writes; /* the Write of each record, in order */
static struct bytes *acks;   /* segment 0's Ack of each */
static size_t records;
static int rounds = 20;

static double now(void) {
    struct timespec time;
    WANT(clock_gettime(CLOCK_PROCESS_CPUTIME_ID, &time) == 0);
    return 1e9 * (double)time.tv_sec + (double)time.tv_nsec;
}

static void price(const char *name, double least) {
    printf("%s\t%.0f\n", name, least);
}

/* The messages of a batch. */
static uint8_t made[BATCH][MOST_BYTES];
static size_t lengths[BATCH];

#ifdef CORE_IS_CALLED
/* Decodes a message, and encodes it into a buffer that is there. */
_Bool core_encode(const uint8_t *message, size_t length);
#endif

static void take_out(struct volume_handle *actor, size_t i) {
    DO(volume_next_message(actor, made[i], MOST_BYTES, &lengths[i]));
#ifdef CORE_IS_CALLED
    WANT(core_encode(made[i], lengths[i]));
#endif
}

static void keep(struct bytes *kept) {
    for (size_t i = 0; i < BATCH; i++) {
        free_bytes(&kept[i]);
        kept[i] = bytes_of(made[i], lengths[i]);
    }
}

static struct volume_change change_of(size_t number) {
    struct volume_change change = {.block = (uint32_t)(number % 64), .offset = (uint16_t)(number % 448), .length = 64};
    memset(change.bytes, (int)(number % 251), sizeof change.bytes);
    return change;
}

static void open_all(void) {
    DO(volume_writer_first(&plan, &writer));
    for (uint8_t member = 0; member < COPIES; member++)
        DO(volume_segment_new(&plan, 0, member, &segments[member]));
}

static void close_all(void) {
    volume_close(&writer);
    for (int member = 0; member < COPIES; member++)
        volume_close(&segments[member]);
}

/* Issues a batch of records and keeps their Writes; returns the time of the calls. */
static double issue_batch(size_t first) {
    struct volume_change changes[BATCH];
    for (size_t i = 0; i < BATCH; i++)
        changes[i] = change_of(first + i);
    double start = now();
    DO(volume_writer_issue(&writer, changes, BATCH));
    for (size_t i = 0; i < BATCH; i++)
        take_out(&writer, i);
    double spent = now() - start;
    keep(&writes[first]);
    return spent;
}

/* A segment takes a batch, one Write a call, and hands out its Acks; returns the time of the calls. */
static double take_batch(int member, size_t first) {
    double start = now();
    for (size_t i = 0; i < BATCH; i++) {
        DO(volume_segment_take(&segments[member], writes[first + i].at, writes[first + i].length));
        take_out(&segments[member], i);
    }
    return now() - start;
}

/* A segment takes a batch as one frame, and hands out its one Ack; returns the time of the calls. */
static double take_frame(int member, size_t first) {
    struct bytes frame = {0};
    size_t taken = 0;
    for (size_t i = first; i < first + BATCH; i++)
        append_framed(&frame, &writes[i]);
    double start = now();
    DO(volume_segment_take_frame(&segments[member], frame.at, frame.length, &taken));
    take_out(&segments[member], 0);
    double spent = now() - start;
    WANT(taken == frame.length);
    free_bytes(&frame);
    return spent;
}

/* The writer takes the Acks of a batch: each of segment 0, which make nothing durable, and the last of segment 1.
 * Returns the time of segment 0's. */
static double acknowledge_batch(size_t first) {
    struct bytes last = bytes_of(acks[first + BATCH - 1].at, acks[first + BATCH - 1].length);
    double start = now();
    for (size_t i = first; i < first + BATCH; i++)
        DO(volume_client_take(&writer, acks[i].at, acks[i].length));
    double spent = now() - start;
    last.at[11] = 1; /* the sender: segment 1 took the same records */
    DO(volume_client_take(&writer, last.at, last.length));
    free_bytes(&last);
    return spent;
}

struct prices {
    double issued, fresh, framed, held, acknowledged;
};

static void lower(double *least, double found) {
    if (*least == 0 || found < *least)
        *least = found;
}

/* Writes all records once, and keeps the least times. */
static void round_of_writes(struct prices *least) {
    struct prices spent = {0};
    double count = (double)records;
    open_all();
    for (size_t first = 0; first < records; first += BATCH) {
        spent.issued += issue_batch(first);
        spent.fresh += take_batch(0, first);
        keep(&acks[first]);
        spent.framed += take_frame(1, first);
        spent.held += take_batch(0, first);
        spent.acknowledged += acknowledge_batch(first);
    }
    lower(&least->issued, spent.issued / count);
    lower(&least->fresh, spent.fresh / count);
    lower(&least->framed, spent.framed / count);
    lower(&least->held, spent.held / count);
    lower(&least->acknowledged, spent.acknowledged / count);
}

/* Measures calls that are refused or change nothing. */
static void refusals(void) {
    struct volume_handle none = {0};
    uint64_t scl = 0;
    double closed = 0, refused = 0, read = 0;
    for (int round = 0; round < rounds; round++) {
        double start = now();
        for (int i = 0; i < CALLS; i++)
            volume_close(&none);
        double middle = now();
        for (int i = 0; i < CALLS; i++)
            (void)volume_segment_scl(&none, &scl);
        double later = now();
        for (int i = 0; i < CALLS; i++)
            (void)volume_segment_scl(&segments[0], &scl);
        lower(&closed, (middle - start) / CALLS);
        lower(&refused, (later - middle) / CALLS);
        lower(&read, (now() - later) / CALLS);
    }
    price("closing an empty handle", closed);
    price("a refused call", refused);
    price("`volume_segment_scl`", read);
}

/* A snapshot of a segment, all at once. */
static void save(struct volume_handle *segment, const struct bytes *room) {
    struct volume_handle snapshot = {0};
    size_t written = 0;
    DO(volume_segment_snapshot(segment, &snapshot));
    DO(volume_snapshot_read(&snapshot, room->at, room->length, &written));
    WANT(written == room->length);
    volume_close(&snapshot);
}

/* Pages and the snapshot of a segment that holds all records. */
static void whole_segment(void) {
    struct volume_handle again = {0};
    struct bytes snapshot = segment_snapshot(&segments[0]);
    uint8_t page[BLOCK];
    double saved = 0, resumed = 0, paged = 0;
    for (int round = 0; round < rounds; round++) {
        double start = now();
        save(&segments[0], &snapshot);
        double middle = now();
        DO(volume_segment_resume(&plan, 0, 0, snapshot.at, snapshot.length, &again));
        double later = now();
        for (uint32_t i = 0; i < READS; i++)
            DO(volume_segment_page(&segments[0], i % 64, records, page, sizeof page));
        lower(&saved, (middle - start) / (double)records);
        lower(&resumed, (later - middle) / (double)records);
        lower(&paged, (now() - later) / READS);
        volume_close(&again);
    }
    price("`volume_segment_snapshot` and `volume_snapshot_read`, a record", saved);
    price("`volume_segment_resume`, a record", resumed);
    price("`volume_segment_page`, a block that many records changed", paged);
    free_bytes(&snapshot);
}

/* Measures messages of 256 records: a copy's pieces are written for a buffer that is too small, and read by a whole
 * segment, which refuses them. */
static void full_messages(void) {
    static const uint8_t ask[] = {1, COPY_ASK, 0, 0, 0, 0, 1};
    struct bytes piece;
    uint8_t none[1];
    double written = 0, read = 0;
    size_t needed = 0;
    DO(volume_segment_take(&segments[0], ask, sizeof ask));
    for (int round = 0; round < rounds; round++) {
        double start = now();
        for (int i = 0; i < READS; i++)
            (void)volume_next_message(&segments[0], none, 0, &needed);
        lower(&written, (now() - start) / READS);
    }
    WANT(next_message(&segments[0], &piece));
    for (int round = 0; round < rounds; round++) {
        double start = now();
        for (int i = 0; i < READS; i++)
            GIVES(VOLUME_ALREADY_WHOLE, volume_segment_take(&segments[1], piece.at, piece.length));
        lower(&read, (now() - start) / READS);
    }
    price("writing a message of 256 records", written);
    price("reading a message of 256 records", read);
    free_bytes(&piece);
}

int main(int count, char **words) {
    struct prices least = {0};
    uint8_t line[100];
    size_t needed = 0;
    WANT(count == 3 || count == 4);
    if (count == 4)
        rounds = atoi(words[3]);
    struct bytes text = read_file(words[1]);
    records = strtoull(words[2], NULL, 10) / BATCH * BATCH;
    WANT(records > 0);
    writes = memory(NULL, records * sizeof *writes);
    acks = memory(NULL, records * sizeof *acks);
    memset(writes, 0, records * sizeof *writes);
    memset(acks, 0, records * sizeof *acks);
    DO(volume_plan_read(text.at, text.length, &plan, line, sizeof line, &needed));
    for (int round = 0; round < rounds; round++) {
        close_all();
        round_of_writes(&least);
    }
    refusals();
    price("`volume_writer_issue`, a record of 32, with its Write", least.issued);
    price("`volume_segment_take` of a record that is new, in order, with its Ack", least.fresh);
    price("`volume_segment_take_frame` of 32 records that are new, a record, with the one Ack", least.framed);
    price("`volume_segment_take` of a record that it holds, with its Ack", least.held);
    price("`volume_client_take` of an Ack", least.acknowledged);
    whole_segment();
    if (count == 3)
        full_messages();
    close_all();
    volume_close(&plan);
    for (size_t i = 0; i < records; i++) {
        free_bytes(&writes[i]);
        free_bytes(&acks[i]);
    }
    free(writes);
    free(acks);
    free_bytes(&text);
    return 0;
}
