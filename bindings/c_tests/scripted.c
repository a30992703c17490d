/* Makes random runs of the library, and writes each as a script (docs/SCRIPTS.md) with the output that `plan_tool run`
 * must print.
 *
 *     scripted PLAN RUNS FOLDER
 *
 * PLAN is examples/member_replaced.json. Run N is written to FOLDER/N.script and FOLDER/N.wanted;
 * scripts/engine_tests runs the program on the scripts. */
#include "support.h"

enum { MEMBERS = 7, FRESH = 6, BLOCKS = 4, MOST_CLIENTS = 12, EVENTS = 1000, RECENT = 14, VIEW_EPOCH = 2, LABEL_EPOCH = 3 };

/* A message that a line made. */
struct said {
    size_t line, number;
    struct bytes bytes;
};

/* A client: its handle, which is empty before its first View, and after the cut its cut and start. */
struct client {
    struct volume_handle handle;
    bool has_cut, is_open;
    uint64_t cut, start;
};

struct run {
    struct volume_handle plan, authority, segments[MEMBERS];
    struct client clients[MOST_CLIENTS + 1];
    uint32_t last_volume;
    uint8_t configuration;
    struct said *said;
    size_t said_count, said_room, line, made;
    uint64_t random;
    FILE *script, *wanted;
};

static size_t lines, refusals;

static uint64_t pick(struct run *run, uint64_t bound) {
    return random_below(&run->random, bound);
}

static uint64_t long_at(const uint8_t *at) {
    return (uint64_t)number_at(at) << 32 | number_at(at + 4);
}

static struct said *say(struct run *run, const struct bytes *message) {
    if (run->said_count == run->said_room) {
        run->said_room = 2 * run->said_room + 64;
        run->said = memory(run->said, run->said_room * sizeof *run->said);
    }
    run->said[run->said_count] = (struct said){run->line, ++run->made, bytes_of(message->at, message->length)};
    return &run->said[run->said_count++];
}

/* Ends an event: takes the actor's messages, and writes the output that the program prints for the line. */
static void ends(struct run *run, struct volume_handle *actor, uint8_t status) {
    struct bytes message;
    run->made = 0;
    while (status == VOLUME_OK && next_message(actor, &message)) {
        (void)say(run, &message);
        free_bytes(&message);
    }
    lines++;
    if (status == VOLUME_OK) {
        fprintf(run->wanted, "%zu ok %zu\n", run->line, run->made);
    } else {
        uint8_t name[40];
        size_t length = 0;
        DO(volume_fault_name(status, name, sizeof name, &length));
        fprintf(run->wanted, "%zu refused %d %.*s\n", run->line, status, (int)length, (char *)name);
        refusals++;
    }
}

/* Picks a client that has taken a View, and returns its volume epoch too. */
static struct client *any_client(struct run *run, uint32_t *volume) {
    uint32_t last = pick(run, 4) == 0 ? 1 + (uint32_t)pick(run, run->last_volume) : run->last_volume;
    while (run->clients[last].handle.live == false)
        last--;
    *volume = last;
    return &run->clients[last];
}

/* Returns a random message, mostly one of the last few. */
static const struct said *any_said(struct run *run) {
    size_t few = run->said_count < RECENT ? run->said_count : RECENT;
    uint64_t back = pick(run, pick(run, 6) == 0 ? run->said_count : few);
    return &run->said[run->said_count - 1 - back];
}

static void issue(struct run *run) {
    struct volume_change changes[3];
    uint32_t volume;
    struct client *client = any_client(run, &volume);
    size_t count = 1 + pick(run, 3);
    fprintf(run->script, "issue %u", volume);
    for (size_t i = 0; i < count; i++) {
        changes[i] = (struct volume_change){.block = (uint32_t)pick(run, BLOCKS), .group = (uint8_t)(pick(run, 30) == 0)};
        changes[i].offset = (uint16_t)pick(run, 505);
        changes[i].length = (uint8_t)(1 + pick(run, 10));
        fprintf(run->script, " %d:%u:%d:", changes[i].group, changes[i].block, changes[i].offset);
        for (size_t k = 0; k < changes[i].length; k++) {
            changes[i].bytes[k] = (uint8_t)pick(run, 256);
            fprintf(run->script, "%02x", changes[i].bytes[k]);
        }
    }
    fprintf(run->script, "\n");
    ends(run, &client->handle, volume_writer_issue(&client->handle, changes, count));
}

/* Delivers a message of any kind to a member. */
static void deliver(struct run *run, const struct said *said, uint8_t member) {
    struct volume_handle *segment = &run->segments[member];
    fprintf(run->script, "deliver 0 %d %zu.%zu\n", member, said->line, said->number);
    ends(run, segment, volume_segment_take(segment, said->bytes.at, said->bytes.length));
}

/* Delivers a message to a client, mostly to the one that it names. A View may make a new recovery. */
static void take(struct run *run, const struct said *said) {
    uint32_t volume = 0;
    struct client *client = any_client(run, &volume);
    bool births = false, is_view = said->bytes.at[1] == VIEW;
    if (pick(run, 12) > 0) {
        uint32_t named = number_at(said->bytes.at + (is_view ? VIEW_EPOCH : LABEL_EPOCH));
        bool is_there = named >= 1 && named <= run->last_volume && run->clients[named].handle.live;
        if (is_view || is_there) {
            volume = named;
            client = &run->clients[volume];
            births = !is_there;
        }
    }
    fprintf(run->script, "take %u %zu.%zu\n", volume, said->line, said->number);
    ends(run, &client->handle, births
        ? volume_recovery_new(&run->plan, said->bytes.at, said->bytes.length, &client->handle)
        : volume_client_take(&client->handle, said->bytes.at, said->bytes.length));
}

/* Delivers a random message, mostly to a client or member according to its kind. */
static void bring(struct run *run) {
    if (run->said_count == 0)
        return;
    const struct said *said = any_said(run);
    uint8_t kind = said->bytes.at[1];
    bool to_client = kind == VIEW || kind == REPORT || kind == ACK || kind == PAGE;
    if (pick(run, 40) == 0)
        to_client = !to_client;
    if (to_client)
        take(run, said);
    else
        deliver(run, said, (uint8_t)pick(run, MEMBERS));
}

static void assign(struct run *run) {
    if (run->last_volume == MOST_CLIENTS)
        return;
    fprintf(run->script, "assign\n");
    ends(run, &run->authority, volume_authority_assign(&run->authority));
    run->last_volume++;
}

static void refresh(struct run *run) {
    uint32_t volume = run->last_volume - (pick(run, 6) == 0 ? 1 : 0);
    fprintf(run->script, "refresh %u\n", volume);
    ends(run, &run->authority, volume_authority_refresh(&run->authority, volume));
}

static void advance(struct run *run) {
    uint8_t to = (uint8_t)(1 + pick(run, 4));
    fprintf(run->script, "advance 0 %d\n", to);
    ends(run, &run->authority, volume_authority_advance(&run->authority, 0, to));
}

static void grow(struct run *run) {
    fprintf(run->script, "grow\n");
    ends(run, &run->authority, volume_authority_grow(&run->authority));
}

/* Notes the cut and the start, which are in the lineage's last entry of each Install. */
static void note_cut(struct run *run, struct client *client) {
    const struct bytes *install = &run->said[run->said_count - 1].bytes;
    const uint8_t *lineage = install->at + 2 + 1 + 8 + 4;
    const uint8_t *last = lineage + 4 + 20 * (number_at(lineage) - 1);
    client->has_cut = true;
    client->cut = long_at(last + 4);
    client->start = long_at(last + 12);
}

static void cut(struct run *run) {
    uint32_t volume;
    struct client *client = any_client(run, &volume);
    fprintf(run->script, "cut %u\n", volume);
    uint8_t status = volume_recovery_cut(&client->handle);
    ends(run, &client->handle, status);
    if (status == VOLUME_OK)
        note_cut(run, client);
}

static void open_client(struct run *run) {
    uint32_t volume;
    struct client *client = any_client(run, &volume);
    fprintf(run->script, "open %u\n", volume);
    uint8_t status = volume_recovery_open(&client->handle);
    ends(run, &client->handle, status);
    client->is_open = client->is_open || status == VOLUME_OK;
}

static void resend(struct run *run) {
    uint32_t volume;
    struct client *client = any_client(run, &volume);
    uint64_t lsn = 1 + pick(run, 40);
    fprintf(run->script, "resend %u %llu\n", volume, (unsigned long long)lsn);
    ends(run, &client->handle, volume_writer_resend(&client->handle, lsn));
}

static void read_block(struct run *run) {
    uint32_t volume, block = (uint32_t)pick(run, BLOCKS);
    struct client *client = any_client(run, &volume);
    uint8_t group = (uint8_t)(pick(run, 10) == 0);
    fprintf(run->script, "read %u %d %u\n", volume, group, block);
    ends(run, &client->handle, volume_writer_read(&client->handle, group, block));
}

static void hydrate(struct run *run) {
    uint8_t member = pick(run, 6) == 0 ? (uint8_t)pick(run, MEMBERS) : FRESH;
    fprintf(run->script, "hydrate 0 %d\n", member);
    ends(run, &run->segments[member], volume_segment_hydrate(&run->segments[member]));
}

/* Restarts a member: resumes its segment from a snapshot. */
static void restart(struct run *run) {
    uint8_t member = (uint8_t)pick(run, MEMBERS);
    struct volume_handle *segment = &run->segments[member];
    struct bytes disk = segment_snapshot(segment);
    fprintf(run->script, "restart 0 %d\n", member);
    volume_close(segment);
    ends(run, segment, volume_segment_resume(&run->plan, 0, member, disk.at, disk.length, segment));
    free_bytes(&disk);
}

static void offer(struct run *run) {
    uint8_t member = (uint8_t)pick(run, MEMBERS);
    uint64_t lsn = 1 + pick(run, 40);
    fprintf(run->script, "offer 0 %d %llu\n", member, (unsigned long long)lsn);
    ends(run, &run->segments[member], volume_segment_offer(&run->segments[member], lsn));
}

static void act(struct run *run) {
    static void (*const ACTS[])(struct run *run) = {refresh, refresh, cut, cut, open_client, open_client, resend, resend,
                                                    resend, read_block, hydrate, restart, offer};
    static void (*const RARE[])(struct run *run) = {assign, assign, advance, grow};
    uint64_t which = pick(run, 200);
    if (which < 170)
        bring(run);
    else if (which < 176)
        issue(run);
    else if (which < 198)
        ACTS[pick(run, sizeof ACTS / sizeof *ACTS)](run);
    else
        RARE[pick(run, sizeof RARE / sizeof *RARE)](run);
}

/* Writes the writers and recoveries at the end of the run. */
static void end(struct run *run) {
    for (uint32_t volume = 1; volume <= run->last_volume; volume++) {
        struct volume_points points;
        if (!run->clients[volume].is_open)
            continue;
        DO(volume_writer_points(&run->clients[volume].handle, &points));
        uint64_t last = points.last > points.start ? points.last : points.start;
        fprintf(run->wanted, "writer %u durable %llu next %llu\n", volume, (unsigned long long)points.durable,
                (unsigned long long)last + 1);
    }
    for (uint32_t volume = 1; volume <= run->last_volume; volume++)
        if (run->clients[volume].has_cut)
            fprintf(run->wanted, "recovery %u cut %llu start %llu\n", volume,
                    (unsigned long long)run->clients[volume].cut, (unsigned long long)run->clients[volume].start);
}

static void birth(struct run *run, const struct bytes *plan) {
    uint8_t line[100];
    size_t needed = 0;
    DO(volume_plan_read(plan->at, plan->length, &run->plan, line, sizeof line, &needed));
    DO(volume_authority_new(&run->plan, &run->authority));
    DO(volume_writer_first(&run->plan, &run->clients[1].handle));
    run->clients[1].is_open = true;
    run->last_volume = 1;
    for (uint8_t member = 0; member < MEMBERS; member++)
        DO(volume_segment_new(&run->plan, 0, member, &run->segments[member]));
}

static void close_run(struct run *run) {
    for (int i = 0; i <= MOST_CLIENTS; i++)
        volume_close(&run->clients[i].handle);
    for (int member = 0; member < MEMBERS; member++)
        volume_close(&run->segments[member]);
    for (size_t i = 0; i < run->said_count; i++)
        free_bytes(&run->said[i].bytes);
    free(run->said);
    volume_close(&run->authority);
    volume_close(&run->plan);
}

static FILE *made_file(const char *folder, unsigned long long number, const char *ending) {
    char name[1000];
    snprintf(name, sizeof name, "%s/%llu.%s", folder, number, ending);
    FILE *file = fopen(name, "w");
    WANT(file != NULL);
    return file;
}

int main(int count, char **words) {
    WANT(count == 4);
    struct bytes plan = read_file(words[1]);
    unsigned long long runs = strtoull(words[2], NULL, 10);
    for (unsigned long long seed = 1; seed <= runs; seed++) {
        struct run run = {.random = seeded(seed)};
        run.script = made_file(words[3], seed, "script");
        run.wanted = made_file(words[3], seed, "wanted");
        birth(&run, &plan);
        for (int i = 0; i < EVENTS; i++) {
            run.line++;
            long before = ftell(run.script);
            act(&run);
            if (ftell(run.script) == before)
                fprintf(run.script, "\n");
        }
        end(&run);
        fclose(run.script);
        fclose(run.wanted);
        close_run(&run);
    }
    free_bytes(&plan);
    printf("scripted: %llu runs, %zu events, %zu of them refused\n", runs, lines, refusals);
    return 0;
}
