/* The operator's tool.
 *
 *     volumectl CLUSTER status                  a table of all nodes
 *     volumectl CLUSTER advance GROUP|all C     leads a group to configuration C, once that is safe
 *     volumectl CLUSTER hydrate MEMBER          waits until the member is whole in each group that has it
 *     volumectl CLUSTER grow                    lets the plan's next group join
 *
 * `--seconds N` bounds a wait (60). `--urgent` doesn't wait for members that don't answer or lag. */
#include "cluster.h"
#include "net.h"
#include "places.h"

#include <signal.h>
#include <stdio.h>
#include <stdlib.h>
#include <string.h>

enum { TURN = 20, CONNECT_WAIT = 300, ANSWER_WAIT = 5000, LOOK_EACH = 200, STATE_LENGTH = 26 };

/* The state of a node's segment of a group, from its answer. */
struct segment_state {
    bool known, whole;
    uint32_t volume_epoch, membership;
    uint64_t complete, records;
};

struct ctl {
    struct cluster cluster;
    struct places plan;
    struct net net;
    struct peer *authority, *nodes[MEMBERS];
    bool answered[MEMBERS];
    struct segment_state states[MEMBERS][GROUPS];
    bool placed; /* the authority answered */
    uint32_t volume_epoch;
    int joined, places[GROUPS];
    int done; /* the status in the authority's answer; -1 until it comes */
    uint64_t began, deadline;
    bool urgent;
};

static void take_states(struct ctl *ctl, int member, const struct frame *frame) {
    for (size_t at = 0; at + STATE_LENGTH <= frame->length; at += STATE_LENGTH) {
        const uint8_t *one = frame->body + at;
        if (one[0] < GROUPS)
            ctl->states[member][one[0]] = (struct segment_state){true,           one[1] == 1,     get32(one + 2),
                                                                 get32(one + 6), get64(one + 10), get64(one + 18)};
    }
    ctl->answered[member] = true;
}

static void take_places(struct ctl *ctl, const struct frame *frame) {
    enum { HEAD = 6 };
    if (frame->length < HEAD || frame->length - HEAD > GROUPS)
        return;
    ctl->placed = true;
    ctl->volume_epoch = get32(frame->body + 2);
    ctl->joined = (int)(frame->length - HEAD);
    for (int group = 0; group < ctl->joined; group++)
        ctl->places[group] = frame->body[HEAD + group];
}

static void on_frame(struct net *net, struct peer *peer, const struct frame *frame) {
    struct ctl *ctl = net->context;
    if (frame->kind == FRAME_STATE && peer->id < MEMBERS)
        take_states(ctl, peer->id, frame);
    else if (frame->kind == FRAME_PLACES)
        take_places(ctl, frame);
    else if (peer->id == AUTHORITY && (frame->kind == FRAME_DONE || frame->kind == FRAME_REFUSED))
        ctl->done = frame->status;
}

static void pump(struct ctl *ctl) {
    net_flush(&ctl->net);
    net_turn(&ctl->net, TURN);
    net_flush(&ctl->net);
}

/* Returns whether all processes have answered that were asked or, with `may_connect`, may still connect. */
static bool all_answered(const struct ctl *ctl, const bool asked[MEMBERS], bool authority_asked, bool may_connect) {
    for (int member = 0; member < MEMBERS; member++)
        if (ctl->nodes[member] && !ctl->answered[member] && (asked[member] || may_connect))
            return false;
    return ctl->placed || !(authority_asked || may_connect);
}

/* Asks all processes for their states, and waits for the answers. */
static void look(struct ctl *ctl) {
    bool asked[MEMBERS] = {false}, authority_asked = false;
    uint64_t begin = now_ms();
    memset(ctl->states, 0, sizeof ctl->states);
    memset(ctl->answered, 0, sizeof ctl->answered);
    ctl->placed = false;
    do {
        for (int member = 0; member < MEMBERS; member++)
            if (ctl->nodes[member] && ctl->nodes[member]->fd >= 0 && !asked[member]) {
                net_send(ctl->nodes[member], FRAME_STATUS, 0, 0, NULL, 0);
                asked[member] = true;
            }
        if (ctl->authority->fd >= 0 && !authority_asked) {
            net_send(ctl->authority, FRAME_STATUS, 0, 0, NULL, 0);
            authority_asked = true;
        }
        pump(ctl);
    } while (now_ms() < begin + ANSWER_WAIT
             && !all_answered(ctl, asked, authority_asked, now_ms() < ctl->began + CONNECT_WAIT));
}

/* Returns the greatest complete point of a group's members. */
static uint64_t furthest(const struct ctl *ctl, int group) {
    uint64_t most = 0;
    for (int member = 0; member < MEMBERS; member++)
        if (ctl->states[member][group].known && ctl->states[member][group].complete > most)
            most = ctl->states[member][group].complete;
    return most;
}

static void print_authority(const struct ctl *ctl) {
    if (!ctl->placed) {
        printf("authority: no answer\n");
        return;
    }
    printf("authority: volume epoch %u", (unsigned)ctl->volume_epoch);
    for (int group = 0; group < ctl->joined; group++)
        printf("%s group %d at configuration %d", group ? "," : ";", group, ctl->places[group]);
    printf("\n");
}

static void print_member(const struct ctl *ctl, int member) {
    if (!ctl->answered[member]) {
        printf("%4d  no answer\n", member);
        return;
    }
    for (int group = 0; group < (ctl->placed ? ctl->joined : GROUPS); group++) {
        const struct segment_state *state = &ctl->states[member][group];
        if (state->known)
            printf("%4d %5d %6u %10u %5s %14llu %8llu %14llu\n", member, group, (unsigned)state->volume_epoch,
                   (unsigned)state->membership, state->whole ? "yes" : "no", (unsigned long long)state->complete,
                   (unsigned long long)state->records, (unsigned long long)(furthest(ctl, group) - state->complete));
    }
}

static int status(struct ctl *ctl) {
    look(ctl);
    print_authority(ctl);
    printf("node group volume membership whole       complete  records            lag\n");
    for (int member = 0; member < MEMBERS; member++)
        if (ctl->nodes[member])
            print_member(ctl, member);
    return ctl->placed ? 0 : 1;
}

/* Returns why a member isn't ready for a step from the group's present configuration, or NULL if it is. */
static const char *unready(const struct ctl *ctl, int group, int member, uint64_t point) {
    const struct segment_state *state = &ctl->states[member][group];
    if (!ctl->answered[member])
        return ctl->urgent ? NULL : "doesn't answer";
    if (!state->known)
        return "has no segment of the group";
    if (state->membership < places_epoch(&ctl->plan, group, ctl->places[group]))
        return "hasn't taken the last step";
    if (!state->whole)
        return "isn't whole";
    return state->complete < point && !ctl->urgent ? "lags" : NULL;
}

/* Returns the first reason why a step to a configuration isn't safe, and its member; or NULL if it is safe. */
static const char *unsafe(const struct ctl *ctl, int group, int to, uint64_t point, int *member) {
    uint64_t staying = ctl->plan.at[group][to].members & ctl->plan.at[group][ctl->places[group]].members;
    for (*member = 0; *member < MEMBERS; (*member)++)
        if (staying >> *member & 1) {
            const char *why = unready(ctl, group, *member, point);
            if (why)
                return why;
        }
    return NULL;
}

/* Waits until the members of both configurations are whole, have taken the last step, and hold what the group held at
 * the beginning. */
static bool wait_until_safe(struct ctl *ctl, int group, int to) {
    const char *why = "the authority doesn't answer";
    int member = -1;
    uint64_t point = 0;
    look(ctl);
    for (;; look(ctl)) {
        if (point == 0)
            point = furthest(ctl, group);
        if (ctl->placed && group >= ctl->joined)
            fail("group %d hasn't joined", group);
        why = ctl->placed ? unsafe(ctl, group, to, point, &member) : "the authority doesn't answer";
        if (!why)
            return true;
        if (now_ms() > ctl->deadline)
            break;
        for (uint64_t until = now_ms() + LOOK_EACH; now_ms() < until;)
            pump(ctl);
    }
    say("group %d: a step isn't safe yet: member %d %s", group, member, why);
    return false;
}

/* Calls the authority. Returns the status of its answer, or -1 if it doesn't answer. */
static int call(struct ctl *ctl, uint8_t kind, uint8_t group, const void *body, size_t length) {
    uint32_t connects = 0;
    ctl->done = -1;
    while (ctl->done < 0 && now_ms() < ctl->deadline) {
        if (ctl->authority->fd >= 0 && connects == 0) {
            connects = ctl->authority->connects;
            net_send(ctl->authority, kind, group, 0, body, length);
        }
        pump(ctl);
        if (connects != 0 && connects != ctl->authority->connects)
            break; /* the connection was lost, so it isn't known whether the call was done */
    }
    return ctl->done;
}

static void judge(int done, const char *what) {
    char name[40];
    if (done < 0)
        fail("%s: the authority doesn't answer: look at the status", what);
    if (done > 0)
        fail("%s: refusal %d %s", what, done, fault_name((uint8_t)done, name));
}

/* Waits until the members of a configuration that answer have taken its step. */
static bool wait_until_taken(struct ctl *ctl, int group, int to) {
    uint32_t epoch = places_epoch(&ctl->plan, group, to);
    for (;;) {
        bool all = true;
        look(ctl);
        for (int member = 0; member < MEMBERS; member++)
            if (ctl->plan.at[group][to].members >> member & 1 && ctl->answered[member])
                all = all && ctl->states[member][group].known && ctl->states[member][group].membership >= epoch;
        if (all || now_ms() > ctl->deadline)
            return all;
        pump(ctl);
    }
}

static int advance_group(struct ctl *ctl, int group, int to) {
    uint8_t body[4];
    if (to < 0 || group >= ctl->plan.groups || to >= ctl->plan.counts[group])
        fail("the plan has no configuration %d of group %d", to, group);
    if (!wait_until_safe(ctl, group, to))
        return 1;
    put32(body, (uint32_t)to);
    judge(call(ctl, FRAME_ADVANCE, (uint8_t)group, body, sizeof body), "advance");
    if (!wait_until_taken(ctl, group, to)) {
        say("group %d is at configuration %d, but not each node has taken the step yet", group, to);
        return 1;
    }
    printf("group %d is at configuration %d\n", group, to);
    return 0;
}

static int advance(struct ctl *ctl, const char *group, const char *to) {
    if (strcmp(group, "all") != 0)
        return advance_group(ctl, atoi(group), atoi(to));
    do {
        look(ctl);
    } while (!ctl->placed && now_ms() < ctl->deadline);
    if (!ctl->placed)
        fail("the authority doesn't answer");
    int joined = ctl->joined, failed = 0;
    for (int one = 0; one < joined && !failed; one++)
        failed = advance_group(ctl, one, atoi(to));
    return failed;
}

/* Returns whether a member is whole in each group whose configuration has it. */
static bool is_whole(const struct ctl *ctl, int member) {
    bool somewhere = false;
    for (int group = 0; group < ctl->joined; group++)
        if (ctl->plan.at[group][ctl->places[group]].members >> member & 1) {
            somewhere = true;
            if (!ctl->states[member][group].known || !ctl->states[member][group].whole)
                return false;
        }
    return ctl->placed && somewhere;
}

static int hydrate(struct ctl *ctl, const char *word) {
    int member = atoi(word);
    if (member < 0 || member >= MEMBERS || !ctl->nodes[member])
        fail("the cluster file has no node.%s", word);
    for (;;) {
        look(ctl);
        if (is_whole(ctl, member))
            break;
        if (now_ms() > ctl->deadline) {
            say("member %d isn't whole in each group that has it", member);
            return 1;
        }
        net_send(ctl->nodes[member], FRAME_HYDRATE, 0, 0, NULL, 0);
        for (uint64_t until = now_ms() + LOOK_EACH; now_ms() < until;)
            pump(ctl);
    }
    printf("member %d is whole\n", member);
    return 0;
}

static int grow(struct ctl *ctl) {
    judge(call(ctl, FRAME_GROW, 0, NULL, 0), "grow");
    look(ctl);
    printf("%d groups have joined\n", ctl->joined);
    return 0;
}

static void start(struct ctl *ctl, const char *path) {
    char fault[FAULT_LINE];
    struct volume_handle plan = {0};
    if (!cluster_read(path, &ctl->cluster, fault) || !cluster_plan(&ctl->cluster, &plan, fault))
        fail("%s", fault);
    volume_close(&plan);
    if (!places_read(ctl->cluster.plan, &ctl->plan))
        fail("%s can't be read", ctl->cluster.plan);
    ctl->net = (struct net){.listener = -1, .on_frame = on_frame, .context = ctl};
    ctl->authority = net_dial(&ctl->net, ctl->cluster.authority, AUTHORITY);
    bool good = ctl->authority != NULL;
    for (int member = 0; member < MEMBERS; member++)
        if (ctl->cluster.nodes[member]) {
            ctl->nodes[member] = net_dial(&ctl->net, ctl->cluster.nodes[member], member);
            good = good && ctl->nodes[member];
        }
    if (!good)
        fail("out of memory");
}

static int run(struct ctl *ctl, int count, char **words) {
    if (count == 1 && strcmp(words[0], "status") == 0)
        return status(ctl);
    if (count == 3 && strcmp(words[0], "advance") == 0)
        return advance(ctl, words[1], words[2]);
    if (count == 2 && strcmp(words[0], "hydrate") == 0)
        return hydrate(ctl, words[1]);
    if (count == 1 && strcmp(words[0], "grow") == 0)
        return grow(ctl);
    fail("CLUSTER status | advance GROUP|all CONFIGURATION | hydrate MEMBER | grow [--seconds N] [--urgent]");
}

int main(int count, char **given) {
    static struct ctl ctl;
    char *words[4];
    int kept = 0, seconds = 60;
    program_name = "volumectl";
    for (int i = 1; i < count; i++) {
        if (strcmp(given[i], "--urgent") == 0)
            ctl.urgent = true;
        else if (strcmp(given[i], "--seconds") == 0 && i + 1 < count)
            seconds = atoi(given[++i]);
        else if (kept < 4)
            words[kept++] = given[i];
        else
            fail("what is %s?", given[i]);
    }
    if (kept < 2)
        kept = 1;
    else
        start(&ctl, words[0]);
    ctl.began = now_ms();
    ctl.deadline = ctl.began + (uint64_t)(seconds > 0 ? seconds : 0) * 1000;
    int result = run(&ctl, kept - 1, words + 1);
    net_close(&ctl.net);
    cluster_free(&ctl.cluster);
    return result;
}
