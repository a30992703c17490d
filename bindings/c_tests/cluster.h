/* A volume of one group in memory: its authority, its client, seven nodes with a disk each, and a transport that
 * loses, repeats and reorders messages. A seed decides what a run does. The plan is examples/member_replaced.json:
 * member 6 can replace member 5. */
#ifndef CLUSTER_H
#define CLUSTER_H

#include "support.h"

enum { MEMBERS = 7, BLOCKS = 4, FRESH = 6, CLIENT = 255 };

/* A node: its segment, and its disk with a snapshot and the messages that it took after it. */
struct node {
    struct volume_handle segment;
    struct bytes snapshot;
    struct messages log;
    bool has_copies; /* it has copies, which a snapshot drops */
};

struct letter {
    uint8_t to; /* a member, or CLIENT */
    struct bytes message;
};

struct cluster {
    struct volume_handle plan, authority, client;
    struct node nodes[MEMBERS];
    struct letter *wire;
    size_t wire_count, wire_room;
    struct messages kept;  /* the client's last Fences or Installs, to be sent again */
    struct messages steps; /* the authority's steps */
    uint64_t random;       /* the state of the random numbers */
    uint64_t traffic;      /* a hash of all deliveries and their statuses */
    uint32_t volume_epoch;
    uint8_t configuration; /* the group's present configuration, by its number in the plan */
    bool writes;           /* the client is a writer */
    size_t made[KINDS];    /* how many messages of each kind were made */
    void (*look)(void *with, const struct bytes *message); /* called with each message that is made, if not NULL */
    void *with;
};

/* Makes a new volume. The caller may set `look` after this call. */
void cluster_birth(struct cluster *cluster, const struct bytes *plan, uint64_t seed);

/* Does one random thing: delivers messages, issues a transaction, replaces the client, advances the group .. */
void cluster_act(struct cluster *cluster);

/* Delivers and resends without loss, and recovers if needed, until all records are acknowledged and each member of the
 * group has all. */
void cluster_settle(struct cluster *cluster);

/* Returns the state at the end of a run: the writer's points, the hash of its traffic, and the SCL, the pages and the
 * snapshot of each member. */
struct bytes cluster_end(struct cluster *cluster);

/* Saves a snapshot of a node to its disk, and empties its log. */
void cluster_save(struct cluster *cluster, uint8_t member);

/* Restarts a node from its disk, and checks that its state is the same. */
void cluster_resume(struct cluster *cluster, uint8_t member);

void cluster_close(struct cluster *cluster);

#endif
