/* What a client knows of each member's segment, and what it resends to whom. For client.c and sending.c only. */
#ifndef CLIENT_STATE_H
#define CLIENT_STATE_H

#include "client.h"
#include "net.h"
#include "testing.h"

/* What a client knows of a member's segment of a group. */
struct member_state {
    bool reported;  /* its Report has come */
    bool installed; /* it has acknowledged under this volume epoch */
    size_t piece;   /* the next piece of the Install to send */
    size_t most;    /* the number of pieces that were sent at least once */
    size_t acked;   /* how many of the group's records of this volume epoch it holds without a gap */
    size_t sent;    /* how many of these records were sent */
    size_t window;  /* how many may be sent and not acknowledged */
    uint64_t held;  /* no record is sent before this time: the member refused one */
    uint64_t due;   /* when to resend */
    uint32_t wait;  /* the present wait before a resend, in milliseconds */
};

struct group_state {
    uint32_t membership; /* the group's membership epoch in the last View */
    struct buffer fence;
    struct buffer *pieces; /* of the Install */
    size_t piece_count, piece_room;
    uint64_t found;     /* how many records the recovery found */
    struct buffer lsns; /* the LSNs of this volume epoch's records: an array of uint64_t */
};

struct client {
    struct cluster cluster;
    struct volume_handle plan, handle;
    struct net net;
    struct peer *authority, *nodes[MEMBERS];
    struct member_state members[MEMBERS][GROUPS];
    struct group_state groups[GROUPS];
    enum { ASKING, FENCING, INSTALLING, OPEN } stage;
    uint32_t epoch, group_count, joined;
    bool changed; /* a message came that the recovery may have waited for */
    bool fenced, full, no_memory, fault;
    bool refresh_wanted;
    uint64_t assign_at, refresh_at, hold_until, issued;
    uint64_t timeout, progress; /* the longest time without progress, in ms; when the last was */
    struct buffer view, message;
    int reader;            /* the member to ask for pages */
    struct wanted *wanted; /* the blocks to read */
    size_t wanted_count;
    bool page_refused; /* `reader` refused to send a page */
};

/* Returns how many records a group has. */
uint64_t group_records(const struct group_state *group);

/* Takes the messages that the handle made: sends the Writes, and keeps the Fences and Installs for `serve_all`. */
void send_made(struct client *client);

/* Takes the groups' places from a View. Records that weren't acknowledged are sent again with the new label. */
void take_places(struct client *client, const uint8_t *view);

/* Notes a Report or an Ack that the handle has taken. */
void take_answer(struct client *client, const uint8_t *message);

/* Notes a member's refusal of a message. */
void take_refusal(struct client *client, uint8_t member, const struct frame *frame);

/* Sends each connected member the messages that are due. */
void serve_all(struct client *client);

/* Sends a member everything again that it hasn't acknowledged: it reconnected, and messages may be lost. */
void begin_again(struct client *client, uint8_t member);

/* Returns whether each connected member that took the Install has all records. */
bool all_have_all(const struct client *client);

/* Frees the state of the groups. */
void free_groups(struct client *client);

#endif
