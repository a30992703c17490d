/* Frames over Unix or TCP sockets, for all programs of this folder: one thread, which blocks only in poll.
 *
 * A frame is a length (4 bytes, big-endian, of the rest of the frame), kind, group, status, a zero byte, a body. */
#ifndef NET_H
#define NET_H

#include "common.h"

enum {
    FRAME_LENGTH = 4,       /* bytes of a frame's length */
    FRAME_HEAD = 4,         /* kind, group, status, 0 */
    FRAME_MOST = 1 << 27,   /* a longer frame is refused: a report of a full segment has some 114 MB */
    PEERS_MOST = 256,       /* connections that a process accepts */
    WAITING_MOST = 1 << 28, /* bytes queued for a peer; its connection is closed when there are more */
    AUTHORITY = 255,        /* the authority's number as a peer; members are 0 to 63 */
    UNKNOWN = 256,          /* a peer that dialed us */
};

enum frame_kind {
    FRAME_MESSAGE = 1, /* a volume's message, to the segment of its group or to a client */
    FRAME_REFUSED,     /* the status is the refusal, and the body the beginning of the refused message, or empty */
    FRAME_STATUS,      /* a node answers with FRAME_STATE, the authority with FRAME_PLACES */
    FRAME_STATE,       /* the states of the node's segments */
    FRAME_PLACES,      /* the authority's snapshot */
    FRAME_ASSIGN,      /* to the authority, which answers with a View of a new volume epoch */
    FRAME_REFRESH,     /* to the authority, which answers with a View; the body is the volume epoch */
    FRAME_ADVANCE,     /* to the authority, which answers with FRAME_DONE; the body is the configuration */
    FRAME_GROW,        /* to the authority, which answers with FRAME_DONE */
    FRAME_STEPS,       /* to the authority, which answers with the last StepTo of each group */
    FRAME_HYDRATE,     /* to a node, which asks for copies at once and answers with FRAME_DONE */
    FRAME_DONE,
};

struct frame {
    uint8_t kind, group, status;
    const uint8_t *body;
    size_t length;
};

struct net;

/* The other end of a connection. */
struct peer {
    struct net *net;
    char *address;              /* the address to dial until it connects; NULL if the peer dialed us */
    int id;                     /* a member, AUTHORITY or UNKNOWN */
    int fd;                     /* -1 while it isn't connected */
    bool broken;                /* the connection is closed at the end of the turn */
    uint32_t connects;          /* how often it was connected */
    uint64_t dial_at, heard_at; /* when to dial next; when the last bytes came */
    struct buffer in, out;
    size_t out_at; /* how many bytes of `out` were sent */
};

struct net {
    int listener; /* -1 if the process doesn't listen */
    struct peer **peers;
    size_t count, room;
    void (*on_frame)(struct net *net, struct peer *peer, const struct frame *frame);
    void (*on_connect)(struct net *net, struct peer *peer); /* may be NULL */
    void *context;
    struct delayed *delayed; /* frames that a test delays */
};

/* Listens at an address, `unix:PATH` or `tcp:HOST:PORT`. Returns false and sets errno if it can't. */
bool net_listen(struct net *net, const char *address);

/* Adds a peer, which is dialed whenever it isn't connected. Returns NULL if memory runs out. */
struct peer *net_dial(struct net *net, const char *address, int id);

/* Waits up to `timeout` milliseconds, then accepts, dials and reads. Calls `on_frame` with each frame; sends none. */
void net_turn(struct net *net, uint64_t timeout);

/* Sends as many of the queued bytes as the sockets take. */
void net_flush(struct net *net);

/* Queues a frame for a peer. Does nothing if the peer isn't connected. */
void net_send(struct peer *peer, uint8_t kind, uint8_t group, uint8_t status, const void *body, size_t length);

/* Returns how many bytes are queued for a peer. */
size_t net_waiting(const struct peer *peer);

/* Closes all sockets and frees all memory. */
void net_close(struct net *net);

#endif
