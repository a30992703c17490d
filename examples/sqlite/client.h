/* The writer of a volume, over sockets to the cluster's processes: it asks for a volume epoch, recovers, and then
 * writes and reads. It has no thread: each call polls the sockets until it is done. */
#ifndef CLIENT_H
#define CLIENT_H

#include "cluster.h"

enum client_result {
    CLIENT_OK,
    CLIENT_FENCED,  /* a later writer took over: this one can't commit any more */
    CLIENT_FULL,    /* a segment holds the greatest number of records */
    CLIENT_TIMEOUT, /* no write quorum answered in time, or no member that has the page */
    CLIENT_NO_MEMORY,
    CLIENT_FAULT, /* the library refused a call that it should accept */
};

struct client;

/* Takes the volume over: gets a new volume epoch and recovers. Each wait ends after `timeout` milliseconds without
 * progress. Returns NULL on failure, and writes the reason to `fault`. */
struct client *client_open(const char *cluster, uint64_t timeout, char fault[FAULT_LINE]);

/* Returns how many groups had joined when the client opened. */
uint32_t client_groups(const struct client *client);

/* Returns how many more records the group with the most records can take. */
uint64_t client_room(const struct client *client);

/* Issues a transaction of 1 to 32 changes, and sends its records. */
enum client_result client_issue(struct client *client, const struct volume_change *changes, size_t count);

/* Waits until everything issued is durable. */
enum client_result client_sync(struct client *client);

/* A block to read. */
struct wanted {
    uint8_t group;
    uint32_t block;
    uint8_t *out; /* where its 512 bytes go; NULL once they have come */
};

/* Reads blocks as of the durable point. Takes one round trip if the first member asked answers. */
enum client_result client_read(struct client *client, struct wanted *wanted, size_t count);

/* Waits a moment for members that still lack records, and closes. */
void client_close(struct client *client);

#endif
