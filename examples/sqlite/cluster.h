/* The file that names a cluster's processes. It has a key a line:
 * `plan = "..."`, `authority = "..."`, `node.N = "..."`. */
#ifndef CLUSTER_H
#define CLUSTER_H

#include "message.h"
#include "volume.h"

enum { FAULT_LINE = 300 };

struct cluster {
    char *folder; /* the file's folder: paths in the file are relative to it */
    char *plan;
    char *authority;
    char *nodes[MEMBERS]; /* the address of each member; NULL where there is none */
};

/* Reads a cluster file. Returns false if it has a fault, which it writes to `fault`. */
bool cluster_read(const char *path, struct cluster *out, char fault[FAULT_LINE]);

/* Reads and checks the cluster's plan. Returns false if it has a fault, which it writes to `fault`. */
bool cluster_plan(const struct cluster *cluster, struct volume_handle *plan, char fault[FAULT_LINE]);

/* Frees what the cluster holds. */
void cluster_free(struct cluster *cluster);

/* Returns the name of a status that a call of the library returned. */
const char *fault_name(uint8_t number, char name[40]);

/* Puts the next message of a handle into a buffer. Returns false if there is none. Sets `good` to false if memory ran
 * out. */
bool next_message(struct volume_handle *handle, struct buffer *out, bool *good);

#endif
