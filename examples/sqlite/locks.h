/* SQLite's locks on a file between the connections of one process. */
#ifndef LOCKS_H
#define LOCKS_H

#include <stdbool.h>

/* The holders of each lock. All zeros is a file without locks. */
struct file_locks {
    int shared;
    const void *reserved, *pending, *exclusive;
};

/* Raises a connection's lock. Returns false if another connection's lock prevents it. */
bool locks_raise(struct file_locks *locks, const void *who, int *level, int wanted);

/* Lowers a connection's lock to shared or none. */
void locks_lower(struct file_locks *locks, const void *who, int *level, int wanted);

/* Returns whether some connection holds a reserved, pending or exclusive lock. */
bool locks_reserved(const struct file_locks *locks);

#endif
