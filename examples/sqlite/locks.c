#include "locks.h"

#include <sqlite3.h>
#include <stddef.h>

static bool is_others(const void *holder, const void *who) { return holder && holder != who; }

static bool raise_to_shared(struct file_locks *locks, int *level) {
    if (locks->pending || locks->exclusive)
        return false;
    locks->shared++;
    *level = SQLITE_LOCK_SHARED;
    return true;
}

/* With a pending lock no other connection starts to read; the lock becomes exclusive once the others have finished. */
static bool raise_to_exclusive(struct file_locks *locks, const void *who, int *level) {
    if (is_others(locks->reserved, who) || is_others(locks->pending, who))
        return false;
    locks->pending = who;
    *level = SQLITE_LOCK_PENDING;
    if (locks->shared > 1)
        return false;
    locks->exclusive = who;
    *level = SQLITE_LOCK_EXCLUSIVE;
    return true;
}

bool locks_raise(struct file_locks *locks, const void *who, int *level, int wanted) {
    if (*level >= wanted)
        return true;
    if (wanted == SQLITE_LOCK_SHARED)
        return raise_to_shared(locks, level);
    if (wanted == SQLITE_LOCK_EXCLUSIVE)
        return raise_to_exclusive(locks, who, level);
    if (is_others(locks->reserved, who) || is_others(locks->pending, who))
        return false;
    locks->reserved = who;
    *level = SQLITE_LOCK_RESERVED;
    return true;
}

void locks_lower(struct file_locks *locks, const void *who, int *level, int wanted) {
    if (*level <= wanted)
        return;
    if (locks->reserved == who)
        locks->reserved = NULL;
    if (locks->pending == who)
        locks->pending = NULL;
    if (locks->exclusive == who)
        locks->exclusive = NULL;
    if (wanted == SQLITE_LOCK_NONE)
        locks->shared--;
    *level = wanted;
}

bool locks_reserved(const struct file_locks *locks) { return locks->reserved || locks->pending || locks->exclusive; }
