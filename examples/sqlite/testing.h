/* Faults for tests of the programs: lost, repeated and delayed frames, and planted faults. They are compiled in only
 * with VOLUME_TESTING; without it these functions do nothing.
 *
 *     VOLUME_LOSS=SEED:PER_MILLE   of 1000 message frames, PER_MILLE are lost, as many repeated, as many delayed
 *     VOLUME_FAULT=NAME            the planted fault: answers-before-sync, sync-without-wait, ignores-fence,
 *                                  forgets-promise, whole-too-early
 *     VOLUME_HOLD=MILLISECONDS     a recovery waits between its reports and its cut
 *     VOLUME_ROOM=RECORDS          the VFS assumes that a segment has room for so many records */
#ifndef TESTING_H
#define TESTING_H

#include "message.h"
#include "net.h"

typedef void testing_append(struct peer *peer, const uint8_t *head, const void *body, size_t length);

#ifdef VOLUME_TESTING

/* Loses, repeats or delays a frame. Returns true if the caller must not send it. */
bool testing_takes(struct peer *peer, const uint8_t *head, const void *body, size_t length, testing_append *append);

/* Sends the delayed frames that are due. */
void testing_release(struct net *net);

/* Drops the delayed frames of a peer. */
void testing_forget(struct peer *peer);

/* Returns whether the fault with this name is planted. */
bool testing_fault(const char *name);

/* Returns how many milliseconds a recovery waits before its cut. */
uint64_t testing_hold(void);

/* Returns for how many records the VFS assumes that a segment has room. */
uint64_t testing_room(void);

/* Notes how many bytes of a log are synced, so that a test that kills the node can cut off the rest. */
void testing_synced(const char *folder, uint64_t generation, uint64_t length);

#else

static inline bool testing_takes(struct peer *peer, const uint8_t *head, const void *body, size_t length,
                                 testing_append *append) {
    (void)peer, (void)head, (void)body, (void)length, (void)append;
    return false;
}
static inline void testing_release(struct net *net) { (void)net; }
static inline void testing_forget(struct peer *peer) { (void)peer; }
static inline bool testing_fault(const char *name) {
    (void)name;
    return false;
}
static inline uint64_t testing_hold(void) { return 0; }
static inline uint64_t testing_room(void) { return SEGMENT_RECORDS; }
static inline void testing_synced(const char *folder, uint64_t generation, uint64_t length) {
    (void)folder, (void)generation, (void)length;
}

#endif
#endif
