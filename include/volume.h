/* The actors of a volume of replicated logs, by opaque handles. Made by scripts/header.py: edit the exports of
 * crates/volume_c instead. docs/EMBEDDING.md says which calls an engine makes in which order.
 *
 * docs/MODEL.md defines the terms (View, label, consistency point, whole, lineage).
 *
 * Results. A function returns 0 or a number of `enum volume_status`. On any number but 0 it changes nothing, unless its
 * comment says otherwise. 9 says that memory ran out; the same call may be made again.
 *
 * Handles. A handle is all zeros before its first use (`struct volume_handle h = {0};`) and after volume_close. It owns
 * what it holds. Never copy one that holds something, and never change its fields. It may move to another thread; calls
 * with the same handle are made one at a time. Two arguments of one call must not be the same handle. A function returns
 * 90 if a handle holds another kind of actor, if it is empty, or if it is full where it must be empty.
 *
 * Buffers. Bytes are a pointer and a length. The library keeps no pointer after the call. A pointer must not be null,
 * even if the length is 0, and during the call nothing else may write the memory behind a pointer that isn't const. If a
 * result doesn't fit into its buffer, the function returns 92 and does nothing, and `needed` is the length that it needs.
 *
 * Messages. Calls that change an actor may make messages, which wait in its handle: take each by volume_next_message.
 * Until all are taken, calls that would make others return 91, also with a handle of another kind. Messages may be
 * lost, repeated and reordered on their way, and must not be forged. docs/WIRE.md lays out their bytes.
 */
#ifndef VOLUME_H
#define VOLUME_H

#include <stdbool.h>
#include <stddef.h>
#include <stdint.h>

#ifdef __cplusplus
extern "C" {
#endif

/* A plan, an actor or a snapshot; all zeros where it is empty. */
struct volume_handle {
    void *at;
    bool live;
};

/* The numbers that calls return. volume_fault_name gives the name of one. */
enum volume_status {
    VOLUME_OK = 0, /* The call did what it is for. */
    VOLUME_SHORT = 1, /* The bytes end before the record does. */
    VOLUME_BAD_FIELD = 2, /* A field of the record isn't allowed. */
    VOLUME_TRAILING = 3, /* There are bytes after the record. */
    VOLUME_NO_MEMORY = 9, /* Memory ran out. */
    VOLUME_BAD_COUNT = 10, /* A threshold that isn't 1 <= k <= n <= 64. */
    VOLUME_TOO_DEEP = 11, /* An expression of more than six levels. */
    VOLUME_NOT_A_MEMBER = 12, /* No member of the configuration. */
    VOLUME_MALFORMED = 13, /* The text has another shape than it must. */
    VOLUME_NO_SUCH_ITEM = 20, /* There is no item with this number. */
    VOLUME_NOT_DEAD = 21, /* The item could still be satisfied. */
    VOLUME_NO_CLASH = 22, /* The items aren't the same member. */
    VOLUME_NOT_ALL = 23, /* The item doesn't need all its children. */
    VOLUME_TOO_FEW_PICKED = 24, /* The children that weren't picked could be enough. */
    VOLUME_BAD_PAIR = 25, /* A child doesn't exist, or is named twice. */
    VOLUME_COUNT_TOO_SMALL = 26, /* There are too few pairs. */
    VOLUME_BRANCH_COUNT = 27, /* The number of branches isn't that of the children or pairs. */
    VOLUME_BAD_PARENT = 30, /* Configuration 0 has a parent, or the parent of another one doesn't come before it. */
    VOLUME_MEMBER_REUSED = 31, /* A fresh member that an ancestor has. */
    VOLUME_NO_CERTIFICATE = 32, /* A claim without a certificate. */
    VOLUME_CERTIFICATE = 33, /* A certificate that doesn't refute its claim. */
    VOLUME_OVER_LIMIT = 34, /* A text, an expression or a certificate is larger than allowed. */
    VOLUME_SUPERSEDED = 40, /* The volume epoch isn't the last one assigned. */
    VOLUME_NOT_IN_PLAN = 41, /* The configuration isn't a child of the present one, or isn't in the plan. */
    VOLUME_NO_GROUP = 42, /* No such group. */
    VOLUME_EPOCHS_SPENT = 43, /* No volume epoch is left. */
    VOLUME_ALL_GROWN = 44, /* Every group of the plan has joined. */
    VOLUME_STALE_VOLUME = 50, /* The node has promised a later volume epoch. */
    VOLUME_STALE_MEMBER = 51, /* The node is at a later membership epoch. */
    VOLUME_AHEAD_MEMBER = 52, /* The node is at an earlier membership epoch. */
    VOLUME_NOT_INSTALLED = 53, /* The node's lineage isn't that of the volume epoch. */
    VOLUME_NOT_WHOLE = 54, /* The node isn't whole yet. */
    VOLUME_FULL = 55, /* The segment holds as many records as it may. */
    VOLUME_ALREADY_WHOLE = 56, /* The node is whole already. */
    VOLUME_NOT_ENOUGH = 57, /* The complete copies aren't those of a read quorum. */
    VOLUME_NO_RECORD = 58, /* The segment holds no such record. */
    VOLUME_BAD_PIECE = 59, /* The piece can't be one of an Install or of a copy. */
    VOLUME_TAIL_SEGMENT = 60, /* The member keeps no whole pages. */
    VOLUME_POINT_AHEAD = 61, /* The segment isn't complete up to the point. */
    VOLUME_SERIES_SPENT = 62, /* The node has made as many copies as it may. */
    VOLUME_NOT_OPEN = 70, /* The client isn't an open writer. */
    VOLUME_LIMIT_REACHED = 71, /* The log would run too far ahead of the durable point. */
    VOLUME_BAD_TRANSACTION = 72, /* Not a transaction of 1 to 32 valid changes. */
    VOLUME_LSN_SPENT = 73, /* No log sequence number (LSN) is left. */
    VOLUME_NOT_READY = 74, /* Too few members have answered for this step. */
    VOLUME_ALREADY_DONE = 75, /* The client has already taken this step. */
    VOLUME_NO_LOG_RECORD = 76, /* The log has no record with this LSN. */
    VOLUME_NOT_JOINED = 77, /* No write quorum has acknowledged the group's Install yet. */
    VOLUME_NO_MESSAGE = 80, /* No such message was made. */
    VOLUME_NOT_ADDRESSED = 81, /* The message isn't for this actor. */
    VOLUME_NO_ACTOR = 82, /* There is no such actor. */
    VOLUME_NO_SLOT = 83, /* No slot is left for a client. */
    VOLUME_JOURNAL_FULL = 84, /* The journal has no cell left. */
    VOLUME_WRONG_HANDLE = 90, /* The handle is empty, or full where it must be empty, or holds another actor. */
    VOLUME_UNSENT = 91, /* The actor has messages that weren't taken. */
    VOLUME_TOO_SMALL = 92, /* The buffer is too small. */
    VOLUME_NO_MORE = 93, /* All messages were taken. */
    VOLUME_BAD_LENGTH = 94, /* A number of bytes that the struct doesn't have room for. */
};

/* A change of a block: writes the first length of bytes, 1 to 64, to the block from offset on. */
struct volume_change {
    /* The block of the group. */
    uint32_t block;
    /* The first byte of the block that is changed. */
    uint16_t offset;
    /* The protection group. */
    uint8_t group;
    /* How many bytes are changed, 1 to 64. */
    uint8_t length;
    /* The bytes. */
    uint8_t bytes[64];
};

/* The points of a writer's log. */
struct volume_points {
    /* The greatest LSN up to which each record is acknowledged by a write quorum of its group. */
    uint64_t complete;
    /* The greatest consistency point up to complete. A commit at or below it is durable. */
    uint64_t durable;
    /* The LSN after which the writer's own records begin. */
    uint64_t start;
    /* The greatest LSN of the log. After an issue it is the commit's. */
    uint64_t last;
};

/* The state of a segment. */
struct volume_segment_state {
    /* The segment complete point: the greatest LSN up to which it holds all records of its group. */
    uint64_t complete_point;
    /* How many records it holds. */
    uint64_t records;
    /* The volume epoch that it has promised. */
    uint32_t volume_epoch;
    /* The membership epoch of the last step that it took; 0 before the first step of a member that isn't whole. */
    uint32_t membership_epoch;
    /* The configuration of that step. */
    uint32_t configuration;
    /* 1 if it is whole, else 0. */
    uint32_t is_whole;
};

/* What the whole members of a group can do after an advance. */
struct volume_readiness {
    /* Whether they satisfy the configuration's read expression. Advance only if they do. */
    bool can_read;
    /* Whether they satisfy its write expression. If not, commits wait until more members have hydrated. */
    bool can_write;
};

/* Writes the next message that the actor made to out, and drops it. Each message is handed out once, in the order in
 * which the actor made them. Send it to the nodes of its group, or to the client of its label, as its kind says.
 *
 * needed is the message's length. Returns 92 where out is shorter, and the message stays; 93 where there is none. */
uint8_t volume_next_message(struct volume_handle *handle, uint8_t *out, size_t out_length, size_t *needed);

/* Writes the name of a number that a call returned, as docs/FAULTS.md has it, to out; nothing for other numbers.
 * needed is the name's length; returns 92 where out is shorter. */
uint8_t volume_fault_name(uint8_t number, uint8_t *out, size_t out_length, size_t *needed);

/* Frees what the handle holds, and leaves it empty. Does nothing to an empty handle. */
void volume_close(struct volume_handle *handle);

/* Reads a plan and checks it. out must be empty. On success it holds the plan. A plan may be closed as soon as each
 * actor over it was made.
 *
 * If the plan has a fault, returns its number (docs/FAULTS.md) and writes to line as much as fits of a line with its
 * name and place. needed is the length of the whole line. */
uint8_t volume_plan_read(const uint8_t *text, size_t text_length, struct volume_handle *out, uint8_t *line,
    size_t line_length, size_t *needed);

/* Makes the segment of a member of a group as it is when the volume is born: a member of the group's first
 * configuration is whole and empty, any other member waits to be made whole. Call it once in the life of a node; after
 * a restart call volume_segment_resume. out must be empty. On success it holds the segment.
 *
 * Refused 82 where the plan names no such member. */
uint8_t volume_segment_new(struct volume_handle *plan, uint8_t group, uint8_t member, struct volume_handle *out);

/* Makes a segment from the bytes of a snapshot, all that volume_snapshot_read wrote: the segment that was saved, after
 * a restart. Then pass it, by volume_segment_take, each message that was logged since, in the order of the log, and
 * drop the answers. out must be empty. On success it holds the segment.
 *
 * Refused 1, 2 or 3 where the bytes aren't a snapshot's, and 82 where the plan names no such member. */
uint8_t volume_segment_resume(struct volume_handle *plan, uint8_t group, uint8_t member, const uint8_t *bytes,
    size_t bytes_length, struct volume_handle *out);

/* Passes a segment a message: a StepTo, Fence, Install, Write, Gossip, CopyAsk, CopyReport or PageAsk. Its answers are
 * handed out by volume_next_message. Log the message before an answer leaves the node: if it can't be logged, close
 * the handle and resume the segment from the disk. A message that is refused changes nothing, and isn't logged.
 *
 * Refused 1, 2 or 3 where the bytes aren't a message's, 9, 50 to 62, 81 and 41 as docs/FAULTS.md says; 91 while there
 * are messages to hand out. */
uint8_t volume_segment_take(struct volume_handle *segment, const uint8_t *bytes, size_t bytes_length);

/* Makes a segment whole from the copies that it took. Take a snapshot and put it on the disk before the segment takes
 * another message: copies don't survive a restart.
 *
 * Refused 56 where it is whole, 57 where the copies aren't those of a read quorum, 55 where they hold more records
 * than a segment may. */
uint8_t volume_segment_hydrate(struct volume_handle *segment);

/* Makes a Gossip of the record with this LSN, for the other nodes of the group.
 *
 * Refused 54 before the segment is whole, 53 where it has promised a later volume epoch than that of its log, 58 where
 * it holds no such record. */
uint8_t volume_segment_offer(struct volume_handle *segment, uint64_t lsn);

/* Writes the 512 bytes of a block as its records up to an LSN make it. The segment's node calls it for a reader that
 * knows the durable point; a writer asks by volume_writer_read.
 *
 * Refused 54 before the segment is whole, 60 where the member keeps no pages, 61 where the segment isn't complete up
 * to point; 92 where page has fewer than 512 bytes. */
uint8_t volume_segment_page(struct volume_handle *segment, uint32_t block, uint64_t point, uint8_t *page,
    size_t page_length);

/* Returns the segment complete point (SCL) in scl: the greatest LSN up to which the segment holds all records of its
 * group. */
uint8_t volume_segment_scl(struct volume_handle *segment, uint64_t *scl);

/* Returns a segment's epochs, its complete point and the number of its records in state. A node has taken a step once
 * membership_epoch is that of the step. */
uint8_t volume_segment_state(struct volume_handle *segment, struct volume_segment_state *state);

/* Takes a snapshot of a segment, and drops the pieces of copies and installs that are under way, as a restart does.
 * out must be empty. On success it holds the snapshot, whose bytes volume_snapshot_read hands out, and the segment's
 * handle holds exactly what the bytes are resumed to. A resumed segment that takes the messages logged since, in
 * order, reaches the same state.
 *
 * The snapshot shares the segment's records: it takes some 8 bytes for each of them, and stays as it is whatever the
 * segment does meanwhile. It may be read in another thread.
 *
 * Refused 91 while there are messages to hand out. */
uint8_t volume_segment_snapshot(struct volume_handle *segment, struct volume_handle *out);

/* Writes the next bytes of a snapshot to the front of out, as docs/WIRE.md lays them out: of its records as many as
 * fit whole. written is their number. What the calls write, one after the other, is what volume_segment_resume takes.
 * A snapshot has some 50 to 109 bytes for each record; a buffer that is large enough gets all bytes at once.
 *
 * Returns 93 where all bytes were written before, 92 where out is too short for the next record: 109 bytes suffice. */
uint8_t volume_snapshot_read(struct volume_handle *snapshot, uint8_t *out, size_t out_length, size_t *written);

/* Passes a segment a frame: messages for its node in one buffer, each after its length, a big-endian number of 4
 * bytes. The segment takes them in order, like volume_segment_take, up to the first that it refuses. taken is set to
 * the number of bytes taken. Log these before an answer leaves the node; they are a frame too, and may be replayed
 * whole or message by message. volume_next_message hands the answers out. An Ack replaces the Ack right before it if
 * it has the same label and no smaller complete point, so a frame of Writes makes one Ack.
 *
 * A number below 90 is the refusal of the message at taken; the messages before it were taken. To skip that message,
 * hand the answers out and pass the bytes after it; after 9 pass it again. Also returns 1 if the frame ends within a
 * message. On 90 and 91 nothing was taken. */
uint8_t volume_segment_take_frame(struct volume_handle *segment, const uint8_t *frame, size_t frame_length,
    size_t *taken);

/* Makes the first writer of a new volume, with volume epoch 1 and no record. Call it once in the life of the volume;
 * each later writer comes from a recovery. out must be empty. On success it holds the writer. */
uint8_t volume_writer_first(struct volume_handle *plan, struct volume_handle *out);

/* Makes a recovery from a View message of the authority, as volume_authority_assign makes it. Its Fence messages, one
 * a group, are handed out by volume_next_message. out must be empty. On success it holds the recovery.
 *
 * Refused 1, 2 or 3 where the bytes aren't a message's; 81 where the message isn't a View; 41 where the View hasn't a
 * place for each group of the volume's birth, has one for a group that the plan lacks, or has one that is no
 * configuration of its group. */
uint8_t volume_recovery_new(struct volume_handle *plan, const uint8_t *view, size_t view_length,
    struct volume_handle *out);

/* Passes a recovery or a writer a message that is for it: a View, Report, Ack or Page. What it makes is handed out by
 * volume_next_message. A later View makes Fences before a recovery's cut, and Installs after it. Of a Page the writer
 * only checks that it is for this writer. It keeps nothing: the engine reads the page from the message's last 512
 * bytes.
 *
 * Refused 1, 2 or 3 where the bytes aren't a message's, 81 where the message isn't for this client, 41 where a View's
 * places aren't the plan's; 91 while there are messages to hand out. */
uint8_t volume_client_take(struct volume_handle *client, const uint8_t *bytes, size_t bytes_length);

/* Finds the log in a recovery's reports, cuts it, and makes its Install messages.
 *
 * Refused 74 until the senders of the reports are a read quorum of each group, 75 after the cut and of a writer, 73
 * where no LSNs are left. */
uint8_t volume_recovery_cut(struct volume_handle *recovery);

/* Opens a recovery. On success the handle holds the writer of its volume epoch.
 *
 * Refused 74 before the cut, and until a write quorum of each group has acknowledged its install; 75 of a writer. */
uint8_t volume_recovery_open(struct volume_handle *recovery);

/* Issues a transaction of 1 to 32 changes. Makes one record for each change; the last record is a consistency point.
 * On a refusal it makes none. The Write messages are handed out by volume_next_message, in the order of the changes;
 * send each to all members of its group. The commit is durable once volume_writer_acknowledged says so of the last
 * record's LSN.
 *
 * Refused 70 of a recovery, 72 where it isn't a transaction of good changes, 77 where a group hasn't joined, 73 where
 * no LSNs are left, 71 where the log would run further ahead of the durable point than the plan allows; 94 where a
 * change hasn't 1 to 64 bytes; 91 while there are messages to hand out. */
uint8_t volume_writer_issue(struct volume_handle *writer, const struct volume_change *given, size_t given_count);

/* Makes the Write of a record of the log again, for members that may not have got it.
 *
 * Refused 70 of a recovery, 76 where the log has no record with this LSN. */
uint8_t volume_writer_resend(struct volume_handle *writer, uint64_t lsn);

/* Makes a PageAsk for a block as of the durable point. Send it to a full member of the group.
 *
 * Refused 70 of a recovery, 42 where the writer knows no such group. */
uint8_t volume_writer_read(struct volume_handle *writer, uint8_t group, uint32_t block);

/* Sets points to the points of a writer's log.
 *
 * Refused 70 of a recovery. */
uint8_t volume_writer_points(struct volume_handle *writer, struct volume_points *points);

/* Sets point to the LSN up to which a write quorum has acknowledged a group's records.
 *
 * Refused 70 of a recovery, 42 where the writer knows no such group. */
uint8_t volume_writer_group_point(struct volume_handle *writer, uint8_t group, uint64_t *point);

/* Sets acknowledged to whether lsn is a consistency point of the log at or below the durable point. No recovery loses
 * such a commit.
 *
 * Refused 70 of a recovery. */
uint8_t volume_writer_acknowledged(struct volume_handle *writer, uint64_t lsn, bool *acknowledged);

/* Makes the authority of a new volume: volume epoch 1 is assigned, and each group of the volume's birth is at its
 * first configuration. A volume has one authority; call it once in the life of the volume. out must be empty. On
 * success it holds the authority. */
uint8_t volume_authority_new(struct volume_handle *plan, struct volume_handle *out);

/* Makes an authority from the bytes that volume_authority_snapshot wrote. out must be empty. On success it holds the
 * authority.
 *
 * Refused 1 or 2 where the bytes aren't an authority's snapshot, and 2 where its last volume epoch is 0; 42 where it
 * has fewer groups than the plan has at birth, or more groups than the plan has. */
uint8_t volume_authority_resume(struct volume_handle *plan, const uint8_t *bytes, size_t bytes_length,
    struct volume_handle *out);

/* Assigns the next volume epoch, and makes the View for its recovery. Put a snapshot of the authority on the disk
 * before the View leaves. If the snapshot can't be written, close the handle and resume the authority from the disk.
 *
 * Refused 43 where no volume epoch is left. */
uint8_t volume_authority_assign(struct volume_handle *authority);

/* Advances a group to a child of its configuration. configuration is the child's number in the group's list. Makes the
 * StepTo for the nodes of the old and of the new configuration. Put a snapshot of the authority on the disk before the
 * message leaves.
 *
 * Refused 42 where no such group has joined, 41 where the group's configuration has no such child. */
uint8_t volume_authority_advance(struct volume_handle *authority, uint8_t group, uint32_t configuration);

/* Makes a View of the groups' places for the client of the last volume epoch, which takes it by volume_client_take.
 *
 * Refused 40 for any other volume epoch. */
uint8_t volume_authority_refresh(struct volume_handle *authority, uint32_t volume);

/* Lets the plan's next group join, at its first configuration. Put a snapshot of the authority on the disk before the
 * next View leaves.
 *
 * Refused 44 where every group of the plan has joined. */
uint8_t volume_authority_grow(struct volume_handle *authority);

/* Writes the state of an authority, as docs/WIRE.md lays it out: 23 bytes at most. needed is the length; 92 where out
 * is shorter. */
uint8_t volume_authority_snapshot(struct volume_handle *authority, uint8_t *out, size_t out_length, size_t *needed);

/* Sets readiness to what the whole members of a group can do after volume_authority_advance to a configuration. whole
 * has their numbers, from 0 to 63. Advance only if can_read is true: a recovery needs the reports of a read quorum,
 * and only whole members report. A whole member stays whole, so an older list is correct too.
 *
 * Refused 42 where no such group has joined, 41 where the group's configuration has no such child. */
uint8_t volume_authority_may_advance(struct volume_handle *authority, uint8_t group, uint32_t configuration,
    const uint8_t *whole, size_t whole_length, struct volume_readiness *readiness);

#ifdef __cplusplus
}
#endif

#endif
