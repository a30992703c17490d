/* The fields of the volume's messages that a transport reads; docs/WIRE.md has their layout. */
#ifndef MESSAGE_H
#define MESSAGE_H

#include "common.h"

enum message_kind {
    VIEW = 1,
    STEP_TO,
    FENCE,
    REPORT,
    INSTALL,
    WRITE,
    GOSSIP,
    ACK,
    COPY_ASK,
    COPY_REPORT,
    PAGE_ASK,
    PAGE
};

enum {
    GROUPS = 16,
    MEMBERS = 64,
    BLOCK = 512,
    SEGMENT_RECORDS = 1048576,
    LABELLED = 11, /* most messages begin with version, kind, group and label, of this length */
    VIEW_PLACES = 10,
    PLACE = 5,
    ACK_LENGTH = 20,
    PAGE_BYTES = 24,
};

static inline uint8_t message_kind(const uint8_t *at) { return at[1]; }
static inline uint8_t message_group(const uint8_t *at) { return at[2]; }
static inline uint32_t message_volume_epoch(const uint8_t *at) { return get32(at + 3); }
static inline uint32_t message_membership(const uint8_t *at) { return get32(at + 7); }
static inline uint8_t message_sender(const uint8_t *at) { return at[11]; }
static inline uint64_t ack_complete_point(const uint8_t *at) { return get64(at + 12); }
static inline uint16_t install_piece(const uint8_t *at) { return get16(at + 11); }
/* Returns how many records a piece of an Install has; the number follows its lineage. */
static inline uint32_t install_records(const uint8_t *at) { return get32(at + 19 + 20 * (size_t)get32(at + 15)); }
static inline uint64_t write_lsn(const uint8_t *at) { return get64(at + 11); }
static inline uint32_t page_block(const uint8_t *at) { return get32(at + 12); }
static inline uint32_t view_epoch(const uint8_t *at) { return get32(at + 2); }
static inline uint32_t view_groups(const uint8_t *at) { return get32(at + 6); }
static inline uint32_t view_membership(const uint8_t *at, uint32_t group) {
    return get32(at + VIEW_PLACES + PLACE * group + 1);
}

#endif
