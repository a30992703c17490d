#include "layout.h"

/* The fields of each kind: a digit is a number of so many bytes, brackets are a list after its count of 4 bytes, r is a
 * record, p is a page. */
static const char *const FIELDS[KINDS] = {
    [VIEW] = "4(14)",
    [STEP_TO] = "114",
    [FENCE] = "144",
    [REPORT] = "1441(488)(r)",
    [INSTALL] = "14422(488)(r)",
    [WRITE] = "144r",
    [GOSSIP] = "144r",
    [ACK] = "14418",
    [COPY_ASK] = "14",
    [COPY_REPORT] = "141822(488)(r)",
    [PAGE_ASK] = "14448",
    [PAGE] = "144148p",
};

/* The fields of a record before its bytes; the last one is the number of bytes. */
static const char RECORD[] = "8488814211";

/* Bytes of the message that is read. */
struct part {
    const uint8_t *at;
    size_t length;
};

struct reading {
    const uint8_t *at;
    size_t left;
    struct bytes out;
    struct part last; /* the last record of the list that is read, empty before the first one */
    bool is_good;
};

/* Reads a big-endian number of `size` bytes, and writes it. */
static uint64_t number(struct reading *reading, size_t size) {
    uint64_t value = 0;
    uint8_t bytes[8];
    if (reading->left < size) {
        reading->is_good = false;
        return 0;
    }
    for (size_t i = 0; i < size; i++)
        value = value << 8 | reading->at[i];
    reading->at += size;
    reading->left -= size;
    for (size_t i = 0; i < size; i++)
        bytes[i] = (uint8_t)(value >> 8 * (size - 1 - i));
    append(&reading->out, bytes, size);
    return value;
}

static void plain_bytes(struct reading *reading, uint64_t length) {
    if (reading->left < length) {
        reading->is_good = false;
        return;
    }
    append(&reading->out, reading->at, length);
    reading->at += length;
    reading->left -= length;
}

/* Whether a record comes before another one, in the order of their bytes. */
static bool is_before(struct part left, struct part right) {
    size_t least = left.length < right.length ? left.length : right.length;
    int order = memcmp(left.at, right.at, least);
    return order < 0 || (order == 0 && left.length < right.length);
}

/* Reads a record, which must come after the last one of its list. */
static void record(struct reading *reading) {
    const uint8_t *start = reading->at;
    uint64_t last = 0;
    for (const char *field = RECORD; *field != 0; field++)
        last = number(reading, (size_t)(*field - '0'));
    plain_bytes(reading, last);
    struct part whole = {start, (size_t)(reading->at - start)};
    if (reading->last.length > 0 && !is_before(reading->last, whole))
        reading->is_good = false;
    reading->last = whole;
}

/* Reads the fields up to the end of the text or of a list. */
static void fields(struct reading *reading, const char *text);

/* Reads a list; returns the text after it. */
static const char *list(struct reading *reading, const char *text) {
    uint64_t count = number(reading, 4);
    reading->last = (struct part){0};
    for (uint64_t i = 0; i < count && reading->is_good; i++)
        fields(reading, text);
    return strchr(text, ')') + 1;
}

static void fields(struct reading *reading, const char *text) {
    while (*text != 0 && *text != ')') {
        char field = *text++;
        if (field == '(')
            text = list(reading, text);
        else if (field == 'r')
            record(reading);
        else if (field == 'p')
            plain_bytes(reading, BLOCK);
        else
            (void)number(reading, (size_t)(field - '0'));
    }
}

struct bytes rewritten(const struct bytes *message) {
    struct reading reading = {.at = message->at, .left = message->length, .is_good = true};
    uint64_t version = number(&reading, 1), kind = number(&reading, 1);
    if (version == 1 && kind >= VIEW && kind < KINDS)
        fields(&reading, FIELDS[kind]);
    else
        reading.is_good = false;
    if (!reading.is_good || reading.left > 0)
        free_bytes(&reading.out);
    return reading.out;
}
