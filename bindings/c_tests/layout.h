/* The layout of messages by docs/WIRE.md: a decoder that is independent of the library's. */
#ifndef LAYOUT_H
#define LAYOUT_H

#include "support.h"

/* Reads a message field by field, and writes the fields again. Returns empty bytes if it isn't a message,
 * or if its records are out of order. */
struct bytes rewritten(const struct bytes *message);

#endif
