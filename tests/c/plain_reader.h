/* SPDX-License-Identifier: Apache-2.0 */
/* A second reader of SCTP packets, for tests: by hand from RFC 9260, whose sections are meant where no other RFC is named.
   It uses nothing of the library. */
#ifndef PLAIN_READER_H
#define PLAIN_READER_H

#include <stdarg.h>
#include <stdbool.h>
#include <stddef.h>
#include <stdint.h>
#include <string.h>

static inline uint16_t plain_u16(const uint8_t *bytes)
{
    return (uint16_t)(bytes[0] << 8 | bytes[1]);
}

static inline uint32_t plain_u32(const uint8_t *bytes)
{
    return (uint32_t)plain_u16(bytes) << 16 | plain_u16(bytes + 2);
}

/* Whether the numbers from a place on are these; a digit for each says how many bytes it has, 2 or 4. */
static inline bool plain_are(const uint8_t *bytes, const char *widths, ...)
{
    va_list numbers;
    bool are = true;
    va_start(numbers, widths);
    for (; *widths; bytes += *widths++ - '0')
        are = va_arg(numbers, uint32_t) == (*widths == '2' ? plain_u16(bytes) : plain_u32(bytes)) && are;
    va_end(numbers);
    return are;
}

/* ---- the kinds of chunks: flags with a meaning, bytes of numbers, and what comes after these */

enum {
    PLAIN_DATA, PLAIN_INIT, PLAIN_INIT_ACK, PLAIN_SACK, PLAIN_HEARTBEAT, PLAIN_HEARTBEAT_ACK, PLAIN_ABORT, PLAIN_SHUTDOWN,
    PLAIN_SHUTDOWN_ACK, PLAIN_ERROR, PLAIN_COOKIE_ECHO, PLAIN_COOKIE_ACK, PLAIN_SHUTDOWN_COMPLETE = 14, PLAIN_I_DATA = 64,
    PLAIN_RE_CONFIG = 130, PLAIN_FORWARD_TSN = 192, PLAIN_I_FORWARD_TSN = 194,
    PLAIN_HEADER = 12 /* the bytes before the first chunk */
};

struct plain_kind {
    uint8_t flags, numbers;
    enum { PLAIN_UNKNOWN, PLAIN_NOTHING, PLAIN_BYTES, PLAIN_I_STREAMS, PLAIN_PARAMETERS, PLAIN_CAUSES } rest;
};

static const struct plain_kind plain_kinds[256] = {
    [PLAIN_DATA] = {0x0f, 12, PLAIN_BYTES},
    [PLAIN_INIT] = {0, 16, PLAIN_PARAMETERS},
    [PLAIN_INIT_ACK] = {0, 16, PLAIN_PARAMETERS},
    [PLAIN_SACK] = {0, 12, PLAIN_BYTES},
    [PLAIN_HEARTBEAT] = {0, 0, PLAIN_PARAMETERS},
    [PLAIN_HEARTBEAT_ACK] = {0, 0, PLAIN_PARAMETERS},
    [PLAIN_ABORT] = {1, 0, PLAIN_CAUSES},
    [PLAIN_SHUTDOWN] = {0, 4, PLAIN_NOTHING},
    [PLAIN_SHUTDOWN_ACK] = {0, 0, PLAIN_NOTHING},
    [PLAIN_ERROR] = {0, 0, PLAIN_CAUSES},
    [PLAIN_COOKIE_ECHO] = {0, 0, PLAIN_BYTES},
    [PLAIN_COOKIE_ACK] = {0, 0, PLAIN_NOTHING},
    [PLAIN_SHUTDOWN_COMPLETE] = {1, 0, PLAIN_NOTHING},
    [PLAIN_I_DATA] = {0x0f, 16, PLAIN_BYTES},        /* RFC 8260 section 2.1 */
    [PLAIN_RE_CONFIG] = {0, 0, PLAIN_PARAMETERS},    /* RFC 6525 section 3.1 */
    [PLAIN_FORWARD_TSN] = {0, 4, PLAIN_BYTES},       /* RFC 3758 section 3.2 */
    [PLAIN_I_FORWARD_TSN] = {0, 4, PLAIN_I_STREAMS}, /* RFC 8260 section 2.3.1 */
};

/* ---- chunks (section 3.2), and the parameters and error causes in them (sections 3.2.1 and 3.3.10) */

/* Where one lies: `at`, `value` and `next` are offsets into the packet. A parameter or a cause has no flags. */
struct plain_item {
    uint16_t type;
    uint8_t flags;
    size_t at, value, size, next;
};

/* Reads the one at an offset, of a list that ends at `end`. Its length has the four bytes of header in it and no padding,
   which the last of a list may lack. */
static inline bool plain_item_at(const uint8_t *bytes, size_t at, size_t end, struct plain_item *item)
{
    size_t left = at < end ? end - at : 0, length = left < 4 ? 0 : plain_u16(bytes + at + 2), padded = (length + 3) / 4 * 4;
    if (length < 4 || length > left)
        return false;
    *item = (struct plain_item){.type = plain_u16(bytes + at), .at = at, .value = at + 4, .size = length - 4};
    item->next = padded < left ? at + padded : end;
    return true;
}

static inline bool plain_chunk_at(const uint8_t *bytes, size_t at, size_t length, struct plain_item *chunk)
{
    if (!plain_item_at(bytes, at, length, chunk))
        return false;
    chunk->type = bytes[at];
    chunk->flags = bytes[at + 1];
    return true;
}

/* Sets the bits of `ignored` that have no meaning in a chunk: in its flags, in reserved fields and in all padding. Returns
   whether the chunk has its numbers, and parameters or causes up to its end. */
static inline bool plain_ignored(const uint8_t *bytes, const struct plain_item *chunk, uint8_t *ignored)
{
    const struct plain_kind *kind = &plain_kinds[chunk->type];
    size_t at = chunk->value + kind->numbers, end = chunk->value + chunk->size;
    struct plain_item item;
    memset(ignored + end, 0xff, chunk->next - end);
    if (kind->rest == PLAIN_UNKNOWN)
        return true;
    ignored[chunk->at + 1] = (uint8_t)~kind->flags;
    if (chunk->type == PLAIN_I_DATA) /* after the stream */
        memset(ignored + chunk->value + 6, 0xff, 2);
    for (; kind->rest == PLAIN_I_STREAMS && at + 8 <= end; at += 8) /* after the stream, but for the bit that says unordered */
        memcpy(ignored + at + 2, "\xff\xfe", 2);
    for (; kind->rest >= PLAIN_PARAMETERS && plain_item_at(bytes, at, end, &item); at = item.next) {
        if (kind->rest == PLAIN_PARAMETERS && (item.type == 17 || item.type == 18)) /* RFC 6525 sections 4.5 and 4.6 */
            memset(ignored + item.value + 6, 0xff, 2);
        memset(ignored + item.value + item.size, 0xff, item.next - item.value - item.size);
    }
    return kind->rest == PLAIN_BYTES ? at <= end : at == end;
}

#endif
