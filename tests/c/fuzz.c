/* SPDX-License-Identifier: Apache-2.0 */
/* Tries the library on packets that are made at random: changed packets, and packets that its writing functions make. The same
   packets go to examples/c/responder.c.

   usage: fuzz [PACKETS [SEED [FILE]]]

   FILE holds packets in hexadecimal, one a line. The library's inputs and outputs lie in blocks of exactly their size, and
   in turn at the end and at the beginning of pages with none after or before them, so that a stray access is seen though
   the library isn't compiled with a sanitizer. Compiled with -DLIBFUZZER it is a target of clang's -fsanitize=fuzzer. */
#define _GNU_SOURCE
#include "../../examples/c/responder.c"
#include <dcsctp.h>
#include <stdio.h>
#include <stdlib.h>
#include <string.h>
#include <sys/mman.h>

/* ---- failing */

static const uint8_t *current;
static size_t current_length;

_Noreturn static void fail(const char *condition, int line)
{
    fprintf(stderr, "tests/c/fuzz.c:%d: fails: %s\nbytes: ", line, condition);
    for (size_t i = 0; i < current_length; i++)
        fprintf(stderr, "%02x", current[i]);
    fputc('\n', stderr);
    abort();
}

#define REQUIRE(condition) \
    do { \
        if (!(condition)) \
            fail(#condition, __LINE__); \
    } while (0)

/* ---- random numbers: xorshift64* */

static uint64_t state = 1;

static uint64_t draw(void)
{
    state ^= state >> 12;
    state ^= state << 25;
    state ^= state >> 27;
    return state * 0x2545f4914f6cdd1d;
}

static size_t below(size_t limit)
{
    return (size_t)((draw() >> 32) % limit);
}

/* ---- memory */

enum { PAGE = 4096, MOST = 1 << 20 };

/* Pages between two that can't be accessed; at most one block lies in them at a time. */
struct pages {
    uint8_t *first;
    bool is_taken;
};

static struct pages input_pages, output_pages;

static uint8_t *pages_of(struct pages *pages)
{
    if (!pages->first) {
        uint8_t *all = mmap(NULL, MOST + 2 * PAGE, PROT_NONE, MAP_PRIVATE | MAP_ANONYMOUS, -1, 0);
        REQUIRE(all != MAP_FAILED && mprotect(all + PAGE, MOST, PROT_READ | PROT_WRITE) == 0);
        pages->first = all + PAGE;
    }
    return pages->first;
}

enum placing { ALLOCATED, AT_END, AT_BEGINNING, PLACINGS };

struct block {
    uint8_t *bytes;
    size_t size;
    struct pages *pages;
};

static struct block block_of(struct pages *pages, size_t size, enum placing placing)
{
    struct block block = {NULL, size, NULL};
    if (placing == ALLOCATED || size > MOST || pages->is_taken) {
        block.bytes = malloc(size);
        REQUIRE(block.bytes || size == 0);
        if (!block.bytes)
            block.bytes = malloc(1);
    } else {
        block.bytes = pages_of(pages) + (placing == AT_END ? MOST - size : 0);
        block.pages = pages;
        pages->is_taken = true;
    }
    return block;
}

static void release(struct block block)
{
    if (block.pages)
        block.pages->is_taken = false;
    else
        free(block.bytes);
}

static struct block copy_of(struct pages *pages, const uint8_t *bytes, size_t size, enum placing placing)
{
    struct block block = block_of(pages, size, placing);
    if (size)
        memcpy(block.bytes, bytes, size);
    return block;
}

/* ---- packets as RFC 9260 describes them */

static uint32_t u16(const uint8_t *bytes)
{
    return (uint32_t)bytes[0] << 8 | bytes[1];
}

static uint32_t u32(const uint8_t *bytes)
{
    return u16(bytes) << 16 | u16(bytes + 2);
}

static size_t padded(size_t size)
{
    return (size + 3) / 4 * 4;
}

/* The checksum field of a packet, most significant byte first (section 6.8, appendix A). */
static uint32_t reference_word(const uint8_t *bytes, size_t length)
{
    static uint32_t table[256];
    uint32_t crc = UINT32_MAX;
    if (!table[1])
        for (uint32_t byte = 0; byte < 256; byte++) {
            table[byte] = byte;
            for (int bit = 0; bit < 8; bit++)
                table[byte] = table[byte] & 1 ? table[byte] >> 1 ^ 0x82f63b78 : table[byte] >> 1;
        }
    for (size_t i = 0; i < (length < 8 ? length : 8); i++)
        crc = table[(crc ^ bytes[i]) & 0xff] ^ crc >> 8;
    for (size_t i = 0; i < 4; i++)
        crc = table[crc & 0xff] ^ crc >> 8;
    for (size_t i = 12; i < length; i++)
        crc = table[(crc ^ bytes[i]) & 0xff] ^ crc >> 8;
    crc = ~crc;
    return crc >> 24 | (crc >> 8 & 0xff00) | (crc << 8 & 0xff0000) | crc << 24;
}

/* A second reader: the first fault from the left, and its offset. */
struct fault {
    uint32_t code;
    size_t offset;
};

static const struct fault none = {DCSCTP_OK, 0};

/* Up to three bytes of padding, of which `there` are there. */
static struct fault padding_fault(const uint8_t *bytes, size_t offset, size_t there)
{
    for (size_t i = 0; i < there; i++)
        if (bytes[offset + i])
            return (struct fault){DCSCTP_FAULT_PADDING, offset + i};
    return none;
}

static uint32_t parameter_fault(uint32_t type, const uint8_t *value, size_t size)
{
    bool fits;
    switch (type) {
    case 13: /* RFC 6525 section 4.1 */
        fits = size >= 12 && size % 2 == 0;
        break;
    case 14:
        fits = size >= 4 && size % 2 == 0;
        break;
    case 15:
    case 0x8001: /* RFC 9653 section 4 */
        fits = size == 4;
        break;
    case 16:
        if ((size == 8 || size == 16) && u32(value + 4) > 6)
            return DCSCTP_FAULT_VALUE;
        fits = size == 8 || size == 16;
        break;
    case 17:
    case 18:
        fits = size == 8;
        break;
    case 0xc000: /* RFC 3758 section 3.1 */
        fits = size == 0;
        break;
    default:
        fits = true;
    }
    return fits ? DCSCTP_OK : DCSCTP_FAULT_LENGTH;
}

/* Section 3.3.10 */
static uint32_t cause_fault(uint32_t code, const uint8_t *value, size_t size)
{
    bool fits = true;
    if (code == 2)
        fits = size >= 4 && size == 4 + 2 * (size_t)u32(value);
    else if (code == 9)
        fits = size == 4;
    else if (code == 10)
        fits = size == 0;
    return fits ? DCSCTP_OK : DCSCTP_FAULT_LENGTH;
}

static struct fault list_fault(const uint8_t *bytes, size_t offset, size_t end, bool strict,
                               uint32_t (*item_fault)(uint32_t, const uint8_t *, size_t))
{
    while (offset < end) {
        size_t left = end - offset, size = left < 4 ? 0 : u16(bytes + offset + 2);
        if (size < 4 || size > left)
            return (struct fault){DCSCTP_FAULT_LENGTH, offset};
        uint32_t code = item_fault(u16(bytes + offset), bytes + offset + 4, size - 4);
        if (code != DCSCTP_OK)
            return (struct fault){code, offset};
        size_t next = padded(size) < left ? offset + padded(size) : end;
        struct fault fault = strict ? padding_fault(bytes, offset + size, next - offset - size) : none;
        if (fault.code != DCSCTP_OK)
            return fault;
        offset = next;
    }
    return none;
}

static struct fault value_fault(const uint8_t *bytes, size_t chunk, size_t size, bool strict)
{
    const uint8_t *value = bytes + chunk + 4;
    size_t begin = chunk + 4, end = begin + size;
    bool fits = true;
    switch (bytes[chunk]) {
    case DCSCTP_CHUNK_DATA:
        fits = size >= 12;
        break;
    case DCSCTP_CHUNK_I_DATA:
        fits = size >= 16;
        break;
    case DCSCTP_CHUNK_INIT:
    case DCSCTP_CHUNK_INIT_ACK:
        if (size >= 16)
            return list_fault(bytes, begin + 16, end, strict, parameter_fault);
        fits = false;
        break;
    case DCSCTP_CHUNK_SACK:
        fits = size >= 12 && size == 12 + 4 * (size_t)u16(value + 8) + 4 * (size_t)u16(value + 10);
        break;
    case DCSCTP_CHUNK_HEARTBEAT:
    case DCSCTP_CHUNK_HEARTBEAT_ACK:
    case DCSCTP_CHUNK_RE_CONFIG:
        return list_fault(bytes, begin, end, strict, parameter_fault);
    case DCSCTP_CHUNK_ABORT:
        return list_fault(bytes, begin, end, strict, cause_fault);
    case DCSCTP_CHUNK_ERROR:
        if (size > 0)
            return list_fault(bytes, begin, end, strict, cause_fault);
        fits = false;
        break;
    case DCSCTP_CHUNK_SHUTDOWN:
        fits = size == 4;
        break;
    case DCSCTP_CHUNK_SHUTDOWN_ACK:
    case DCSCTP_CHUNK_COOKIE_ACK:
    case DCSCTP_CHUNK_SHUTDOWN_COMPLETE:
        fits = size == 0;
        break;
    case DCSCTP_CHUNK_COOKIE_ECHO:
        fits = size > 0;
        break;
    case DCSCTP_CHUNK_FORWARD_TSN:
        fits = size >= 4 && size % 4 == 0;
        break;
    case DCSCTP_CHUNK_I_FORWARD_TSN:
        fits = size >= 4 && size % 8 == 4;
        break;
    default:
        break;
    }
    return fits ? none : (struct fault){DCSCTP_FAULT_LENGTH, chunk};
}

static struct fault reference_fault(const uint8_t *bytes, size_t length, uint32_t word, const struct dcsctp_policy *policy)
{
    if (length < 16 || length > 65535)
        return (struct fault){DCSCTP_FAULT_SIZE, length < 16 ? length : 65535};
    uint32_t field = u32(bytes + 8);
    if (field != word && !policy->any_checksum && !(policy->zero_checksum && field == 0))
        return (struct fault){DCSCTP_FAULT_CHECKSUM, 8};
    size_t offset = 12;
    while (offset < length) {
        size_t left = length - offset, size = left < 4 ? 0 : u16(bytes + offset + 2);
        if (size < 4 || size > left)
            return (struct fault){DCSCTP_FAULT_LENGTH, offset};
        struct fault fault = value_fault(bytes, offset, size - 4, policy->strict_padding);
        size_t next = padded(size) < left ? offset + padded(size) : length;
        if (fault.code == DCSCTP_OK && policy->strict_padding) {
            fault = padding_fault(bytes, offset + size, next - offset - size);
            if (fault.code == DCSCTP_OK && padded(size) > left)
                fault = (struct fault){DCSCTP_FAULT_PADDING, length};
        }
        if (fault.code != DCSCTP_OK)
            return fault;
        offset = next;
    }
    return (struct fault){DCSCTP_OK, length};
}

/* Whether bytes are UTF-8 (RFC 3629). */
static bool is_utf8(const uint8_t *bytes, size_t size)
{
    for (size_t i = 0; i < size;) {
        uint8_t first = bytes[i];
        size_t more = first < 0x80 ? 0 : first >= 0xc2 && first <= 0xdf ? 1 : (first & 0xf0) == 0xe0 ? 2 :
                      first >= 0xf0 && first <= 0xf4 ? 3 : size;
        if (more >= size - i)
            return false;
        for (size_t k = 1; k <= more; k++)
            if ((bytes[i + k] & 0xc0) != 0x80)
                return false;
        if (more && ((first == 0xe0 && bytes[i + 1] < 0xa0) || (first == 0xed && bytes[i + 1] > 0x9f)
                     || (first == 0xf0 && bytes[i + 1] < 0x90) || (first == 0xf4 && bytes[i + 1] > 0x8f)))
            return false;
        i += 1 + more;
    }
    return true;
}

/* ---- the reading functions, on any bytes */

#define POLICY(any, zero, strict) {.any_checksum = any, .zero_checksum = zero, .strict_padding = strict}
static const struct dcsctp_policy policies[] = {POLICY(0, 0, 0), POLICY(1, 0, 0), POLICY(0, 1, 0),
                                                POLICY(0, 0, 1), POLICY(1, 0, 1), POLICY(1, 1, 1)};
enum { POLICIES = sizeof policies / sizeof *policies };
static const struct dcsctp_policy *const any = &policies[1], *const strict = &policies[4];

static void try_check(const uint8_t *bytes, size_t length, uint32_t word)
{
    for (int i = 0; i < POLICIES; i++) {
        size_t offset = SIZE_MAX;
        struct fault wanted = reference_fault(bytes, length, word, &policies[i]);
        REQUIRE(dcsctp_check(bytes, length, word, &policies[i]) == wanted.code);
        REQUIRE(dcsctp_first_fault(bytes, length, word, &policies[i], &offset) == wanted.code);
        REQUIRE(offset == wanted.offset);
    }
}

/* Whether all are the byte that outputs are filled with: the first is, and each other is as the one before it. */
static bool is_filled(const uint8_t *bytes, size_t size)
{
    return size == 0 || (bytes[0] == 0xa5 && !memcmp(bytes, bytes + 1, size - 1));
}

static bool is_block(const struct dcsctp_gap_ack_block *block, const struct dcsctp_gap_ack_block *other)
{
    return block->start == other->start && block->end == other->end;
}

static bool is_stream(const struct dcsctp_skipped_stream *stream, const struct dcsctp_skipped_stream *other)
{
    return stream->stream == other->stream && stream->ssn == other->ssn && stream->mid == other->mid
        && stream->is_unordered == other->is_unordered;
}

static bool is_number(const uint16_t *number, const uint16_t *other)
{
    return *number == *other;
}

static bool is_tsn(const uint32_t *tsn, const uint32_t *other)
{
    return *tsn == *other;
}

static bool is_parameter(const struct dcsctp_parameter *item, const struct dcsctp_parameter *other)
{
    return item->type == other->type && item->value_offset == other->value_offset && item->value_size == other->value_size
        && item->next == other->next;
}

/* The item after the one that `item` is, which has to be that before this index. */
static bool next_parameter(const uint8_t *bytes, size_t length, const struct dcsctp_chunk *chunk, size_t index, struct dcsctp_parameter *item)
{
    return dcsctp_parameter_at(bytes, length, chunk, index == 0 ? dcsctp_list_offset(chunk) : item->next, item);
}

/* Writes a whole list to arrays that have more room than it needs, just enough, too little for one, and a part of it: each item is what
   `read` reads at its index, and the rest of the array stays. */
#define TRY_WHOLE_LIST(name, owner, type, write, read, is_same)                                                          \
    static void name(const uint8_t *bytes, size_t length, const struct owner *of)                                        \
    {                                                                                                                    \
        const size_t count = write(bytes, length, of, NULL, 0);                                                          \
        REQUIRE(count <= length / 2);                                                                                    \
        const size_t rooms[] = {count + 1 + below(3), count, count - (count > 0), below(count + 1)};                     \
        for (size_t i = 0; i < (count ? 4 : 1); i++) {                                                                   \
            size_t size = rooms[i] * sizeof(type), items = count < rooms[i] ? count : rooms[i];                          \
            struct block block = block_of(&output_pages, size, (enum placing)below(PLACINGS));                           \
            type found, wanted;                                                                                          \
            memset(block.bytes, 0xa5, size);                                                                             \
            REQUIRE(write(bytes, length, of, (type *)(void *)block.bytes, rooms[i]) == count);                           \
            for (size_t k = 0; k < count; k++) {                                                                         \
                REQUIRE(read(bytes, length, of, k, &wanted));                                                            \
                if (k < items) {                                                                                         \
                    memcpy(&found, block.bytes + k * sizeof found, sizeof found);                                        \
                    REQUIRE(is_same(&found, &wanted));                                                                   \
                }                                                                                                        \
            }                                                                                                            \
            REQUIRE(!read(bytes, length, of, count, &wanted));                                                           \
            REQUIRE(is_filled(block.bytes + items * sizeof(type), size - items * sizeof(type)));                         \
            release(block);                                                                                              \
        }                                                                                                                \
    }

TRY_WHOLE_LIST(try_all_blocks, dcsctp_chunk, struct dcsctp_gap_ack_block, dcsctp_gap_ack_blocks, dcsctp_gap_ack_block, is_block)
TRY_WHOLE_LIST(try_all_tsns, dcsctp_chunk, uint32_t, dcsctp_duplicate_tsns, dcsctp_duplicate_tsn, is_tsn)
TRY_WHOLE_LIST(try_all_skipped, dcsctp_chunk, struct dcsctp_skipped_stream, dcsctp_skipped_streams, dcsctp_skipped_stream, is_stream)
TRY_WHOLE_LIST(try_all_parameters, dcsctp_chunk, struct dcsctp_parameter, dcsctp_parameters, next_parameter, is_parameter)
TRY_WHOLE_LIST(try_all_reset, dcsctp_parameter, uint16_t, dcsctp_reset_streams, dcsctp_reset_stream, is_number)
TRY_WHOLE_LIST(try_all_missing, dcsctp_parameter, uint16_t, dcsctp_missing_parameters, dcsctp_missing_parameter, is_number)

static void try_skipped_streams(const uint8_t *bytes, size_t length, const struct dcsctp_chunk *chunk, const uint8_t *value, size_t size)
{
    bool by_mid = chunk->type == DCSCTP_CHUNK_I_FORWARD_TSN;
    size_t each = by_mid ? 8 : 4, count = size / each - (by_mid ? 0 : size >= 4); /* 4 are those of the TSN */
    bool is_forward = (by_mid || chunk->type == DCSCTP_CHUNK_FORWARD_TSN) && size >= 4 && (size - 4) % each == 0;
    struct dcsctp_forward_tsn forward = {77, 77};
    struct dcsctp_skipped_stream stream = {77, 77, 77, true};
    REQUIRE(dcsctp_forward_tsn(bytes, length, chunk, &forward) == is_forward);
    if (is_forward)
        REQUIRE(forward.new_cumulative_tsn == u32(value) && forward.stream_count == count);
    else
        REQUIRE(forward.new_cumulative_tsn == 77 && forward.stream_count == 77);
    for (size_t i = 0; is_forward && i < count; i = i < 20 || i + 1 == count ? i + 1 : count - 1) {
        const uint8_t *at = value + 4 + each * i;
        REQUIRE(dcsctp_skipped_stream(bytes, length, chunk, i, &stream) && stream.stream == u16(at));
        REQUIRE(stream.ssn == (by_mid ? 0 : u16(at + 2)) && stream.mid == (by_mid ? u32(at + 4) : 0));
        REQUIRE(stream.is_unordered == (by_mid && (at[3] & 1)));
    }
    const size_t beyond[] = {is_forward ? count : 0, is_forward ? count + below(9) : 1, SIZE_MAX / each - below(3), (size_t)draw() | 1ull << 63};
    stream.stream = 77;
    for (size_t i = 0; i < 4; i++)
        REQUIRE(!dcsctp_skipped_stream(bytes, length, chunk, beyond[i], &stream) && stream.stream == 77);
}

/* What was read of a value: its parts lie in it; or it wasn't, and the struct is as it was, with 77 everywhere. */
static void require_registered(bool is_read, const struct dcsctp_registered *found, size_t offset, size_t size)
{
    if (is_read) {
        REQUIRE(!found->address_size || (found->address_offset >= offset && found->address_offset + found->address_size <= offset + size));
        REQUIRE(!found->rest_offset || found->rest_offset >= offset);
        REQUIRE(!found->rest_offset || found->rest_offset + found->rest_size == offset + size);
    } else {
        REQUIRE(found->number == 77 && found->second_number == 77 && found->short_number == 77 && found->third_short_number == 77);
        REQUIRE(found->flags == 77 && found->address_offset == 77 && found->address_size == 77);
        REQUIRE(found->rest_offset == 77 && found->rest_size == 77);
    }
}

enum registered_level { REGISTERED_CHUNK, REGISTERED_PARAMETER, REGISTERED_CAUSE };

/* What was read of a value is written, and reads as the same. */
static void rewrite_registered(enum registered_level level, uint16_t type, const uint8_t *bytes, size_t length,
                               const struct dcsctp_registered *found)
{
    static uint8_t packet[65536];
    size_t size;
    struct dcsctp_chunk chunk;
    struct dcsctp_parameter item;
    struct dcsctp_registered again = {77, 77, 77, 77, 77, 77, 77, 77, 77, 77};
    REQUIRE(dcsctp_begin(packet, sizeof packet, &size, 1, 2, 3) == DCSCTP_OK);
    if (level == REGISTERED_CHUNK) {
        REQUIRE(dcsctp_add_registered_chunk(packet, sizeof packet, &size, (uint8_t)type, found, bytes, length) == DCSCTP_OK);
        REQUIRE(dcsctp_chunk_at(packet, size, 12, &chunk) && chunk.type == type && chunk.flags == found->flags && chunk.next == size);
        REQUIRE(dcsctp_registered_chunk(packet, size, &chunk, &again));
    } else {
        REQUIRE(dcsctp_add_chunk(packet, sizeof packet, &size, DCSCTP_CHUNK_ERROR, 0, NULL, 0) == DCSCTP_OK);
        REQUIRE((level == REGISTERED_CAUSE ? dcsctp_add_registered_cause : dcsctp_add_registered_parameter)(
                    packet, sizeof packet, &size, 12, type, found, bytes, length) == DCSCTP_OK);
        REQUIRE(dcsctp_item_at(packet, size, 16, &item) && item.type == type && item.next == size);
        REQUIRE((level == REGISTERED_CAUSE ? dcsctp_registered_cause : dcsctp_registered_parameter)(packet, size, &item, &again));
    }
    REQUIRE(again.number == found->number && again.second_number == found->second_number && again.short_number == found->short_number);
    REQUIRE(again.second_short_number == found->second_short_number && again.third_short_number == found->third_short_number);
    REQUIRE(again.flags == found->flags && again.address_size == found->address_size && again.rest_size == found->rest_size);
    REQUIRE(!memcmp(packet + again.address_offset, bytes + found->address_offset, again.address_size));
    REQUIRE(!memcmp(packet + again.rest_offset, bytes + found->rest_offset, again.rest_size));
}

/* A parameter or an error cause as a call or a caller gave it: what its offsets say, read here. */
static void try_item(const uint8_t *bytes, size_t length, const struct dcsctp_parameter *item)
{
    bool is_there = item->value_offset <= length && item->value_size <= length - item->value_offset;
    const uint8_t *value = is_there ? bytes + item->value_offset : bytes;
    size_t size = is_there ? item->value_size : 0, type = item->type, streams = 0, types = 0;
    uint32_t number = 77;
    REQUIRE(dcsctp_number(bytes, length, item, &number) == (is_there && size == 4));
    REQUIRE(number == (is_there && size == 4 ? u32(value) : 77));

    uint16_t shorts[] = {77, 77};
    size_t short_count = size % 2 == 0 ? size / 2 : 0;
    REQUIRE(dcsctp_short_numbers(bytes, length, item, shorts, 2) == short_count);
    REQUIRE(shorts[0] == (short_count > 0 ? u16(value) : 77) && shorts[1] == (short_count > 1 ? u16(value + 2) : 77));

    struct dcsctp_registered as_parameter = {77, 77, 77, 77, 77, 77, 77, 77, 77, 77}, as_cause = as_parameter;
    bool is_read = dcsctp_registered_parameter(bytes, length, item, &as_parameter);
    REQUIRE(is_there || !is_read);
    require_registered(is_read, &as_parameter, item->value_offset, size);
    if (is_read && size < 65000)
        rewrite_registered(REGISTERED_PARAMETER, item->type, bytes, length, &as_parameter);
    is_read = dcsctp_registered_cause(bytes, length, item, &as_cause);
    REQUIRE(is_there || !is_read);
    require_registered(is_read, &as_cause, item->value_offset, size);
    if (is_read && size < 65000)
        rewrite_registered(REGISTERED_CAUSE, item->type, bytes, length, &as_cause);

    bool is_re_config = is_there && type >= 13 && type <= 18 && parameter_fault((uint32_t)type, value, size) == DCSCTP_OK;
    struct dcsctp_re_config found = {.type = 77, .result = 77, .has_next_tsns = true, .new_streams = 77, .stream_count = 77};
    REQUIRE(dcsctp_re_config(bytes, length, item, &found) == is_re_config);
    if (is_re_config) {
        bool is_response = type == 16, is_outgoing = type == 13, has_next = is_response && size == 16, adds = type >= 17;
        streams = is_outgoing ? (size - 12) / 2 : type == 14 ? (size - 4) / 2 : 0;
        REQUIRE(found.type == type && found.request_number == (is_response ? 0 : u32(value)) && found.stream_count == streams);
        REQUIRE(found.response_number == (is_response ? u32(value) : is_outgoing ? u32(value + 4) : 0));
        REQUIRE(found.last_tsn == (is_outgoing ? u32(value + 8) : 0) && found.result == (is_response ? u32(value + 4) : 0));
        REQUIRE(found.has_next_tsns == has_next && found.new_streams == (adds ? u16(value + 4) : 0));
        REQUIRE(found.sender_next_tsn == (has_next ? u32(value + 8) : 0) && found.receiver_next_tsn == (has_next ? u32(value + 12) : 0));
    } else {
        REQUIRE(found.type == 77 && found.request_number == 0 && found.result == 77 && found.has_next_tsns && found.new_streams == 77);
        REQUIRE(found.stream_count == 77);
    }
    bool is_missing = is_there && type == 2 && cause_fault(2, value, size) == DCSCTP_OK;
    types = is_missing ? (size - 4) / 2 : 0;
    uint16_t found_type = 77, stream = 77;
    for (size_t i = 0; i < streams; i = i < 20 || i + 1 == streams ? i + 1 : streams - 1)
        REQUIRE(dcsctp_reset_stream(bytes, length, item, i, &stream) && stream == u16(value + (type == 13 ? 12 : 4) + 2 * i));
    for (size_t i = 0; i < types; i = i < 20 || i + 1 == types ? i + 1 : types - 1)
        REQUIRE(dcsctp_missing_parameter(bytes, length, item, i, &found_type) && found_type == u16(value + 4 + 2 * i));
    const size_t more[] = {0, below(9), SIZE_MAX / 2 - below(9), (size_t)draw() | 1ull << 63};
    stream = found_type = 77;
    for (size_t i = 0; i < 4; i++) {
        REQUIRE(!dcsctp_reset_stream(bytes, length, item, streams + more[i], &stream) && stream == 77);
        REQUIRE(!dcsctp_missing_parameter(bytes, length, item, types + more[i], &found_type) && found_type == 77);
    }
    try_all_reset(bytes, length, item);
    try_all_missing(bytes, length, item);
}

/* Reads the item at an offset; whether one is there. */
static bool try_item_at(const uint8_t *bytes, size_t length, const struct dcsctp_chunk *chunk, bool is_there, size_t at,
                        struct dcsctp_parameter *item)
{
    size_t end = is_there ? chunk->value_offset + chunk->value_size : 0;
    size_t left = is_there && at >= chunk->value_offset && at <= end ? end - at : 0, size = left < 4 ? 0 : u16(bytes + at + 2);
    bool is_item = size >= 4 && size <= left;
    *item = (struct dcsctp_parameter){77, 77, 77, 77};
    REQUIRE(dcsctp_parameter_at(bytes, length, chunk, at, item) == is_item);
    if (is_item)
        REQUIRE(item->type == u16(bytes + at) && item->value_offset == at + 4 && item->value_size == size - 4
                && item->next == (padded(size) < left ? at + padded(size) : end));
    else
        REQUIRE(item->type == 77 && item->value_offset == 77 && item->value_size == 77 && item->next == 77);

    /* the same in bytes that end where the value does */
    struct dcsctp_parameter other = {77, 77, 77, 77};
    if (is_there && at >= chunk->value_offset)
        REQUIRE(dcsctp_item_at(bytes, end, at, &other) == is_item && is_parameter(item, &other));
    return is_item;
}

/* The bytes of a value before its parameters or error causes: all of them where the type has none. */
static size_t numbers_before_list(uint8_t type, size_t size)
{
    switch (type) {
    case DCSCTP_CHUNK_INIT:
    case DCSCTP_CHUNK_INIT_ACK:
        return size < 16 ? size : 16;
    case DCSCTP_CHUNK_HEARTBEAT:
    case DCSCTP_CHUNK_HEARTBEAT_ACK:
    case DCSCTP_CHUNK_RE_CONFIG:
    case DCSCTP_CHUNK_ABORT:
    case DCSCTP_CHUNK_ERROR:
        return 0;
    default:
        return size;
    }
}

static void try_list(const uint8_t *bytes, size_t length, const struct dcsctp_chunk *chunk, bool is_there)
{
    const size_t before = numbers_before_list(chunk->type, chunk->value_size), most = SIZE_MAX - chunk->value_offset;
    struct dcsctp_parameter item;
    size_t at = dcsctp_list_offset(chunk);
    REQUIRE(at == chunk->value_offset + (before < most ? before : most));
    for (; try_item_at(bytes, length, chunk, is_there, at, &item); at = item.next)
        try_item(bytes, length, &item);
    const size_t offsets[] = {chunk->value_offset + below(chunk->value_size % 70000 + 1), below(length + 8), (size_t)draw(), SIZE_MAX - below(40)};
    for (size_t i = 0; i < 4; i++) {
        if (try_item_at(bytes, length, chunk, is_there, offsets[i], &item))
            try_item(bytes, length, &item);
        /* one that no call wrote */
        item = (struct dcsctp_parameter){(uint16_t)below(20), offsets[below(4)], below(2) ? below(length + 1) : offsets[below(4)], offsets[i]};
        try_item(bytes, length, &item);
    }
}

/* A chunk as a call or a caller gave it: what its offsets say, read here. */
static void try_parts(const uint8_t *bytes, size_t length, const struct dcsctp_chunk *chunk)
{
    bool is_there = chunk->value_offset <= length && chunk->value_size <= length - chunk->value_offset;
    const uint8_t *value = is_there ? bytes + chunk->value_offset : bytes;
    size_t size = is_there ? chunk->value_size : 0, offset = chunk->value_offset;
    struct dcsctp_data data = {.tsn = 77, .payload_size = 77}, wanted = data;
    bool is_data = chunk->type == DCSCTP_CHUNK_DATA && size >= 12, is_idata = chunk->type == DCSCTP_CHUNK_I_DATA && size >= 16;
    if (is_data || is_idata) {
        wanted = (struct dcsctp_data){.tsn = u32(value), .stream = (uint16_t)u16(value + 4)};
        wanted.is_unordered = chunk->flags & 4;
        wanted.is_beginning = chunk->flags & 2;
        wanted.is_end = chunk->flags & 1;
        wanted.immediate_ack = chunk->flags & 8;
        wanted.payload_offset = offset + (is_data ? 12 : 16);
        wanted.payload_size = size - (is_data ? 12 : 16);
        if (is_data) {
            wanted.ssn = (uint16_t)u16(value + 6);
            wanted.ppid = u32(value + 8);
        } else {
            wanted.mid = u32(value + 8);
            *(wanted.is_beginning ? &wanted.ppid : &wanted.fsn) = u32(value + 12);
        }
    }
    REQUIRE(dcsctp_data(bytes, length, chunk, &data) == (is_data || is_idata));
    REQUIRE(!memcmp(&data, &wanted, sizeof data));

    struct dcsctp_init init = {77, 77, 77, 77, 77}, init_wanted = init;
    bool is_init = (chunk->type == DCSCTP_CHUNK_INIT || chunk->type == DCSCTP_CHUNK_INIT_ACK) && size >= 16;
    if (is_init)
        init_wanted = (struct dcsctp_init){u32(value), u32(value + 4), (uint16_t)u16(value + 8),
                                           (uint16_t)u16(value + 10), u32(value + 12)};
    REQUIRE(dcsctp_init(bytes, length, chunk, &init) == is_init && !memcmp(&init, &init_wanted, sizeof init));

    struct dcsctp_registered registered = {77, 77, 77, 77, 77, 77, 77, 77, 77, 77};
    bool is_registered = dcsctp_registered_chunk(bytes, length, chunk, &registered);
    REQUIRE(is_there || !is_registered);
    require_registered(is_registered, &registered, offset, size);
    if (is_registered && size < 65000)
        rewrite_registered(REGISTERED_CHUNK, chunk->type, bytes, length, &registered);

    struct dcsctp_sack sack = {77, 77, 77, 77};
    struct dcsctp_gap_ack_block block = {77, 77};
    uint32_t tsn = 77;
    size_t blocks = 0, duplicates = 0;
    bool is_sack = chunk->type == DCSCTP_CHUNK_SACK && size >= 12, is_valid = true;
    if (is_sack) {
        blocks = u16(value + 8);
        duplicates = u16(value + 10);
        is_sack = size == 12 + 4 * blocks + 4 * duplicates;
    }
    REQUIRE(dcsctp_sack(bytes, length, chunk, &sack) == is_sack);
    if (is_sack)
        REQUIRE(sack.cumulative_tsn_ack == u32(value) && sack.a_rwnd == u32(value + 4) && sack.block_count == blocks
                && sack.duplicate_count == duplicates);
    else
        REQUIRE(sack.cumulative_tsn_ack == 77 && sack.a_rwnd == 77 && sack.block_count == 77 && sack.duplicate_count == 77);
    uint32_t last = 0;
    for (size_t i = 0; is_sack && i < blocks; i++) {
        uint32_t start = u16(value + 12 + 4 * i), end = u16(value + 14 + 4 * i);
        is_valid = is_valid && start >= last + 2 && start <= end;
        last = end;
        if (i < 20 || i + 1 == blocks)
            REQUIRE(dcsctp_gap_ack_block(bytes, length, chunk, i, &block) && block.start == start && block.end == end);
    }
    for (size_t i = 0; is_sack && i < duplicates; i = i < 20 || i + 1 == duplicates ? i + 1 : duplicates - 1)
        REQUIRE(dcsctp_duplicate_tsn(bytes, length, chunk, i, &tsn) && tsn == u32(value + 12 + 4 * blocks + 4 * i));
    REQUIRE(dcsctp_validate_sack(bytes, length, chunk) == (is_sack && is_valid));
    const size_t beyond[] = {0, 1, below(SIZE_MAX >> 32), (size_t)draw(), SIZE_MAX};
    for (size_t i = 0; i < 5; i++) {
        block = (struct dcsctp_gap_ack_block){77, 77};
        tsn = 77;
        if (!is_sack || beyond[i] >= blocks)
            REQUIRE(!dcsctp_gap_ack_block(bytes, length, chunk, beyond[i], &block) && block.start == 77 && block.end == 77);
        if (!is_sack || beyond[i] >= duplicates)
            REQUIRE(!dcsctp_duplicate_tsn(bytes, length, chunk, beyond[i], &tsn) && tsn == 77);
    }
    REQUIRE(!dcsctp_gap_ack_block(bytes, length, chunk, blocks, &block));
    REQUIRE(!dcsctp_duplicate_tsn(bytes, length, chunk, duplicates, &tsn));

    bool is_shutdown = chunk->type == DCSCTP_CHUNK_SHUTDOWN && size == 4;
    tsn = 77;
    REQUIRE(dcsctp_shutdown(bytes, length, chunk, &tsn) == is_shutdown && tsn == (is_shutdown ? u32(value) : 77));
    try_skipped_streams(bytes, length, chunk, value, size);
    try_all_blocks(bytes, length, chunk);
    try_all_tsns(bytes, length, chunk);
    try_all_skipped(bytes, length, chunk);
    try_list(bytes, length, chunk, is_there);
    try_all_parameters(bytes, length, chunk);
}

static void try_walk(const uint8_t *bytes, size_t length)
{
    struct dcsctp_header header = {77, 77, 77, 77};
    REQUIRE(dcsctp_header(bytes, length, &header) == (length >= 12));
    if (length >= 12)
        REQUIRE(header.source_port == u16(bytes) && header.destination_port == u16(bytes + 2)
                && header.verification_tag == u32(bytes + 4) && header.checksum == u32(bytes + 8));
    else
        REQUIRE(header.source_port == 77 && header.checksum == 77);

    struct dcsctp_chunk chunk;
    memset(&chunk, 77, sizeof chunk);
    size_t at = DCSCTP_FIRST_CHUNK;
    for (; dcsctp_chunk_at(bytes, length, at, &chunk); at = chunk.next) {
        REQUIRE(at + 4 <= length && chunk.type == bytes[at] && chunk.flags == bytes[at + 1]);
        REQUIRE(chunk.value_offset == at + 4 && chunk.value_size + 4 == u16(bytes + at + 2));
        REQUIRE(chunk.value_size <= length - at - 4 && chunk.next > at && chunk.next <= length);
        REQUIRE(chunk.next == at + padded(chunk.value_size + 4) || (chunk.next == length && length < at + padded(chunk.value_size + 4)));
        try_parts(bytes, length, &chunk);
    }
    /* no whole chunk is there: that is the end, or where the bytes aren't a packet */
    if (at < length)
        REQUIRE(length - at < 4 || u16(bytes + at + 2) < 4 || u16(bytes + at + 2) > length - at);
    if (dcsctp_check(bytes, length, 0, any) == DCSCTP_OK)
        REQUIRE(at == length);

    for (int i = 0; i < 3; i++) {
        const size_t offsets[] = {below(length + 8), draw(), SIZE_MAX - below(40), length};
        const uint8_t types[] = {0, 1, 2, 3, 7, 64, 192, 194, (uint8_t)draw()};
        struct dcsctp_chunk other = {types[below(sizeof types)], (uint8_t)draw(), offsets[below(4)], offsets[below(4)],
                                     offsets[below(4)]};
        if (below(2))
            other.value_size = below(length + 1);
        try_parts(bytes, length, &other);
        if (!dcsctp_chunk_at(bytes, length, offsets[below(4)], &other))
            continue;
        REQUIRE(other.value_offset <= length && other.value_size <= length - other.value_offset && other.next <= length);
    }
}

/* The row of a chunk, of what the functions for its type write. */
static struct dcsctp_row wanted_row(const uint8_t *bytes, size_t length, size_t offset)
{
    struct dcsctp_row row = {0};
    struct dcsctp_data data;
    struct dcsctp_sack sack;
    struct dcsctp_init init;
    struct dcsctp_forward_tsn forward;
    size_t numbers = 0;
    REQUIRE(dcsctp_chunk_at(bytes, length, offset, &row.chunk));
    if (dcsctp_data(bytes, length, &row.chunk, &data)) {
        numbers = row.chunk.type == DCSCTP_CHUNK_DATA ? 12 : 16;
        row.tsn = data.tsn, row.mid = data.mid, row.fsn = data.fsn, row.ppid = data.ppid, row.stream = data.stream, row.ssn = data.ssn;
        row.is_unordered = data.is_unordered, row.is_beginning = data.is_beginning, row.is_end = data.is_end;
        row.immediate_ack = data.immediate_ack;
    } else if (dcsctp_sack(bytes, length, &row.chunk, &sack)) {
        numbers = 12;
        row.tsn = sack.cumulative_tsn_ack, row.a_rwnd = sack.a_rwnd;
        row.count = sack.block_count, row.duplicate_count = sack.duplicate_count;
    } else if (dcsctp_init(bytes, length, &row.chunk, &init)) {
        numbers = 16;
        row.tsn = init.initial_tsn, row.a_rwnd = init.a_rwnd, row.initiate_tag = init.initiate_tag;
        row.outbound_streams = init.outbound_streams, row.inbound_streams = init.inbound_streams;
    } else if (dcsctp_forward_tsn(bytes, length, &row.chunk, &forward)) {
        numbers = 4;
        row.tsn = forward.new_cumulative_tsn, row.count = forward.stream_count;
    } else if (dcsctp_shutdown(bytes, length, &row.chunk, &row.tsn)) {
        numbers = 4;
    }
    row.rest_offset = row.chunk.value_offset + numbers;
    row.rest_size = row.chunk.value_size - numbers;
    return row;
}

static bool is_row(const struct dcsctp_row *row, const struct dcsctp_row *other)
{
    return row->chunk.type == other->chunk.type && row->chunk.flags == other->chunk.flags
        && row->chunk.value_offset == other->chunk.value_offset && row->chunk.value_size == other->chunk.value_size
        && row->chunk.next == other->chunk.next && row->rest_offset == other->rest_offset && row->rest_size == other->rest_size
        && row->count == other->count && row->duplicate_count == other->duplicate_count && row->tsn == other->tsn
        && row->a_rwnd == other->a_rwnd && row->initiate_tag == other->initiate_tag && row->mid == other->mid && row->fsn == other->fsn
        && row->ppid == other->ppid && row->stream == other->stream && row->ssn == other->ssn
        && row->outbound_streams == other->outbound_streams && row->inbound_streams == other->inbound_streams
        && row->is_unordered == other->is_unordered && row->is_beginning == other->is_beginning && row->is_end == other->is_end
        && row->immediate_ack == other->immediate_ack;
}

/* Reads to rows that are more than enough, just enough, one too few, and none. */
static void try_rows(const uint8_t *bytes, size_t length, uint32_t word, enum placing placing)
{
    const struct dcsctp_policy *policy = &policies[below(POLICIES)];
    size_t offset, chunks = 0;
    uint32_t code = dcsctp_first_fault(bytes, length, word, policy, &offset);
    struct dcsctp_chunk chunk;
    for (size_t at = DCSCTP_FIRST_CHUNK; code == DCSCTP_OK && dcsctp_chunk_at(bytes, length, at, &chunk); at = chunk.next)
        chunks++;
    const size_t rooms[] = {chunks + 1 + below(3), chunks, chunks - (chunks > 0), 0};
    for (size_t i = 0; i < 4; i++) {
        size_t size = rooms[i] * sizeof(struct dcsctp_row), rows = chunks < rooms[i] ? chunks : rooms[i];
        /* (pages end and begin where a row may) */
        struct block block = block_of(&output_pages, size, placing);
        struct dcsctp_packet packet = {{77, 77, 77, 77}, 77, 77, 77};
        memset(block.bytes, 0xa5, size);
        REQUIRE(dcsctp_read(bytes, length, word, policy, (struct dcsctp_row *)(void *)block.bytes, rooms[i], &packet) == code);
        REQUIRE(packet.code == code && packet.chunk_count == chunks && packet.fault_offset == offset);
        if (code == DCSCTP_OK)
            REQUIRE(packet.header.source_port == u16(bytes) && packet.header.destination_port == u16(bytes + 2)
                    && packet.header.verification_tag == u32(bytes + 4) && packet.header.checksum == u32(bytes + 8));
        else
            REQUIRE(packet.header.source_port == 77 && packet.header.checksum == 77);
        size_t at = DCSCTP_FIRST_CHUNK;
        for (size_t k = 0; k < rows; k++) {
            struct dcsctp_row row, wanted = wanted_row(bytes, length, at);
            memcpy(&row, block.bytes + k * sizeof row, sizeof row);
            REQUIRE(is_row(&row, &wanted));
            at = row.chunk.next;
        }
        REQUIRE(is_filled(block.bytes + rows * sizeof(struct dcsctp_row), size - rows * sizeof(struct dcsctp_row)));
        release(block);
    }
}

static bool is_packet(const struct dcsctp_packet *packet, const struct dcsctp_packet *other)
{
    return packet->header.source_port == other->header.source_port && packet->header.destination_port == other->header.destination_port
        && packet->header.verification_tag == other->header.verification_tag && packet->header.checksum == other->header.checksum
        && packet->code == other->code && packet->chunk_count == other->chunk_count && packet->fault_offset == other->fault_offset;
}

/* A packet to be read: all bytes, a part of them, or what isn't one. */
static struct dcsctp_placed_packet placed(size_t length, uint32_t word)
{
    struct dcsctp_placed_packet it = {0, length, word, 77, {{77, 77, 77, 77}, 77, 77, 77}};
    switch (below(8)) {
    case 0: /* a part */
        it.offset = below(length + 1);
        it.size = below(length - it.offset + 1);
        break;
    case 1: /* from a number of four bytes to the end */
        it.offset = below(length / 4 + 1) * 4;
        it.size = length - it.offset;
        break;
    case 2: /* bytes after the end */
        it.offset = below(length + 2);
        it.size = length + 1 - it.offset + below(3);
        break;
    case 3:
        it.offset = SIZE_MAX - below(3);
        it.size = below(4);
        break;
    case 4:
        it.word = (uint32_t)draw();
        break;
    }
    return it;
}

/* Reads parts of the bytes in one call: each as dcsctp_read reads it into the rows that those before it left. */
static void try_many(const uint8_t *bytes, size_t length, uint32_t word, enum placing placing)
{
    static struct pages packet_pages;
    enum { PACKETS = 5, ROWS = 24 };
    const struct dcsctp_policy *policy = &policies[below(POLICIES)];
    struct dcsctp_placed_packet asked[PACKETS];
    struct dcsctp_row wanted_rows[ROWS];
    size_t count = below(PACKETS + 1), room = below(ROWS + 1), first = 0;
    for (size_t i = 0; i < count; i++)
        asked[i] = placed(length, word);
    struct block packets = copy_of(&packet_pages, (const uint8_t *)asked, count * sizeof *asked, placing);
    struct block rows = block_of(&output_pages, room * sizeof *wanted_rows, placing);
    memset(rows.bytes, 0xa5, rows.size);
    size_t end = dcsctp_read_many(bytes, length, policy, (struct dcsctp_placed_packet *)(void *)packets.bytes, count,
                                  (struct dcsctp_row *)(void *)rows.bytes, room);
    for (size_t i = 0; i < count; i++) {
        struct dcsctp_placed_packet it;
        struct dcsctp_packet wanted = asked[i].packet;
        size_t offset = asked[i].offset, size = asked[i].size;
        memcpy(&it, packets.bytes + i * sizeof it, sizeof it);
        REQUIRE(it.offset == offset && it.size == size && it.word == asked[i].word && it.first_row == first);
        if (offset > length || size > length - offset) {
            wanted.code = DCSCTP_BAD_PLACE, wanted.chunk_count = 0, wanted.fault_offset = 0;
        } else {
            dcsctp_read(bytes + offset, size, it.word, policy, wanted_rows, room - first, &wanted);
            REQUIRE(it.packet.code == reference_fault(bytes + offset, size, it.word, policy).code);
        }
        REQUIRE(is_packet(&it.packet, &wanted));
        for (size_t k = 0; k < wanted.chunk_count && first < room; k++, first++) {
            struct dcsctp_row row;
            memcpy(&row, rows.bytes + first * sizeof row, sizeof row);
            REQUIRE(is_row(&row, &wanted_rows[k]));
        }
    }
    REQUIRE(end == first && is_filled(rows.bytes + first * sizeof *wanted_rows, (room - first) * sizeof *wanted_rows));
    release(rows);
    release(packets);
}

typedef uint32_t writer(const uint8_t *, size_t, uint32_t, const struct dcsctp_policy *, uint8_t *, size_t, size_t *);

/* Writes to outputs that are large enough, one byte too small, and empty. The block is empty unless the call succeeds. */
static struct block written(writer *write, const uint8_t *bytes, size_t length, uint32_t word,
                            const struct dcsctp_policy *policy, enum placing placing, uint32_t *code)
{
    size_t size = 77, again = 77, more = below(9);
    uint32_t fault = dcsctp_check(bytes, length, word, policy);
    struct block block = block_of(&output_pages, 0, placing);
    *code = write(bytes, length, word, policy, block.bytes, 0, &size);
    release(block);
    if (*code != DCSCTP_NO_ROOM) {
        REQUIRE(*code == fault || (fault == DCSCTP_OK && *code == DCSCTP_TOO_LONG && write == dcsctp_canonical));
        REQUIRE(*code != DCSCTP_OK && size == 77);
        return block_of(&output_pages, 0, ALLOCATED);
    }
    REQUIRE(fault == DCSCTP_OK && size > 0);

    block = block_of(&output_pages, size - 1, placing);
    memset(block.bytes, 0xa5, size - 1);
    REQUIRE(write(bytes, length, word, policy, block.bytes, size - 1, &again) == DCSCTP_NO_ROOM && again == size);
    REQUIRE(is_filled(block.bytes, size - 1));
    release(block);

    again = 77;
    block = block_of(&output_pages, size + more, placing);
    memset(block.bytes, 0xa5, size + more);
    *code = write(bytes, length, word, policy, block.bytes, size + more, &again);
    REQUIRE(*code == DCSCTP_OK && again == size && is_filled(block.bytes + size, more));
    block.size = size;
    return block;
}

/* The lines after the first, or after the second: the last of these has the checksum. */
static struct block lines_of(struct block text, int count)
{
    for (; count > 0; count--) {
        uint8_t *end = memchr(text.bytes, '\n', text.size);
        REQUIRE(end);
        text = (struct block){end + 1, text.size - (size_t)(end + 1 - text.bytes), NULL};
    }
    return text;
}

/* Takes out of a report the lines of reasons: they have the packet's bytes, and a canonical packet has a sentence of the
   library where these aren't UTF-8. */
static struct block without_reasons(struct block lines)
{
    size_t kept = 0;
    for (size_t at = 0; at < lines.size;) {
        const uint8_t *line = lines.bytes + at, *end = memchr(line, '\n', lines.size - at);
        REQUIRE(end);
        size_t size = (size_t)(end + 1 - line);
        bool is_reason = size > 14 && (!memcmp(line, "  cause 0x000c", 14) || !memcmp(line, "  cause 0x000d", 14));
        if (!is_reason) {
            memmove(lines.bytes + kept, line, size);
            kept += size;
        }
        at += size;
    }
    lines.size = kept;
    return lines;
}

/* The lines of the packet's text or report, if it is a packet, of which `count` stand before the chunks. The caller frees them. */
static struct block chunk_lines(writer *write, const uint8_t *bytes, size_t length, int count, enum placing placing, uint32_t *code)
{
    struct block text = written(write, bytes, length, 1, any, placing, code), lines = {NULL, 0, NULL};
    if (*code == DCSCTP_OK) {
        bool is_report = write == dcsctp_report;
        REQUIRE(is_utf8(text.bytes, text.size) && !memcmp(text.bytes, is_report ? "source " : "source=", 7));
        REQUIRE((text.bytes[text.size - 1] == '\n') == is_report);
        lines = lines_of(text, count);
        lines = copy_of(&output_pages, lines.bytes, lines.size, ALLOCATED);
        if (is_report)
            lines = without_reasons(lines);
    }
    release(text);
    return lines;
}

static void try_outputs(const uint8_t *bytes, size_t length, uint32_t word, enum placing placing)
{
    uint32_t code, canonical_code;
    const struct dcsctp_policy *policy = &policies[below(POLICIES)];
    struct block block = written(dcsctp_canonical, bytes, length, word, policy, placing, &code);
    release(block);
    block = written(dcsctp_canonical, bytes, length, word, any, placing, &canonical_code);
    struct block canonical = copy_of(&output_pages, block.bytes, block.size, ALLOCATED);
    release(block);
    if (canonical_code == DCSCTP_OK) {
        REQUIRE(canonical.size <= 65532 && canonical.size % 4 == 0 && u32(canonical.bytes + 8) == 0);
        REQUIRE(!memcmp(canonical.bytes, bytes, 8));
        REQUIRE(dcsctp_check(canonical.bytes, canonical.size, 0, &policies[3]) == DCSCTP_OK);
        /* the canonical packet is its own */
        block = written(dcsctp_canonical, canonical.bytes, canonical.size, 1, strict, placing, &code);
        REQUIRE(code == DCSCTP_OK && block.size == canonical.size && !memcmp(block.bytes, canonical.bytes, block.size));
        release(block);
    }
    /* it has the same texts but for the checksum; reports are long, so not each is written */
    for (int count = 1; count <= 2 - (below(4) > 0); count++) {
        writer *write = count == 1 ? dcsctp_print : dcsctp_report;
        struct block lines = chunk_lines(write, bytes, length, count, placing, &code);
        REQUIRE(code == canonical_code || (code == DCSCTP_OK && canonical_code == DCSCTP_TOO_LONG));
        if (canonical_code == DCSCTP_OK) {
            struct block others = chunk_lines(write, canonical.bytes, canonical.size, count, placing, &code);
            REQUIRE(code == DCSCTP_OK && lines.size == others.size && !memcmp(lines.bytes, others.bytes, lines.size));
            release(others);
        }
        release(lines);
    }
    release(canonical);
}

/* Seals and tags a copy, in place. */
static void try_in_place(const uint8_t *bytes, size_t length, enum placing placing)
{
    struct block copy = copy_of(&output_pages, bytes, length, placing);
    uint32_t before = dcsctp_check(bytes, length, 0, any), tag = (uint32_t)draw();
    REQUIRE(dcsctp_seal(copy.bytes, length) == (length < 12 ? DCSCTP_BAD_PLACE : DCSCTP_OK));
    if (length < 12) {
        REQUIRE(dcsctp_set_tag(copy.bytes, length, tag) == DCSCTP_BAD_PLACE && !memcmp(copy.bytes, bytes, length));
    } else {
        REQUIRE(!memcmp(copy.bytes, bytes, 8) && !memcmp(copy.bytes + 12, bytes + 12, length - 12));
        REQUIRE(u32(copy.bytes + 8) == dcsctp_word(bytes, length));
        REQUIRE(dcsctp_check(copy.bytes, length, dcsctp_word(copy.bytes, length), &policies[0]) == before);
        REQUIRE(dcsctp_set_tag(copy.bytes, length, tag) == DCSCTP_OK && u32(copy.bytes + 4) == tag);
        REQUIRE(!memcmp(copy.bytes, bytes, 4) && u32(copy.bytes + 8) == dcsctp_word(bytes, length));
        REQUIRE(!memcmp(copy.bytes + 12, bytes + 12, length - 12));
        REQUIRE(dcsctp_check(copy.bytes, length, 0, any) == before);
    }
    release(copy);
}

/* Begins a packet with a chunk of this type, and returns its size. */
static size_t begin_with(uint8_t *packet, size_t room, uint8_t type)
{
    size_t size;
    REQUIRE(!dcsctp_begin(packet, room, &size, 1, 2, 3) && !dcsctp_add_chunk(packet, room, &size, type, 0, NULL, 0));
    return size;
}

/* What isn't recognized is reported as if it were added one after the other; in a smaller buffer nothing is, and nothing
   changes. The bytes are taken as a list of parameters, and as a packet. */
static void try_reports(const uint8_t *bytes, size_t length)
{
    static uint8_t wanted[65532], packet[sizeof wanted], before[sizeof wanted];
    const size_t most = length < 30000 ? 100 + 2 * length : sizeof packet; /* an item of 4 bytes becomes one of 8 */
    uint16_t known[4];
    uint8_t known_chunks[4];
    struct dcsctp_parameter item;
    struct dcsctp_chunk chunk;
    for (size_t i = 0; i < 4; i++) {
        known_chunks[i] = (uint8_t)(below(2) ? below(256) : length > 12 + 4 * i ? bytes[12 + 4 * i] : 0);
        known[i] = length > 1 + 8 * i ? (uint16_t)(bytes[8 * i] << 8 | bytes[1 + 8 * i]) : (uint16_t)below(65536);
    }
    for (int kind = 0; kind < 3; kind++) { /* parameters into an INIT ACK, and in an ERROR; chunks in an ERROR */
        const bool is_error = kind > 0, is_chunks = kind > 1;
        const size_t count = below(5), start = DCSCTP_FIRST_CHUNK, bare = begin_with(wanted, most, is_error ? 9 : 2);
        size_t size = bare, stop = length, at = is_chunks ? DCSCTP_FIRST_CHUNK : 0, end = 7;
        bool has_room = true;
        for (size_t next; is_chunks ? dcsctp_chunk_at(bytes, length, at, &chunk) : dcsctp_item_at(bytes, length, at, &item); at = next) {
            const size_t whole = is_chunks ? chunk.value_offset + chunk.value_size - at : item.value_offset + item.value_size - at;
            bool is_known = false;
            for (size_t i = 0; i < count; i++)
                is_known = is_known || (is_chunks ? known_chunks[i] == chunk.type : known[i] == item.type);
            const uint32_t action = is_known ? (uint32_t)DCSCTP_ACTION_SKIP
                : is_chunks ? dcsctp_unrecognized_chunk(chunk.type) : dcsctp_unrecognized_parameter(item.type);
            next = is_chunks ? chunk.next : item.next;
            if (action == DCSCTP_ACTION_STOP_AND_REPORT || action == DCSCTP_ACTION_SKIP_AND_REPORT)
                has_room = has_room && !dcsctp_add_parameter(wanted, most, &size, start, is_chunks ? 6 : 8, bytes + at, whole);
            if (action == DCSCTP_ACTION_STOP || action == DCSCTP_ACTION_STOP_AND_REPORT) {
                stop = at;
                break;
            }
        }
        if (is_error && size == bare)
            size = DCSCTP_FIRST_CHUNK; /* no ERROR */
        memset(before, 0xa5, most);
        const size_t begun = begin_with(before, most, 2), old = is_error ? DCSCTP_FIRST_CHUNK : begun;
        memcpy(packet, before, most);
        for (size_t tried = 0; tried < 2; tried++) {
            const size_t room = tried ? most : has_room && size > old ? old + below(size - old) : old - 1 - below(old);
            const bool fits = tried && has_room;
            size_t now = old;
            const uint32_t code = is_chunks
                ? dcsctp_add_unrecognized_chunks(packet, room, &now, bytes, length, known_chunks, count, &end)
                : is_error ? dcsctp_add_unrecognized_parameters_error(packet, room, &now, bytes, length, known, count, &end)
                : dcsctp_add_unrecognized_parameters(packet, room, &now, start, bytes, length, known, count, &end);
            REQUIRE(code == (fits ? DCSCTP_OK : room < old ? DCSCTP_BAD_PLACE : DCSCTP_NO_ROOM));
            REQUIRE(now == (fits ? size : old) && end == (fits ? stop : 7));
            REQUIRE(!memcmp(packet, fits ? wanted : before, fits ? size : most));
        }
    }
}

/* The addresses of a list that aren't in another one are those whose bytes are nowhere in it. The bytes are taken as both. */
static void try_addresses(const uint8_t *bytes, size_t length)
{
    static uint8_t wanted[65532], packet[sizeof wanted], before[sizeof wanted], value[65536];
    const size_t most = 100 + (length < 60000 ? length : 0), cut = below(length + 1);
    struct dcsctp_parameter item, other;
    size_t value_size = 0, size, now;
    for (size_t at = cut; dcsctp_item_at(bytes, length, at, &item); at = item.next) {
        bool is_new = (item.type == 5 && item.value_size == 4) || (item.type == 6 && item.value_size == 16);
        for (size_t i = 0; is_new && dcsctp_item_at(bytes, cut, i, &other); i = other.next)
            is_new = other.type != item.type || other.value_size != item.value_size
                || memcmp(bytes + other.value_offset, bytes + item.value_offset, item.value_size);
        if (is_new) {
            memcpy(value + value_size, bytes + at, 4 + item.value_size);
            value_size += 4 + item.value_size;
        }
    }
    REQUIRE(dcsctp_adds_addresses(bytes + cut, length - cut, bytes, cut) == (value_size > 0));
    memset(before, 0xa5, most);
    const size_t begun = size = now = begin_with(before, most, 6);
    memcpy(wanted, before, most);
    memcpy(packet, before, most);
    const uint32_t code = dcsctp_add_parameter(wanted, most, &size, DCSCTP_FIRST_CHUNK, 11, value, value_size);
    REQUIRE(dcsctp_add_new_addresses(packet, begun + 3, &now, DCSCTP_FIRST_CHUNK, bytes + cut, length - cut, bytes, cut)
            == (code == DCSCTP_BAD_VALUE ? DCSCTP_BAD_VALUE : DCSCTP_NO_ROOM));
    REQUIRE(now == begun && !memcmp(packet, before, most));
    REQUIRE(dcsctp_add_new_addresses(packet, most, &now, DCSCTP_FIRST_CHUNK, bytes + cut, length - cut, bytes, cut) == code);
    REQUIRE(now == size && !memcmp(packet, wanted, most));
}

static void try_bytes(const uint8_t *bytes, size_t length, enum placing placing)
{
    current = bytes;
    current_length = length;
    struct block input = copy_of(&input_pages, bytes, length, placing);
    uint32_t word = dcsctp_word(input.bytes, length);
    REQUIRE(word == reference_word(bytes, length));
    try_check(input.bytes, length, word);
    try_rows(input.bytes, length, word, placing);
    try_many(input.bytes, length, word, placing);
    try_walk(input.bytes, length);
    try_outputs(input.bytes, length, below(4) ? word : (uint32_t)draw(), placing);
    try_in_place(input.bytes, length, placing);
    try_reports(input.bytes, length);
    try_addresses(input.bytes, length);
    REQUIRE(length == 0 || !memcmp(input.bytes, bytes, length)); /* no function writes to what it reads */
    release(input);
}

/* ---- the writing functions */

static uint8_t noise[70000];

/* A parameter or an error cause that was added, to be compared with what is read. */
struct added_item {
    enum { OF_BYTES, OF_NUMBER, OF_TYPES, OF_RE_CONFIG, CALLS } call;
    uint16_t type;
    const uint8_t *bytes;
    size_t size; /* of the value */
    uint32_t number;
    struct dcsctp_re_config re_config;
    uint16_t list[8];
    size_t count;
};

/* The same of a chunk. */
struct added {
    uint8_t type, flags;
    bool is_raw; /* by dcsctp_add_chunk */
    const uint8_t *bytes;
    size_t size; /* of the bytes */
    struct dcsctp_data data;
    struct dcsctp_init init;
    uint32_t tsn, a_rwnd, duplicates[8];
    struct dcsctp_gap_ack_block blocks[8];
    struct dcsctp_skipped_stream streams[8];
    size_t block_count, duplicate_count, stream_count;
    size_t start, value_size; /* in the packet, without items */
    struct added_item items[4];
    size_t item_count;
};

struct buffer {
    uint8_t *bytes;
    size_t room, size;
};

/* A size that no packet that was begun has. */
static size_t wild_size(size_t room)
{
    switch (below(4)) {
    case 0:
        return below(12);
    case 1:
        return 13 + 4 * below(100) + below(3);
    case 2:
        return (room / 4 + 1) * 4;
    default:
        return room < 65536 ? SIZE_MAX - below(8) : 65536;
    }
}

/* The code of a call that adds `more` bytes, padding among them, to a packet of `size`. */
static uint32_t wanted_code(const struct buffer *buffer, size_t size, bool has_place, bool can_be_written, size_t more)
{
    if (size < 12 || size % 4 || size > buffer->room || size > 65532 || !has_place)
        return DCSCTP_BAD_PLACE;
    if (!can_be_written)
        return DCSCTP_BAD_VALUE;
    return size + more > buffer->room || size + more > 65532 ? DCSCTP_NO_ROOM : DCSCTP_OK;
}

/* Adds a chunk at random, its inputs in blocks of their own; which code it gets is said here. Returns whether it was added. */
static bool add_chunk(struct buffer *buffer, struct added *added, enum placing placing)
{
    static const uint8_t types[] = {DCSCTP_CHUNK_ABORT, DCSCTP_CHUNK_ERROR, DCSCTP_CHUNK_RE_CONFIG, DCSCTP_CHUNK_HEARTBEAT, 12, 15, 0x81, 255};
    size_t some = below(20) ? below(60) : below(sizeof noise);
    bool flag = below(2), is_utf8_if_due = true;
    *added = (struct added){.size = some, .bytes = noise + below(sizeof noise - some), .tsn = (uint32_t)draw(), .a_rwnd = (uint32_t)draw(),
        .block_count = below(9), .duplicate_count = below(9), .stream_count = below(9), .start = buffer->size};
    for (size_t i = 0; i < 8; i++) {
        added->blocks[i] = (struct dcsctp_gap_ack_block){(uint16_t)draw(), (uint16_t)draw()};
        added->duplicates[i] = (uint32_t)draw();
        added->streams[i] = (struct dcsctp_skipped_stream){(uint16_t)draw(), (uint16_t)draw(), (uint32_t)draw(), below(2)};
    }
    added->data = (struct dcsctp_data){.tsn = (uint32_t)draw(), .mid = (uint32_t)draw(), .fsn = (uint32_t)draw(), .ppid = (uint32_t)draw(),
        .stream = (uint16_t)draw(), .ssn = (uint16_t)draw(), .is_unordered = flag, .is_beginning = below(2), .is_end = below(2),
        .immediate_ack = below(2), .payload_offset = draw(), .payload_size = draw()};
    added->init = (struct dcsctp_init){(uint32_t)draw(), (uint32_t)draw(), (uint16_t)draw(), (uint16_t)draw(), (uint32_t)draw()};

    struct block block = copy_of(&input_pages, added->bytes, some, placing);
    struct block streams = copy_of(&input_pages, (const uint8_t *)added->streams, added->stream_count * sizeof *added->streams, placing);
    const struct dcsctp_skipped_stream *skipped = (const struct dcsctp_skipped_stream *)(const void *)streams.bytes;
    uint8_t *packet = buffer->bytes;
    size_t room = buffer->room, given = below(20) ? buffer->size : wild_size(room), size = given, value = 0, which = below(15);
    uint32_t code;
    switch (which) {
    case 0:
    case 1:
        added->type = which ? DCSCTP_CHUNK_I_DATA : DCSCTP_CHUNK_DATA;
        added->flags = (uint8_t)(flag << 2 | added->data.is_beginning << 1 | added->data.is_end | added->data.immediate_ack << 3);
        code = (which ? dcsctp_add_i_data : dcsctp_add_data)(packet, room, &size, &added->data, block.bytes, some);
        value = (which ? 16 : 12) + some;
        break;
    case 2:
        added->type = DCSCTP_CHUNK_SACK;
        code = dcsctp_add_sack(packet, room, &size, added->tsn, added->a_rwnd, added->block_count || flag ? added->blocks : NULL,
                               added->block_count, added->duplicate_count || flag ? added->duplicates : NULL, added->duplicate_count);
        value = 12 + 4 * added->block_count + 4 * added->duplicate_count;
        break;
    case 3:
        added->type = flag ? DCSCTP_CHUNK_HEARTBEAT_ACK : DCSCTP_CHUNK_HEARTBEAT;
        code = dcsctp_add_heartbeat(packet, room, &size, flag, block.bytes, some);
        value = 4 + some;
        break;
    case 4:
        added->type = DCSCTP_CHUNK_ABORT;
        added->flags = flag;
        code = dcsctp_add_abort(packet, room, &size, flag, block.bytes, some);
        is_utf8_if_due = is_utf8(block.bytes, some);
        value = 4 + some;
        break;
    case 5:
    case 6:
        added->type = flag ? DCSCTP_CHUNK_INIT_ACK : DCSCTP_CHUNK_INIT;
        code = (flag ? dcsctp_add_init_ack : dcsctp_add_init)(packet, room, &size, &added->init);
        value = 16;
        break;
    case 7:
        added->type = DCSCTP_CHUNK_COOKIE_ECHO;
        code = dcsctp_add_cookie_echo(packet, room, &size, block.bytes, some);
        value = some;
        break;
    case 8:
        added->type = DCSCTP_CHUNK_COOKIE_ACK;
        code = dcsctp_add_cookie_ack(packet, room, &size);
        break;
    case 9:
        added->type = DCSCTP_CHUNK_SHUTDOWN;
        code = dcsctp_add_shutdown(packet, room, &size, added->tsn);
        value = 4;
        break;
    case 10:
        added->type = flag ? DCSCTP_CHUNK_SHUTDOWN_ACK : DCSCTP_CHUNK_SHUTDOWN_COMPLETE;
        added->flags = !flag && added->data.is_end ? DCSCTP_TAG_REFLECTED : 0;
        code = flag ? dcsctp_add_shutdown_ack(packet, room, &size) : dcsctp_add_shutdown_complete(packet, room, &size, added->data.is_end);
        break;
    case 11:
        added->type = flag ? DCSCTP_CHUNK_I_FORWARD_TSN : DCSCTP_CHUNK_FORWARD_TSN;
        code = (flag ? dcsctp_add_i_forward_tsn : dcsctp_add_forward_tsn)(packet, room, &size, added->tsn, skipped, added->stream_count);
        value = 4 + (flag ? 8 : 4) * added->stream_count;
        break;
    default: /* any chunk; of a type that has a list without one */
        added->is_raw = true;
        added->type = types[below(sizeof types)];
        added->flags = (uint8_t)draw();
        if (numbers_before_list(added->type, 1) == 0)
            added->size = some = 0;
        code = dcsctp_add_chunk(packet, room, &size, added->type, added->flags, some || flag ? block.bytes : NULL, some);
        value = some;
    }
    release(streams);
    release(block);
    added->value_size = value;
    REQUIRE(code == wanted_code(buffer, given, true, is_utf8_if_due && value <= 65531, padded(4 + value)));
    REQUIRE(size == (code == DCSCTP_OK ? given + padded(4 + value) : given));
    if (code == DCSCTP_OK)
        buffer->size = size;
    return code == DCSCTP_OK;
}

/* Whether a chunk begins at an offset and ends the packet. */
static bool is_last(const struct buffer *buffer, size_t start)
{
    size_t size = buffer->size, length = start < 12 || start % 4 || start > size || size - start < 4 ? 0 : u16(buffer->bytes + start + 2);
    return length >= 4 && start + padded(length) == size;
}

/* Adds a parameter or an error cause to the chunk, which is the last. Returns whether it was added. */
static bool add_item(struct buffer *buffer, size_t last, struct added_item *item, enum placing placing)
{
    /* those that have any value, or one by the call; as a parameter or a cause */
    static const uint16_t types[] = {1, 6, 7, 8, 12, 99, 0x8008, 0xc001}, number_types[] = {9, 0x8001, 0x8002};
    uint8_t *packet = buffer->bytes;
    size_t room = buffer->room, given = below(20) ? buffer->size : wild_size(room), size = given, value;
    size_t start = below(20) ? last : below(2) ? (size_t)draw() : below(buffer->size + 8);
    size_t length = u16(packet + last + 2), some = below(20) ? below(60) : below(sizeof noise);
    bool can_be_written = true, has_null = below(2);
    uint32_t code;
    if (start != last && is_last(buffer, start)) /* bytes of a value look like a chunk */
        start = last;
    *item = (struct added_item){.call = below(CALLS), .bytes = noise + below(sizeof noise - some), .number = (uint32_t)draw(), .count = below(9)};
    for (size_t i = 0; i < 8; i++)
        item->list[i] = (uint16_t)draw();
    struct block list = copy_of(&input_pages, (const uint8_t *)item->list, item->count * sizeof *item->list, placing);
    struct block bytes = copy_of(&input_pages, item->bytes, some, placing);
    const uint16_t *numbers = has_null && item->count == 0 ? NULL : (const uint16_t *)(const void *)list.bytes;
    struct dcsctp_re_config *re_config = &item->re_config;
    switch (item->call) {
    case OF_BYTES:
        item->type = types[below(8)];
        value = item->size = some;
        code = dcsctp_add_parameter(packet, room, &size, start, item->type, has_null && some == 0 ? NULL : bytes.bytes, some);
        break;
    case OF_NUMBER:
        item->type = number_types[below(3)];
        value = 4;
        code = dcsctp_add_number(packet, room, &size, start, item->type, item->number);
        break;
    case OF_TYPES:
        item->type = DCSCTP_CAUSE_MISSING_MANDATORY_PARAMETER;
        value = 4 + 2 * item->count;
        code = dcsctp_add_missing_parameters(packet, room, &size, start, numbers, item->count);
        break;
    default:
        item->type = (uint16_t)(below(20) ? 13 + below(6) : draw());
        *re_config = (struct dcsctp_re_config){item->type, (uint32_t)draw(), (uint32_t)draw(), (uint32_t)draw(), (uint32_t)below(8), below(2),
                                               (uint32_t)draw(), (uint32_t)draw(), (uint16_t)draw(), (size_t)draw()};
        can_be_written = item->type >= 13 && item->type <= 18 && (item->type != 16 || re_config->result <= 6);
        value = item->type == 13 ? 12 + 2 * item->count : item->type == 14 ? 4 + 2 * item->count : item->type == 15 ? 4 :
                item->type == 16 && re_config->has_next_tsns ? 16 : 8;
        code = dcsctp_add_re_config(packet, room, &size, start, re_config, numbers, item->count);
    }
    release(bytes);
    release(list);
    REQUIRE(code == wanted_code(buffer, given, start == last, can_be_written && padded(length) + 4 + value <= 65535, padded(4 + value)));
    REQUIRE(size == (code == DCSCTP_OK ? given + padded(4 + value) : given));
    if (code == DCSCTP_OK) {
        REQUIRE(u16(packet + last + 2) == padded(length) + 4 + value);
        buffer->size = size;
    }
    return code == DCSCTP_OK;
}

/* Reads an item that was added, field by field. */
static void read_item(const uint8_t *packet, size_t size, const struct dcsctp_parameter *item, const struct added_item *added)
{
    const struct dcsctp_re_config *asked = &added->re_config;
    struct dcsctp_re_config found;
    uint32_t number;
    uint16_t element;
    bool is_response, is_outgoing;
    REQUIRE(item->type == added->type);
    switch (added->call) {
    case OF_BYTES:
        REQUIRE(item->value_size == added->size && !memcmp(packet + item->value_offset, added->bytes, added->size));
        break;
    case OF_NUMBER:
        REQUIRE(dcsctp_number(packet, size, item, &number) && number == added->number);
        break;
    case OF_TYPES:
        for (size_t i = 0; i < added->count; i++)
            REQUIRE(dcsctp_missing_parameter(packet, size, item, i, &element) && element == added->list[i]);
        REQUIRE(!dcsctp_missing_parameter(packet, size, item, added->count, &element));
        break;
    default:
        is_response = added->type == 16, is_outgoing = added->type == 13;
        REQUIRE(dcsctp_re_config(packet, size, item, &found) && found.type == added->type);
        REQUIRE(is_response || found.request_number == asked->request_number);
        REQUIRE((!is_response && !is_outgoing) || found.response_number == asked->response_number);
        REQUIRE(!is_outgoing || found.last_tsn == asked->last_tsn);
        REQUIRE(!is_response || (found.result == asked->result && found.has_next_tsns == asked->has_next_tsns));
        REQUIRE(!found.has_next_tsns || found.sender_next_tsn == asked->sender_next_tsn);
        REQUIRE(!found.has_next_tsns || found.receiver_next_tsn == asked->receiver_next_tsn);
        REQUIRE(added->type < 17 || found.new_streams == asked->new_streams);
        REQUIRE(found.stream_count == (added->type <= 14 ? added->count : 0));
        for (size_t i = 0; i < found.stream_count; i++)
            REQUIRE(dcsctp_reset_stream(packet, size, item, i, &element) && element == added->list[i]);
    }
}

/* Reads a chunk that was added, field by field, and the items that were added to it. */
static size_t read_added(const uint8_t *packet, size_t size, const struct added *added)
{
    struct dcsctp_chunk chunk;
    REQUIRE(dcsctp_chunk_at(packet, size, added->start, &chunk) && chunk.type == added->type && chunk.flags == added->flags);
    REQUIRE(added->item_count > 0 || chunk.value_size == added->value_size);
    const uint8_t *bytes = added->bytes;
    size_t some = added->size, at = chunk.value_offset + padded(added->value_size);
    struct dcsctp_data data, wanted = added->data;
    struct dcsctp_init init;
    struct dcsctp_sack sack;
    struct dcsctp_gap_ack_block block;
    struct dcsctp_forward_tsn forward;
    struct dcsctp_skipped_stream stream;
    struct dcsctp_parameter item;
    uint32_t tsn;
    bool by_mid = added->type == DCSCTP_CHUNK_I_FORWARD_TSN;
    switch (added->type) {
    case DCSCTP_CHUNK_DATA:
    case DCSCTP_CHUNK_I_DATA:
        if (added->type == DCSCTP_CHUNK_DATA)
            wanted.mid = wanted.fsn = 0;
        else
            wanted.ssn = 0, *(wanted.is_beginning ? &wanted.fsn : &wanted.ppid) = 0;
        wanted.payload_offset = added->start + (added->type == DCSCTP_CHUNK_DATA ? 16 : 20);
        wanted.payload_size = some;
        REQUIRE(dcsctp_data(packet, size, &chunk, &data) && !memcmp(&data, &wanted, sizeof data));
        REQUIRE(!memcmp(packet + data.payload_offset, bytes, some));
        break;
    case DCSCTP_CHUNK_SACK:
        REQUIRE(dcsctp_sack(packet, size, &chunk, &sack) && sack.cumulative_tsn_ack == added->tsn && sack.a_rwnd == added->a_rwnd);
        REQUIRE(sack.block_count == added->block_count && sack.duplicate_count == added->duplicate_count);
        for (size_t i = 0; i < sack.block_count; i++)
            REQUIRE(dcsctp_gap_ack_block(packet, size, &chunk, i, &block) && !memcmp(&block, &added->blocks[i], sizeof block));
        for (size_t i = 0; i < sack.duplicate_count; i++)
            REQUIRE(dcsctp_duplicate_tsn(packet, size, &chunk, i, &tsn) && tsn == added->duplicates[i]);
        break;
    case DCSCTP_CHUNK_HEARTBEAT:
    case DCSCTP_CHUNK_HEARTBEAT_ACK:
    case DCSCTP_CHUNK_ABORT:
        if (added->is_raw)
            break;
        REQUIRE(dcsctp_parameter_at(packet, size, &chunk, dcsctp_list_offset(&chunk), &item) && item.value_size == some);
        REQUIRE(item.type == (added->type == DCSCTP_CHUNK_ABORT ? DCSCTP_CAUSE_USER_INITIATED_ABORT : DCSCTP_PARAMETER_HEARTBEAT_INFO));
        REQUIRE(!memcmp(packet + item.value_offset, bytes, some) && (item.next == at || added->item_count == 0));
        break;
    case DCSCTP_CHUNK_INIT:
    case DCSCTP_CHUNK_INIT_ACK:
        REQUIRE(dcsctp_init(packet, size, &chunk, &init) && !memcmp(&init, &added->init, sizeof init) && dcsctp_list_offset(&chunk) == at);
        break;
    case DCSCTP_CHUNK_SHUTDOWN:
        REQUIRE(dcsctp_shutdown(packet, size, &chunk, &tsn) && tsn == added->tsn);
        break;
    case DCSCTP_CHUNK_FORWARD_TSN:
    case DCSCTP_CHUNK_I_FORWARD_TSN:
        REQUIRE(dcsctp_forward_tsn(packet, size, &chunk, &forward) && forward.new_cumulative_tsn == added->tsn);
        REQUIRE(forward.stream_count == added->stream_count);
        for (size_t i = 0; i < forward.stream_count; i++) {
            const struct dcsctp_skipped_stream *asked = &added->streams[i];
            REQUIRE(dcsctp_skipped_stream(packet, size, &chunk, i, &stream) && stream.stream == asked->stream);
            REQUIRE(by_mid ? stream.mid == asked->mid && stream.is_unordered == asked->is_unordered : stream.ssn == asked->ssn);
        }
        break;
    case DCSCTP_CHUNK_COOKIE_ACK:
    case DCSCTP_CHUNK_SHUTDOWN_ACK:
    case DCSCTP_CHUNK_SHUTDOWN_COMPLETE:
    case DCSCTP_CHUNK_ERROR:
    case DCSCTP_CHUNK_RE_CONFIG:
        break;
    default: /* COOKIE ECHO, and types without a kind: the value is as it was given */
        REQUIRE(!memcmp(packet + chunk.value_offset, bytes, some));
    }
    for (size_t i = 0; i < added->item_count; i++, at = item.next) {
        REQUIRE(dcsctp_parameter_at(packet, size, &chunk, at, &item));
        read_item(packet, size, &item, &added->items[i]);
    }
    REQUIRE(added->item_count == 0 || at == chunk.value_offset + chunk.value_size);
    return chunk.next;
}

/* Whether what is read of the chunk says the same where items follow. */
static bool takes_items(const struct added *added)
{
    return added->is_raw || numbers_before_list(added->type, 20) < 20;
}

static uint8_t built[1 << 17];

/* Writes a packet into a buffer of any room, and reads it back. Returns its size; it is in `built`. */
static size_t try_building(enum placing placing)
{
    size_t room = below(10) ? below(700) : below(80000), size = 77, count = 0, at = 12, begun = room < 12 ? 0 : 12;
    struct block block = block_of(&output_pages, room, placing);
    static struct added added[8];
    uint16_t source = (uint16_t)draw(), destination = (uint16_t)draw();
    uint32_t tag = (uint32_t)draw();
    bool has_empty = false; /* an ERROR or a COOKIE ECHO without a value is no chunk */
    current_length = 0;
    memset(block.bytes, 0xa5, room);
    REQUIRE(dcsctp_begin(block.bytes, room, &size, source, destination, tag) == (room < 12 ? DCSCTP_NO_ROOM : DCSCTP_OK));
    REQUIRE(size == (room < 12 ? 77 : 12) && is_filled(block.bytes + begun, room - begun));
    if (room < 12) {
        release(block);
        return 0;
    }
    struct buffer buffer = {block.bytes, room, size};
    for (size_t tries = below(9); tries > 0; tries--) {
        size_t old = buffer.size;
        struct added *last = count ? &added[count - 1] : NULL;
        memcpy(built, buffer.bytes, old);
        if (last && last->item_count < 4 && takes_items(last) && below(3)) {
            if (add_item(&buffer, last->start, &last->items[last->item_count], placing)) {
                last->item_count++;
                memcpy(built + last->start + 2, buffer.bytes + last->start + 2, 2); /* the length, which is checked there */
            }
        } else {
            count += add_chunk(&buffer, &added[count], placing);
        }
        /* what was there stays, and what comes after the packet */
        REQUIRE(!memcmp(built, buffer.bytes, old));
        REQUIRE(is_filled(buffer.bytes + buffer.size, room - buffer.size));
        current = buffer.bytes;
        current_length = buffer.size;
    }
    size = buffer.size;
    REQUIRE(dcsctp_seal(buffer.bytes, size) == DCSCTP_OK && is_filled(buffer.bytes + size, room - size));
    memcpy(built, buffer.bytes, size);
    current = built;
    current_length = size;
    REQUIRE(u16(built) == source && u16(built + 2) == destination && u32(built + 4) == tag);
    REQUIRE(u32(built + 8) == reference_word(built, size));
    for (size_t i = 0; i < count; i++) {
        REQUIRE(added[i].start == at);
        at = read_added(buffer.bytes, size, &added[i]);
        has_empty = has_empty || (added[i].value_size == 0 && added[i].item_count == 0
                                  && (added[i].type == DCSCTP_CHUNK_ERROR || added[i].type == DCSCTP_CHUNK_COOKIE_ECHO));
    }
    REQUIRE(at == size);
    uint32_t code = dcsctp_check(buffer.bytes, size, dcsctp_word(buffer.bytes, size), &policies[3]);
    REQUIRE(code == (count == 0 ? DCSCTP_FAULT_SIZE : has_empty ? DCSCTP_FAULT_LENGTH : DCSCTP_OK));
    release(block);
    return size;
}

/* ---- the blocks of a SACK */

/* Cleans blocks that cover few offsets or many; the fewest blocks that cover the same are found here offset by offset. */
static void try_cleaning(enum placing placing)
{
    static uint8_t is_covered[65537];
    static struct dcsctp_gap_ack_block runs[32768];
    size_t count = below(100) ? below(30) : below(17000), width = below(2) ? 40 : 65536, longest = below(2) ? 4 : width, left = 0;
    struct block block = block_of(&output_pages, count * sizeof *runs, placing);
    struct dcsctp_gap_ack_block *blocks = (struct dcsctp_gap_ack_block *)(void *)block.bytes;
    memset(is_covered, 0, sizeof is_covered);
    for (size_t i = 0; i < count; i++) {
        size_t start = below(width), end = below(9) ? start + below(longest) : below(width);
        blocks[i] = (struct dcsctp_gap_ack_block){(uint16_t)start, (uint16_t)(end < 65535 ? end : 65535)};
        if (blocks[i].start <= blocks[i].end)
            memset(is_covered + blocks[i].start, 1, (size_t)(blocks[i].end - blocks[i].start) + 1);
    }
    for (uint32_t i = 0; i < 65536; i++) {
        if (is_covered[i] && (i == 0 || !is_covered[i - 1]))
            runs[left].start = (uint16_t)i;
        if (is_covered[i] && !is_covered[i + 1])
            runs[left++].end = (uint16_t)i;
    }
    REQUIRE(dcsctp_clean_blocks(blocks, count) == left && !memcmp(blocks, runs, left * sizeof *runs));
    release(block);
}

/* ---- the responder: packets that no peer sends, and their answers */

static struct responder responder;
static uint64_t responder_time;

static void read_payload(void *user, const struct dcsctp_data *data, const uint8_t *payload)
{
    *(uint32_t *)user ^= reference_word(payload, data->payload_size); /* reads all of it */
}

/* Gives a packet to the responder, and checks what it keeps and what it answers. Returns the size of the answer. */
static size_t ask(const uint8_t *bytes, size_t length, uint8_t *answer, size_t room)
{
    struct dcsctp_chunk chunk;
    uint32_t last = 0;
    size_t size = responder_receive(&responder, responder_time, bytes, length, answer, room);
    REQUIRE(responder.block_count < MOST_BLOCKS && responder.duplicate_count <= MOST_DUPLICATES);
    for (size_t i = 0; i < responder.block_count; i++) {
        REQUIRE(responder.blocks[i].start >= last + 2 && responder.blocks[i].start <= responder.blocks[i].end);
        last = responder.blocks[i].end;
    }
    REQUIRE(size <= room && (size == 0 || dcsctp_check(answer, size, dcsctp_word(answer, size), &policies[3]) == DCSCTP_OK));
    for (size_t at = 12; size > 0 && dcsctp_chunk_at(answer, size, at, &chunk); at = chunk.next)
        REQUIRE((chunk.type != DCSCTP_CHUNK_SACK || dcsctp_validate_sack(answer, size, &chunk))
                && (chunk.type != DCSCTP_CHUNK_AUTH || dcsctp_verify_auth(responder.shared_key, responder.shared_key_size,
                                                                          answer + at, size - at)));
    return size;
}

/* Opens an association: INIT, INIT ACK, COOKIE ECHO, COOKIE ACK. A cookie that was changed opens none, nor one that comes late,
   which an ERROR answers (section 5.1.5). Of the
   INIT's unknown parameters the INIT ACK reports those of which the types ask for it, up to one that asks to stop there. */
static void call_responder(void)
{
    static uint32_t sum;
    static const uint8_t listed[] = {DCSCTP_CHUNK_ASCONF};
    const struct dcsctp_init peer = {(uint32_t)draw() | 1, 1 << 16, 9, 9, (uint32_t)draw()};
    const uint16_t types[] = {5, 12, 0x8005, 0xc00f, below(2) ? 0x4001 : 0x3fff, 0xc010}; /* RFC 9260 section 3.2.1 */
    uint8_t packet[400], answer[400];
    struct dcsctp_chunk chunk;
    struct dcsctp_parameter cookie, it;
    size_t size, answered, reports = 0;
    responder = (struct responder){.own = {(uint32_t)draw() | 1, 1 << 16, 9, 9, (uint32_t)draw()}, .user = &sum,
                                   .take_data = read_payload};
    if (below(2)) /* with AUTH before a chunk that the responder doesn't know, and before SACK and HEARTBEAT ACK of its own */
        responder.listed = (struct bytes){listed, sizeof listed};
    for (size_t i = 0; i < sizeof responder.key; i++)
        responder.key[i] = (uint8_t)draw();
    responder_time = 0;
    REQUIRE(!dcsctp_begin(packet, 400, &size, 1, 2, 0) && !dcsctp_add_init(packet, 400, &size, &peer));
    if (responder.listed.size > 0)
        REQUIRE(!dcsctp_add_parameter(packet, 400, &size, 12, DCSCTP_PARAMETER_RANDOM, noise, 32)
                && !dcsctp_add_parameter(packet, 400, &size, 12, DCSCTP_PARAMETER_CHUNK_LIST, (const uint8_t[]){3, 5, 0xc1}, 3)
                && !dcsctp_add_parameter(packet, 400, &size, 12, DCSCTP_PARAMETER_REQUESTED_HMAC_ALGORITHM,
                                         (const uint8_t[]){0, 2, 0, (uint8_t)(below(2) ? 1 : 3)}, 4));
    for (size_t i = 0; i < sizeof types / sizeof *types; i++)
        REQUIRE(!dcsctp_add_parameter(packet, 400, &size, 12, types[i], (const uint8_t *)"abcdef", i));
    REQUIRE(!dcsctp_seal(packet, size));
    answered = ask(packet, size, answer, 400);
    REQUIRE(u32(answer + 4) == peer.initiate_tag && dcsctp_chunk_at(answer, answered, 12, &chunk) && chunk.type == DCSCTP_CHUNK_INIT_ACK);
    size_t first = dcsctp_list_offset(&chunk) + (responder.listed.size > 0 ? 36 + 8 + 8 : 0); /* after the parameters of AUTH */
    REQUIRE(dcsctp_parameter_at(answer, answered, &chunk, first, &cookie) && cookie.type == DCSCTP_PARAMETER_STATE_COOKIE);
    for (size_t at = cookie.next; dcsctp_parameter_at(answer, answered, &chunk, at, &it); at = it.next)
        if (it.type == DCSCTP_PARAMETER_UNRECOGNIZED_PARAMETER) {
            REQUIRE(it.value_size == 4 + 3 + reports && u32(answer + it.value_offset) >> 16 == types[3 + reports]);
            reports++;
        }
    REQUIRE(reports == (types[4] == 0x4001 ? 2 : 1));
    for (int wrong = 2; wrong >= 0; wrong--) {
        const size_t at = cookie.value_offset + below(cookie.value_size), bit = below(8);
        answer[at] ^= (uint8_t)((wrong == 1) << bit);
        responder_time = wrong == 2 ? COOKIE_LIFE + 1 : below(COOKIE_LIFE + 1);
        REQUIRE(!dcsctp_begin(packet, 400, &size, 1, 2, responder.own.initiate_tag));
        REQUIRE(!dcsctp_add_cookie_echo(packet, 400, &size, answer + cookie.value_offset, cookie.value_size) && !dcsctp_seal(packet, size));
        answer[at] ^= (uint8_t)((wrong == 1) << bit);
        uint8_t last[200];
        REQUIRE((ask(packet, size, last, 200) == (wrong == 2 ? 24 : wrong ? 0 : 16)) && responder.state == (wrong ? CLOSED : ESTABLISHED));
        REQUIRE(wrong || last[12] == DCSCTP_CHUNK_COOKIE_ACK);
        REQUIRE(wrong != 2 || (last[12] == DCSCTP_CHUNK_ERROR && u32(last + 4) == peer.initiate_tag && u32(last + 16) == 0x00030008
                               && u32(last + 20) == responder_time - COOKIE_LIFE));
    }
    REQUIRE((responder.shared_key_size > 0) == (responder.listed.size > 0));
    responder.own.initiate_tag = (uint32_t)draw() | 1;
    responder.tie_tags[0] = (uint8_t)draw();
}

/* Gives the responder a packet under its own ports and tag, so that it looks at the chunks; the first of these mostly has a TSN
   near the one that is due, or the number of the request that is. */
static void try_responder(const uint8_t *bytes, size_t length, enum placing placing)
{
    if (responder.state == CLOSED && below(4))
        call_responder();
    size_t room = below(3) ? 1400 : below(1400);
    struct block input = copy_of(&input_pages, bytes, length, placing), answer = block_of(&output_pages, room, placing);
    if (length >= 12 && below(20)) {
        memcpy(input.bytes, (uint8_t[8]){0, 1, 0, 2}, 8);
        if (length < 13 || input.bytes[12] != DCSCTP_CHUNK_INIT)
            dcsctp_set_tag(input.bytes, length, responder.association.local_tag);
        if (length >= 24 && (input.bytes[12] == DCSCTP_CHUNK_RE_CONFIG || numbers_before_list(input.bytes[12], 1)) && below(8)) {
            bool is_request = input.bytes[12] == DCSCTP_CHUNK_RE_CONFIG;
            uint32_t tsn = responder.cumulative_tsn - 3 + (uint32_t)below(below(2) ? 12 : 70000);
            uint32_t number = is_request ? responder.next_request - (uint32_t)below(3) : tsn;
            for (int i = 0; i < 4; i++)
                input.bytes[(is_request ? 20 : 16) + i] = (uint8_t)(number >> (24 - 8 * i));
        }
        dcsctp_seal(input.bytes, length);
    }
    ask(input.bytes, length, answer.bytes, room);
    release(answer);
    release(input);
}

/* ---- packets at random */

static void fill_noise(void)
{
    if (noise[0])
        return;
    /* texts for the most part, so that reasons are UTF-8 often enough */
    for (size_t i = 0; i < sizeof noise; i++)
        noise[i] = below(200) ? (uint8_t)('a' + below(26)) : (uint8_t)draw();
    noise[0] = 'a';
}

int LLVMFuzzerTestOneInput(const uint8_t *bytes, size_t length);

int LLVMFuzzerTestOneInput(const uint8_t *bytes, size_t length)
{
    fill_noise();
    state = length + 1;
    for (size_t i = 0; i < length; i++)
        state = (state ^ bytes[i]) * 0x100000001b3;
    state += !state;
    try_bytes(bytes, length, (enum placing)below(PLACINGS));
    try_building((enum placing)below(PLACINGS));
    try_cleaning((enum placing)below(PLACINGS));
    try_responder(bytes, length, (enum placing)below(PLACINGS));
    return 0;
}

#ifndef LIBFUZZER
enum { BASES = 200 };
static struct block bases[BASES];
static size_t base_count;

static void load(const char *name)
{
    static char line[140000];
    static uint8_t bytes[sizeof line / 2];
    FILE *file = fopen(name, "r");
    if (!file) {
        fprintf(stderr, "fuzz: %s can't be read\n", name);
        exit(2);
    }
    while (base_count < BASES && fgets(line, sizeof line, file)) {
        size_t length = 0;
        while (sscanf(line + 2 * length, "%2hhx", &bytes[length]) == 1)
            length++;
        if (length)
            bases[base_count++] = copy_of(&input_pages, bytes, length, ALLOCATED);
    }
    fclose(file);
}

static uint8_t mutant[1 << 17];

/* Types of chunks, parameters and causes, sizes, and numbers at the edges. */
static uint8_t telling(void)
{
    static const uint8_t values[] = {0, 1, 2, 3, 4, 5, 6, 7, 8, 9, 10, 11, 12, 13, 14, 15, 16, 17, 18, 20, 24, 64, 127, 128, 130, 192, 194, 255};
    return below(4) ? values[below(sizeof values)] : (uint8_t)draw();
}

/* Writes an item or a chunk: two bytes, its length, and a value that is zeros for the most part. Returns its size. */
static size_t put_item(uint8_t *bytes, uint32_t type, size_t size)
{
    bytes[0] = (uint8_t)(type >> 8);
    bytes[1] = (uint8_t)type;
    bytes[2] = 0;
    bytes[3] = (uint8_t)(4 + size);
    for (size_t i = 0; i < size; i++)
        bytes[4 + i] = below(8) ? 0 : telling();
    return 4 + size;
}

/* Makes a packet of chunks that have a meaning, with parameters and error causes in them, whose sizes are right more
   often than not. Returns its size. */
static size_t compose(uint8_t *packet)
{
    static const uint8_t types[] = {0, 1, 2, 3, 4, 5, 6, 6, 6, 7, 8, 9, 9, 9, 10, 11, 14, 15, 64, 130, 130, 130, 192, 194, 255};
    static const uint8_t sizes[] = {0, 0, 0, 1, 4, 4, 4, 8, 8, 11, 12, 12, 14, 16, 16, 18, 20};
    static const uint16_t items[] = {1, 2, 2, 6, 7, 9, 10, 12, 13, 14, 15, 16, 17, 18, 99, 0x8001, 0x8008, 0xc000};
    size_t length = 12;
    for (size_t i = 0; i < length; i++)
        packet[i] = (uint8_t)draw();
    for (size_t chunks = 1 + below(4); chunks > 0; chunks--) {
        uint8_t *chunk = packet + length, type = types[below(sizeof types)];
        bool has_list = type == 1 || type == 2 || type == 4 || type == 5 || type == 6 || type == 9 || type == 130;
        size_t size = put_item(chunk, (uint32_t)type << 8 | telling(), has_list ? (type <= 2) * 16 : sizes[below(sizeof sizes)]);
        for (size_t count = has_list ? below(4) : 0; count > 0; count--) {
            size_t value = sizes[below(sizeof sizes)], item = put_item(chunk + size, items[below(18)], value);
            if (chunk[size + 1] == 2 && value >= 4) /* missing parameters, and how many */
                memcpy(chunk + size + 4, (uint8_t[4]){0, 0, 0, (uint8_t)(value / 2 - 2)}, 4);
            for (; item % 4 && count > 1; item++)
                chunk[size + item] = below(20) ? 0 : 7;
            size += item;
        }
        chunk[3] = (uint8_t)size;
        for (; size % 4; size++)
            chunk[size] = below(20) ? 0 : 7;
        length += size;
    }
    return length - below(20) / 19;
}

/* Changes bytes at random; returns their new size. */
static size_t changed(uint8_t *bytes, size_t length)
{
    for (size_t times = 1 + below(4); times > 0; times--) {
        size_t at = length ? below(length) : 0, size = 1 + below(12), whole = at / 4 * 4;
        switch (below(8)) {
        case 0: /* a bit */
            bytes[at] ^= (uint8_t)(1 << below(8));
            break;
        case 1: /* a byte */
            bytes[at] = telling();
            break;
        case 2: /* a length field */
            if (whole + 4 <= length) {
                bytes[whole + 2] = 0;
                bytes[whole + 3] = below(2) ? (uint8_t)(length - whole) : telling();
            }
            break;
        case 3: /* the type of a parameter or a cause */
            if (whole + 4 <= length) {
                bytes[whole] = (uint8_t)(below(4) ? 0 : below(2) ? 0x80 : 0xc0);
                bytes[whole + 1] = telling();
            }
            break;
        case 4: /* the end is cut off */
            length = below(2) ? at : length - below(4 < length ? 4 : length + 1);
            break;
        case 5: /* bytes are added at the end, a chunk for example */
            if (length + 8 < sizeof mutant / 2) {
                size = 4 + below(5);
                for (size_t i = 0; i < size; i++)
                    bytes[length + i] = i == 2 ? 0 : i == 3 ? (uint8_t)size : telling();
                length += size;
            }
            break;
        case 6: /* bytes are repeated */
            if (at + size <= length && length + size < sizeof mutant / 2) {
                memmove(bytes + at + size, bytes + at, length - at);
                length += size;
            }
            break;
        default: /* bytes are taken out */
            if (at + size <= length) {
                memmove(bytes + at, bytes + at + size, length - at - size);
                length -= size;
            }
        }
    }
    return length;
}

int main(int count, char **words)
{
    unsigned long packets = count > 1 ? strtoul(words[1], NULL, 10) : 1000000, accepted = 0;
    state = count > 2 ? strtoul(words[2], NULL, 10) + 1 : 1;
    load(count > 3 ? words[3] : "examples/packets.txt");
    for (int i = 0; i < 10; i++)
        draw();
    fill_noise();
    for (unsigned long i = 0; i < packets; i++) {
        enum placing placing = (enum placing)(i % PLACINGS);
        size_t length;
        if (i % 4 == 0 || !base_count) {
            length = try_building(placing);
            memcpy(mutant, built, length);
        } else if (i % 4 == 1) {
            length = compose(mutant);
        } else {
            struct block base = bases[below(base_count)];
            length = base.size;
            memcpy(mutant, base.bytes, length);
        }
        if (below(i % 4 == 1 ? 2 : 8))
            length = changed(mutant, length);
        try_bytes(mutant, length, placing);
        try_responder(mutant, length, placing);
        if (i % 16 == 0)
            try_cleaning(placing);
        accepted += dcsctp_check(mutant, length, 0, any) == DCSCTP_OK;
    }
    for (size_t i = 0; i < base_count; i++)
        release(bases[i]);
    printf("fuzz: %lu packets, %lu of them accepted\n", packets, accepted);
    return accepted == 0 || accepted == packets;
}
#endif
