/* SPDX-License-Identifier: Apache-2.0 */
/* What IANA's registry has beyond the kinds: each field of each type, read from bytes that were laid out by hand as the RFCs
   say, and written as these bytes again; values of another size, broken lists, and values that don't lie within the bytes; and
   lists at any place. */
#include <dcsctp_registered.h>
#include <stdint.h>
#include <stdio.h>
#include <stdlib.h>
#include <string.h>

static unsigned passed, failed;

#define CHECK(condition) check_that(condition, #condition, "", __LINE__)

static void check_that(bool holds, const char *condition, const char *bytes, int line)
{
    if (holds) {
        passed++;
    } else {
        failed++;
        printf("tests/c/registered.c:%d: %s: %s\n", line, condition, bytes);
    }
}

/* ---- bytes */

/* So many bytes lie before an item, and none after it: a memory of its own, so that a read too far is noticed. */
enum { BEFORE = 7 };

struct bytes {
    uint8_t *bytes;
    size_t length;
};

static struct bytes bytes_of(const char *hexadecimal)
{
    struct bytes made = {malloc(BEFORE + strlen(hexadecimal)), BEFORE};
    unsigned byte;
    int used;
    if (!made.bytes)
        abort();
    memset(made.bytes, 0xee, BEFORE);
    for (; sscanf(hexadecimal, " %2x%n", &byte, &used) == 1; hexadecimal += used)
        made.bytes[made.length++] = (uint8_t)byte;
    made.bytes = realloc(made.bytes, made.length);
    if (!made.bytes)
        abort();
    return made;
}

/* ---- one item */

enum level { CHUNK, PARAMETER, CAUSE };

/* Places are counted from the item's header on; 0 is none. */
struct row {
    enum level level;
    const char *bytes;
    struct dcsctp_registered fields;
};

/* Those that are read. */
static const struct row rows[] = {
    /* ECNE and CWR: RFC 4960 appendix A */
    {CHUNK, "0c00 0008 01020304", {.number = 0x01020304}},
    {CHUNK, "0d00 0008 01020304", {.number = 0x01020304}},
    /* AUTH: RFC 4895 section 5.1 */
    {CHUNK, "0fff 000c 0102 0003 01020304",
     {.short_number = 0x0102, .second_short_number = 3, .flags = 0xff, .rest_offset = 8, .rest_size = 4}},
    {CHUNK, "0f00 0008 0102 0001", {.short_number = 0x0102, .second_short_number = 1, .rest_offset = 8}},
    /* NR-SACK: draft-tuexen-tsvwg-sctp-multipath */
    {CHUNK, "1000 002c 01020304 00050607 0001 0002 0003 0000 0002 0103 0205 0206 0408 0509 01020303 01020204 01020105",
     {.number = 0x01020304, .second_number = 0x00050607, .short_number = 1, .second_short_number = 2, .third_short_number = 3,
      .rest_offset = 20, .rest_size = 24}},
    {CHUNK, "1000 0014 01020304 00050607 0000 0000 0000 ffff",
     {.number = 0x01020304, .second_number = 0x00050607, .rest_offset = 20}},
    /* ASCONF ACK and ASCONF: RFC 5061 section 4.1 */
    {CHUNK, "8000 002c 08090a0b c005 0008 00000001 c003 001c 00000002 00a1 0014 c001 0010 00000002 0005 0008 c0000201",
     {.number = 0x08090a0b, .rest_offset = 8, .rest_size = 36}},
    {CHUNK, "8000 0008 08090a0b", {.number = 0x08090a0b, .rest_offset = 8}},
    {CHUNK, "c100 0028 08090a0b 0005 0008 c0000201 c001 0010 00000001 0005 0008 c0000202 c006 0008 00000001",
     {.number = 0x08090a0b, .address_offset = 12, .address_size = 4, .rest_offset = 16, .rest_size = 24}},
    {CHUNK, "c100 001c 08090a0b 0006 0014 20010db8 00000000 00000000 00000001",
     {.number = 0x08090a0b, .address_offset = 12, .address_size = 16, .rest_offset = 28}},
    /* PKTDROP: draft-stewart-sctp-pktdrprep */
    {CHUNK, "8100 0020 0c0d0e0f 000007d0 05dc 0000 13881389 01020304 00000000 0b000004",
     {.number = 0x0c0d0e0f, .second_number = 2000, .short_number = 1500, .rest_offset = 16, .rest_size = 16}},
    {CHUNK, "8100 0010 0c0d0e0f 000007d0 0000 ffff",
     {.number = 0x0c0d0e0f, .second_number = 2000, .rest_offset = 16}},
    /* PAD: RFC 4820 section 3 */
    {CHUNK, "8400 0008 00000000", {.rest_offset = 4, .rest_size = 4}},
    {CHUNK, "8400 0004", {.rest_offset = 4}},

    /* IPv4 Address and IPv6 Address: RFC 9260 sections 3.3.2.1.1 and 3.3.2.1.2 */
    {PARAMETER, "0005 0008 c0000201", {.address_offset = 4, .address_size = 4}},
    {PARAMETER, "0006 0014 20010db8 00000000 00000000 00000001", {.address_offset = 4, .address_size = 16}},
    /* Unrecognized Parameter: section 3.3.3.1.2 */
    {PARAMETER, "0008 0009 8008 0005 0f", {.rest_offset = 4, .rest_size = 5}},
    {PARAMETER, "0008 0010 8008 0005 0f000000 c000 0004", {.rest_offset = 4, .rest_size = 12}},
    {PARAMETER, "0008 0004", {.rest_offset = 4}},
    /* Cookie Preservative, Host Name Address, Supported Address Types: sections 3.3.2.1.3 to 3.3.2.1.5 */
    {PARAMETER, "0009 0008 0000ea60", {.number = 60000}},
    {PARAMETER, "000b 000e 612e6578616d706c6500", {.rest_offset = 4, .rest_size = 10}},
    {PARAMETER, "000c 0008 0005 0006", {.rest_offset = 4, .rest_size = 4}},
    {PARAMETER, "000c 0004", {.rest_offset = 4}},
    /* ECN Capable: RFC 4960 appendix A */
    {PARAMETER, "8000 0004", {0}},
    /* Random, Chunk List, Requested HMAC Algorithm: RFC 4895 section 3 */
    {PARAMETER, "8002 000c 0123456789abcdef", {.rest_offset = 4, .rest_size = 8}},
    {PARAMETER, "8003 0006 c180", {.rest_offset = 4, .rest_size = 2}},
    {PARAMETER, "8004 0008 0003 0001", {.rest_offset = 4, .rest_size = 4}},
    /* Padding: RFC 4820 section 4 */
    {PARAMETER, "8005 000a 000000000000", {.rest_offset = 4, .rest_size = 6}},
    /* Add IP Address, Delete IP Address, Set Primary Address: RFC 5061 sections 4.2.1, 4.2.2 and 4.2.4 */
    {PARAMETER, "c001 0010 01023474 0005 0008 c0000201", {.number = 0x01023474, .address_offset = 12, .address_size = 4}},
    {PARAMETER, "c001 001c 01023474 0006 0014 20010db8 00000000 00000000 00000001",
     {.number = 0x01023474, .address_offset = 12, .address_size = 16}},
    {PARAMETER, "c002 0010 01023476 0005 0008 00000000", {.number = 0x01023476, .address_offset = 12, .address_size = 4}},
    {PARAMETER, "c004 0010 01023479 0005 0008 c0000201", {.number = 0x01023479, .address_offset = 12, .address_size = 4}},
    /* Error Cause Indication, Success Indication, Adaptation Layer Indication: sections 4.2.3, 4.2.5 and 4.2.6 */
    {PARAMETER, "c003 001c 01023476 00a0 0014 c002 0010 01023476 0005 0008 c0000201",
     {.number = 0x01023476, .rest_offset = 8, .rest_size = 20}},
    {PARAMETER, "c003 0008 01023476", {.number = 0x01023476, .rest_offset = 8}},
    {PARAMETER, "c005 0008 01023474", {.number = 0x01023474}},
    {PARAMETER, "c006 0008 01020304", {.number = 0x01020304}},

    /* RFC 9260 section 3.3.10 */
    {CAUSE, "0001 0008 0201 ffff", {.short_number = 0x0201}},
    {CAUSE, "0003 0008 0001e240", {.number = 123456}},
    {CAUSE, "0004 0004", {0}},
    {CAUSE, "0005 000e 000b 000a 612e62632e00", {.rest_offset = 4, .rest_size = 10}},
    {CAUSE, "0005 0004", {.rest_offset = 4}},
    {CAUSE, "0007 0004", {0}},
    {CAUSE, "0008 0014 0008 0009 8008 0005 0f000000 c000 0004", {.rest_offset = 4, .rest_size = 16}},
    {CAUSE, "000b 0020 0005 0008 c0000201 0006 0014 20010db8 00000000 00000000 00000001", {.rest_offset = 4, .rest_size = 28}},
    /* RFC 5061 section 4.3 */
    {CAUSE, "00a0 0014 c002 0010 00000001 0005 0008 c0000201", {.rest_offset = 4, .rest_size = 16}},
    {CAUSE, "00a1 0014 c001 0010 00000002 0005 0008 c0000201", {.rest_offset = 4, .rest_size = 16}},
    {CAUSE, "00a2 0014 c002 0010 00000003 0005 0008 c0000201", {.rest_offset = 4, .rest_size = 16}},
    {CAUSE, "00a3 0004", {0}},
    {CAUSE, "00a4 0014 c004 0010 00000004 0005 0008 c0000201", {.rest_offset = 4, .rest_size = 16}},
    /* RFC 4895 section 4.1 */
    {CAUSE, "0105 0006 0002", {.short_number = 2}},
};

/* Those that aren't: of another size, with a broken list, or of a type that has a kind of its own, or none. */
static const struct row others[] = {
    {CHUNK, "0c00 0004", {0}},
    {CHUNK, "0d00 000c 01020304 00000000", {0}},
    {CHUNK, "0f00 0007 0102 00", {0}},
    {CHUNK, "1000 0013 01020304 00050607 0000 0000 0000 00", {0}},
    {CHUNK, "1000 0015 01020304 00050607 0000 0000 0000 0000 00", {0}},
    {CHUNK, "1000 0014 01020304 00050607 ffff ffff ffff 0000", {0}},
    {CHUNK, "8000 000b 08090a0b c005 00", {0}},
    {CHUNK, "8000 0007 090a0b", {0}},
    {CHUNK, "8100 000f 0c0d0e0f 000007d0 0000 00", {0}},
    {CHUNK, "c100 0008 08090a0b", {0}},
    {CHUNK, "c100 0010 08090a0b c006 0008 00000001", {0}},
    {CHUNK, "c100 000e 08090a0b 000b 0006 6100", {0}},
    {CHUNK, "c100 000f 08090a0b 0005 0008 c00002", {0}},
    {CHUNK, "c100 0016 08090a0b 0005 0008 c0000201 c006 0008 0000", {0}},
    {CHUNK, "c100 0007 090a0b", {0}},
    {CHUNK, "0b00 0004", {0}},
    {CHUNK, "3e00 0008 01020304", {0}},
    {PARAMETER, "0005 0007 c00002", {0}},
    {PARAMETER, "0005 0009 c000020100", {0}},
    {PARAMETER, "0005 0014 20010db8 00000000 00000000 00000001", {0}},
    {PARAMETER, "0006 0008 c0000201", {0}},
    {PARAMETER, "0006 0013 20010db8 00000000 00000000 000000", {0}},
    {PARAMETER, "0008 0008 8008 0003", {0}},
    {PARAMETER, "0008 0007 8008 00", {0}},
    {PARAMETER, "0008 000f 8008 0005 0f000000 c000 00", {0}},
    {PARAMETER, "0009 0007 00ea60", {0}},
    {PARAMETER, "0009 0009 0000ea60 00", {0}},
    {PARAMETER, "000c 0007 0005 00", {0}},
    {PARAMETER, "8000 0005 00", {0}},
    {PARAMETER, "8004 0005 00", {0}},
    {PARAMETER, "c001 0008 01023474", {0}},
    {PARAMETER, "c001 0006 0102", {0}},
    {PARAMETER, "c001 000f 01023474 0005 0008 c00002", {0}},
    {PARAMETER, "c001 0011 01023474 0005 0008 c0000201 00", {0}},
    {PARAMETER, "c001 000e 01023474 000b 0006 6100", {0}},
    {PARAMETER, "c002 0010 01023476 0007 0008 c0000201", {0}},
    {PARAMETER, "c003 000b 01023476 00a0 00", {0}},
    {PARAMETER, "c003 0007 010234", {0}},
    {PARAMETER, "c004 0010 01023479 0007 0008 c0000201", {0}},
    {PARAMETER, "c005 0004", {0}},
    {PARAMETER, "c006 000c 00000001 00000002", {0}},
    {PARAMETER, "0007 0008 01020304", {0}},
    {PARAMETER, "0002 0008 01020304", {0}},
    {CAUSE, "0001 0006 0201", {0}},
    {CAUSE, "0001 000a 0201 0000 0000", {0}},
    {CAUSE, "0003 0007 0001e2", {0}},
    {CAUSE, "0004 0005 00", {0}},
    {CAUSE, "0005 0007 000b 00", {0}},
    {CAUSE, "0007 0005 00", {0}},
    {CAUSE, "0008 0013 0008 0009 8008 0005 0f000000 c000 00", {0}},
    {CAUSE, "000b 0008 0005 0003", {0}},
    {CAUSE, "00a0 0013 c002 0010 00000001 0005 0008 c00002", {0}},
    {CAUSE, "00a1 0006 c001", {0}},
    {CAUSE, "00a2 0007 c002 00", {0}},
    {CAUSE, "00a3 000c c005 0008 00000001", {0}},
    {CAUSE, "00a4 0008 c004 0005", {0}},
    {CAUSE, "0105 0008 0002 0000", {0}},
    {CAUSE, "0105 0005 00", {0}},
    {CAUSE, "0009 0008 00000001", {0}},
    {CAUSE, "0010 0004", {0}},
};

/* A chunk, a parameter or a cause: what the calls take. */
struct item {
    struct dcsctp_chunk chunk;
    struct dcsctp_parameter parameter;
};

static bool find(enum level level, struct bytes in, struct item *item)
{
    return level == CHUNK ? dcsctp_chunk_at(in.bytes, in.length, BEFORE, &item->chunk)
                          : dcsctp_item_at(in.bytes, in.length, BEFORE, &item->parameter);
}

static bool read_item(enum level level, const uint8_t *bytes, size_t length, const struct item *item,
                      struct dcsctp_registered *registered)
{
    switch (level) {
    case CHUNK: return dcsctp_registered_chunk(bytes, length, &item->chunk, registered);
    case PARAMETER: return dcsctp_registered_parameter(bytes, length, &item->parameter, registered);
    default: return dcsctp_registered_cause(bytes, length, &item->parameter, registered);
    }
}

static bool is_untouched(const struct dcsctp_registered *registered)
{
    struct dcsctp_registered filled;
    memset(&filled, 0xa5, sizeof filled);
    return !memcmp(registered, &filled, sizeof filled);
}

static bool refuses(enum level level, const uint8_t *bytes, size_t length, const struct item *item)
{
    struct dcsctp_registered registered;
    memset(&registered, 0xa5, sizeof registered);
    return !read_item(level, bytes, length, item, &registered) && is_untouched(&registered);
}

static size_t place(size_t offset)
{
    return offset ? BEFORE + offset : 0;
}

static bool are_same(const struct dcsctp_registered *read, const struct dcsctp_registered *fields)
{
    return read->number == fields->number && read->second_number == fields->second_number
        && read->short_number == fields->short_number && read->second_short_number == fields->second_short_number
        && read->third_short_number == fields->third_short_number && read->flags == fields->flags
        && read->address_offset == place(fields->address_offset)
        && read->address_size == fields->address_size && read->rest_offset == place(fields->rest_offset)
        && read->rest_size == fields->rest_size;
}

/* Its value is said to lie elsewhere: none of these is within the bytes. */
static void outside(const struct row *row, struct bytes in, struct item item)
{
    const size_t far[] = {in.length + 1, SIZE_MAX - 3, SIZE_MAX};
    struct item moved = item;
    for (size_t i = 0; i < sizeof far / sizeof *far; i++) {
        moved.chunk.value_offset = moved.parameter.value_offset = far[i];
        check_that(refuses(row->level, in.bytes, in.length, &moved), "a value past the end is refused", row->bytes, __LINE__);
    }
    moved = item;
    moved.chunk.value_size = moved.parameter.value_size = SIZE_MAX;
    check_that(refuses(row->level, in.bytes, in.length, &moved), "an endless value is refused", row->bytes, __LINE__);
    size_t end = row->level == CHUNK ? item.chunk.value_offset + item.chunk.value_size
                                     : item.parameter.value_offset + item.parameter.value_size;
    check_that(refuses(row->level, in.bytes, end - 1, &item), "a value that is cut off is refused", row->bytes, __LINE__);
    check_that(refuses(row->level, NULL, 0, &item), "no bytes have a value", row->bytes, __LINE__);
}

/* ---- what is written */

/* Rows whose reserved bytes aren't zero, and how they are written. */
static const char *const zeroed[][2] = {
    {"1000 0014 01020304 00050607 0000 0000 0000 ffff",
     "1000 0014 01020304 00050607 0000 0000 0000 0000"},
    {"8100 0010 0c0d0e0f 000007d0 0000 ffff",
     "8100 0010 0c0d0e0f 000007d0 0000 0000"},
    {"0001 0008 0201 ffff",
     "0001 0008 0201 0000"},
};

static const char *written_as(const char *bytes)
{
    for (size_t i = 0; i < sizeof zeroed / sizeof *zeroed; i++)
        if (!strcmp(zeroed[i][0], bytes))
            return zeroed[i][1];
    return bytes;
}

enum { ROOM = 128, HEADER = 12, LIST = 16 };

/* A packet without a chunk, or with one to whose list is added. */
struct packet {
    uint8_t bytes[ROOM];
    size_t size;
};

static struct packet begun(enum level level)
{
    struct packet packet;
    memset(packet.bytes, 0x5a, sizeof packet.bytes);
    CHECK(dcsctp_begin(packet.bytes, ROOM, &packet.size, 5000, 5001, 7) == DCSCTP_OK);
    if (level != CHUNK)
        CHECK(dcsctp_add_chunk(packet.bytes, ROOM, &packet.size, DCSCTP_CHUNK_ERROR, 0, NULL, 0) == DCSCTP_OK);
    return packet;
}

static uint32_t write_item(enum level level, uint16_t type, struct packet *packet, size_t room,
                           const struct dcsctp_registered *registered, struct bytes in)
{
    switch (level) {
    case CHUNK:
        return dcsctp_add_registered_chunk(packet->bytes, room, &packet->size, (uint8_t)type, registered, in.bytes, in.length);
    case PARAMETER:
        return dcsctp_add_registered_parameter(packet->bytes, room, &packet->size, HEADER, type, registered, in.bytes,
                                               in.length);
    default:
        return dcsctp_add_registered_cause(packet->bytes, room, &packet->size, HEADER, type, registered, in.bytes, in.length);
    }
}

static bool declines(uint32_t code, enum level level, uint16_t type, size_t room, const struct dcsctp_registered *registered,
                     struct bytes in)
{
    struct packet packet = begun(level), before = packet;
    return write_item(level, type, &packet, room, registered, in) == code && packet.size == before.size
        && !memcmp(packet.bytes, before.bytes, ROOM);
}

/* The bytes of the row, with padding, after the header or in the list; and nothing after them. */
static void writes(const struct row *row, const struct item *item, struct bytes in, const struct dcsctp_registered *registered)
{
    struct bytes wanted = bytes_of(written_as(row->bytes));
    uint16_t type = row->level == CHUNK ? item->chunk.type : item->parameter.type;
    size_t length = wanted.length - BEFORE, end = (length + 3) / 4 * 4, start = row->level == CHUNK ? HEADER : LIST;
    struct packet packet = begun(row->level);
    check_that(write_item(row->level, type, &packet, start + end, registered, in) == DCSCTP_OK, "it is written", row->bytes, __LINE__);
    check_that(packet.size == start + end && !memcmp(packet.bytes + start, wanted.bytes + BEFORE, length),
               "its bytes are the same", row->bytes, __LINE__);
    for (size_t at = length; at < ROOM - start; at++)
        check_that(packet.bytes[start + at] == (at < end ? 0 : 0x5a), "padding is zero", row->bytes, __LINE__);
    if (row->level != CHUNK)
        check_that(packet.bytes[14] == 0 && packet.bytes[15] == 4 + length, "the chunk is as long", row->bytes, __LINE__);
    check_that(declines(DCSCTP_NO_ROOM, row->level, type, start + end - 1, registered, in), "it takes room", row->bytes, __LINE__);
    free(wanted.bytes);
    if (registered->rest_size) {
        struct dcsctp_registered moved = *registered;
        moved.rest_offset = in.length - moved.rest_size + 1;
        check_that(declines(DCSCTP_BAD_VALUE, row->level, type, ROOM, &moved, in), "a rest past the end", row->bytes, __LINE__);
        moved.rest_offset = SIZE_MAX;
        check_that(declines(DCSCTP_BAD_VALUE, row->level, type, ROOM, &moved, in), "a rest far off", row->bytes, __LINE__);
        moved = *registered;
        moved.rest_size = SIZE_MAX;
        check_that(declines(DCSCTP_BAD_VALUE, row->level, type, ROOM, &moved, in), "an endless rest", row->bytes, __LINE__);
    }
    if (registered->address_size) {
        struct dcsctp_registered moved = *registered;
        const size_t sizes[] = {0, 3, 5, SIZE_MAX};
        for (size_t i = 0; i < sizeof sizes / sizeof *sizes; i++) {
            moved.address_size = sizes[i];
            check_that(declines(DCSCTP_BAD_VALUE, row->level, type, ROOM, &moved, in), "no address", row->bytes, __LINE__);
        }
        moved = *registered;
        moved.address_offset = in.length - moved.address_size + 1;
        check_that(declines(DCSCTP_BAD_VALUE, row->level, type, ROOM, &moved, in), "an address past the end", row->bytes, __LINE__);
    }
}

/* What the values can't be. */
static void unwritable(void)
{
    struct bytes in = bytes_of("0005 0008 c0000201 8008 0003 00000000 00000000 0000");
    struct dcsctp_registered none = {0}, all = {.address_offset = BEFORE + 4, .address_size = 4, .rest_offset = BEFORE};
    struct packet packet = begun(PARAMETER);
    /* a type that has a kind of its own, or none */
    const uint16_t chunks[] = {0, 1, 11, 14, 17, 64, 127, 130, 131, 133, 192, 194, 255};
    const uint16_t parameters[] = {0, 1, 7, 10, 13, 18, 0x8001, 0x8006, 0x8008, 0xc000, 0xc007, 0xffff};
    const uint16_t causes[] = {0, 2, 6, 9, 10, 12, 13, 0x9f, 0xa5, 0x104, 0x106, 0xffff};
    for (size_t i = 0; i < sizeof chunks / sizeof *chunks; i++)
        CHECK(declines(DCSCTP_BAD_VALUE, CHUNK, chunks[i], ROOM, &all, in));
    for (size_t i = 0; i < sizeof parameters / sizeof *parameters; i++)
        CHECK(declines(DCSCTP_BAD_VALUE, PARAMETER, parameters[i], ROOM, &all, in));
    for (size_t i = 0; i < sizeof causes / sizeof *causes; i++)
        CHECK(declines(DCSCTP_BAD_VALUE, CAUSE, causes[i], ROOM, &all, in));
    /* an address of the other family, or none */
    CHECK(declines(DCSCTP_BAD_VALUE, PARAMETER, DCSCTP_PARAMETER_IPV6_ADDRESS, ROOM, &all, in));
    CHECK(declines(DCSCTP_BAD_VALUE, PARAMETER, DCSCTP_PARAMETER_IPV4_ADDRESS, ROOM, &none, in));
    all.address_size = 16;
    CHECK(declines(DCSCTP_BAD_VALUE, PARAMETER, DCSCTP_PARAMETER_IPV4_ADDRESS, ROOM, &all, in));
    CHECK(declines(DCSCTP_BAD_VALUE, CHUNK, DCSCTP_CHUNK_ASCONF, ROOM, &none, in));
    /* lists that are broken: an item's length is 3, or one is cut off, or a number is */
    all.rest_offset = BEFORE + 8;
    all.rest_size = 8;
    CHECK(declines(DCSCTP_BAD_VALUE, PARAMETER, DCSCTP_PARAMETER_UNRECOGNIZED_PARAMETER, ROOM, &all, in));
    CHECK(declines(DCSCTP_BAD_VALUE, PARAMETER, DCSCTP_PARAMETER_ERROR_CAUSE_INDICATION, ROOM, &all, in));
    CHECK(declines(DCSCTP_BAD_VALUE, CHUNK, DCSCTP_CHUNK_ASCONF_ACK, ROOM, &all, in));
    CHECK(declines(DCSCTP_BAD_VALUE, CAUSE, DCSCTP_CAUSE_UNRECOGNIZED_PARAMETERS, ROOM, &all, in));
    all.rest_offset = BEFORE;
    all.rest_size = 7;
    CHECK(declines(DCSCTP_BAD_VALUE, CHUNK, DCSCTP_CHUNK_ASCONF, ROOM, &all, in));
    CHECK(declines(DCSCTP_BAD_VALUE, PARAMETER, DCSCTP_PARAMETER_REQUESTED_HMAC_ALGORITHM, ROOM, &all, in));
    CHECK(declines(DCSCTP_BAD_VALUE, PARAMETER, DCSCTP_PARAMETER_SUPPORTED_ADDRESS_TYPES, ROOM, &all, in));
    /* an NR-SACK with other counts than its lists have */
    all.rest_size = 8;
    const uint16_t counts[][3] = {{0, 0, 0}, {1, 0, 0}, {0, 1, 0}, {0, 0, 3}, {UINT16_MAX, UINT16_MAX, UINT16_MAX}};
    for (size_t i = 0; i < sizeof counts / sizeof *counts; i++) {
        all.short_number = counts[i][0], all.second_short_number = counts[i][1], all.third_short_number = counts[i][2];
        CHECK(declines(DCSCTP_BAD_VALUE, CHUNK, DCSCTP_CHUNK_NR_SACK, ROOM, &all, in));
    }
    /* what the type does not carry is ignored, wherever it is said to be */
    memset(&all, 0xff, sizeof all);
    CHECK(write_item(PARAMETER, DCSCTP_PARAMETER_ECN_CAPABLE, &packet, ROOM, &all, in) == DCSCTP_OK && packet.size == 20);
    CHECK(write_item(CAUSE, DCSCTP_CAUSE_STALE_COOKIE, &packet, ROOM, &all, (struct bytes){NULL, 0}) == DCSCTP_OK);
    CHECK(packet.size == 28 && !memcmp(packet.bytes + 12, "\x09\0\0\x10\x80\0\0\4\0\3\0\x08\xff\xff\xff\xff", 16));
    /* the place is told first: a size that no packet has, or a place that is no chunk's */
    packet.size = 13;
    CHECK(write_item(CHUNK, DCSCTP_CHUNK_PAD, &packet, ROOM, &none, in) == DCSCTP_BAD_PLACE);
    CHECK(write_item(CHUNK, DCSCTP_CHUNK_DATA, &packet, ROOM, &none, in) == DCSCTP_BAD_PLACE);
    packet = begun(CHUNK);
    CHECK(write_item(PARAMETER, DCSCTP_PARAMETER_ECN_CAPABLE, &packet, ROOM, &none, in) == DCSCTP_BAD_PLACE);
    CHECK(write_item(CAUSE, 0, &packet, ROOM, &none, in) == DCSCTP_BAD_PLACE && packet.size == HEADER);
    free(in.bytes);
}

/* A PKTDROP with its flags (draft-stewart-sctp-pktdrprep), by the struct of its own too. */
static void with_flags(void)
{
    const struct bytes in = bytes_of("810d 0014 0c0d0e0f 000007d0 05dc 0000 13881389");
    struct dcsctp_chunk chunk = {0};
    struct dcsctp_registered registered;
    struct dcsctp_pktdrop pktdrop = {0};
    struct packet packet = begun(CHUNK), again = begun(CHUNK);
    CHECK(dcsctp_chunk_at(in.bytes, in.length, BEFORE, &chunk));
    CHECK(dcsctp_registered_chunk(in.bytes, in.length, &chunk, &registered) && registered.flags == 0x0d);
    CHECK(write_item(CHUNK, DCSCTP_CHUNK_PKTDROP, &packet, ROOM, &registered, in) == DCSCTP_OK);
    CHECK(packet.size == HEADER + in.length - BEFORE && !memcmp(packet.bytes + HEADER, in.bytes + BEFORE, in.length - BEFORE));
    CHECK(dcsctp_read_pktdrop(in.bytes, in.length, &chunk, &pktdrop));
    CHECK(pktdrop.flags & DCSCTP_PKTDROP_MIDDLEBOX && pktdrop.flags & DCSCTP_PKTDROP_TRUNCATED);
    CHECK(!(pktdrop.flags & DCSCTP_PKTDROP_BAD_CHECKSUM));
    CHECK(dcsctp_write_pktdrop(again.bytes, ROOM, &again.size, &pktdrop, in.bytes, in.length) == DCSCTP_OK);
    CHECK(again.size == packet.size && !memcmp(again.bytes, packet.bytes, packet.size));
    free(in.bytes);
}

static void each_row(void)
{
    for (size_t i = 0; i < sizeof rows / sizeof *rows; i++) {
        struct bytes in = bytes_of(rows[i].bytes);
        struct dcsctp_registered registered;
        struct item item = {{0}, {0}};
        memset(&registered, 0xa5, sizeof registered);
        check_that(find(rows[i].level, in, &item), "an item is there", rows[i].bytes, __LINE__);
        check_that(read_item(rows[i].level, in.bytes, in.length, &item, &registered), "it is read", rows[i].bytes, __LINE__);
        check_that(are_same(&registered, &rows[i].fields), "its fields are right", rows[i].bytes, __LINE__);
        outside(&rows[i], in, item);
        writes(&rows[i], &item, in, &registered);
        free(in.bytes);
    }
    for (size_t i = 0; i < sizeof others / sizeof *others; i++) {
        struct bytes in = bytes_of(others[i].bytes);
        struct item item = {{0}, {0}};
        check_that(find(others[i].level, in, &item), "an item is there", others[i].bytes, __LINE__);
        check_that(refuses(others[i].level, in.bytes, in.length, &item), "it is refused", others[i].bytes, __LINE__);
        free(in.bytes);
    }
}

/* ---- lists at any place */

/* In an Error Cause Indication is a cause, in that a request, and in that an address. */
static void nested(void)
{
    struct bytes in = bytes_of("c003 001c 01023476 00a0 0014 c002 0010 01023476 0005 0008 c0000201");
    struct dcsctp_parameter item;
    struct dcsctp_registered found;
    CHECK(dcsctp_item_at(in.bytes, in.length, BEFORE, &item) && item.type == DCSCTP_PARAMETER_ERROR_CAUSE_INDICATION);
    CHECK(item.value_offset == BEFORE + 4 && item.value_size == 24 && item.next == in.length);
    CHECK(dcsctp_registered_parameter(in.bytes, in.length, &item, &found) && found.rest_size == 20);
    CHECK(dcsctp_item_at(in.bytes, found.rest_offset + found.rest_size, found.rest_offset, &item));
    CHECK(item.type == DCSCTP_CAUSE_DELETE_LAST_REMAINING_IP_ADDRESS && item.value_offset == BEFORE + 12);
    CHECK(dcsctp_registered_cause(in.bytes, in.length, &item, &found) && found.rest_offset == BEFORE + 12);
    CHECK(dcsctp_item_at(in.bytes, found.rest_offset + found.rest_size, found.rest_offset, &item));
    CHECK(dcsctp_registered_parameter(in.bytes, in.length, &item, &found) && found.number == 0x01023476);
    CHECK(found.address_size == 4 && !memcmp(in.bytes + found.address_offset, "\xc0\0\2\1", 4));
    free(in.bytes);
}

/* The requests of an ASCONF: a list that ends with the chunk's value. */
static void requests(void)
{
    struct bytes in = bytes_of("c100 0028 08090a0b 0005 0008 c0000201 c001 0010 00000001 0005 0008 c0000202 c006 0008 00000001"
                               "0b00 0004");
    struct dcsctp_chunk chunk;
    struct dcsctp_registered found;
    struct dcsctp_parameter items[4], item;
    CHECK(dcsctp_chunk_at(in.bytes, in.length, BEFORE, &chunk) && chunk.next == in.length - 4);
    CHECK(dcsctp_registered_chunk(in.bytes, in.length, &chunk, &found));
    size_t end = found.rest_offset + found.rest_size;
    CHECK(end == chunk.value_offset + chunk.value_size);
    memset(items, 0xa5, sizeof items);
    CHECK(dcsctp_items(in.bytes, end, found.rest_offset, items, 4) == 2);
    CHECK(items[0].type == DCSCTP_PARAMETER_ADD_IP_ADDRESS && items[0].value_offset == BEFORE + 20 && items[0].value_size == 12);
    CHECK(items[1].type == DCSCTP_PARAMETER_ADAPTATION_LAYER_INDICATION && items[1].next == end && items[2].type == 0xa5a5);
    memset(items, 0xa5, sizeof items);
    CHECK(dcsctp_items(in.bytes, end, found.rest_offset, items, 1) == 2 && items[0].value_size == 12 && items[1].type == 0xa5a5);
    CHECK(dcsctp_items(in.bytes, end, found.rest_offset, NULL, 0) == 2);
    CHECK(dcsctp_items(in.bytes, end, end, items, 4) == 0 && dcsctp_items(in.bytes, end, SIZE_MAX, items, 4) == 0);
    CHECK(dcsctp_items(NULL, 0, 0, items, 4) == 0);
    memset(&item, 0xa5, sizeof item);
    CHECK(!dcsctp_item_at(in.bytes, end, end, &item) && item.type == 0xa5a5);
    CHECK(!dcsctp_item_at(in.bytes, end, end - 3, &item) && !dcsctp_item_at(in.bytes, end, end + 1, &item));
    CHECK(!dcsctp_item_at(in.bytes, end, SIZE_MAX, &item) && !dcsctp_item_at(NULL, 0, 0, &item) && item.type == 0xa5a5);
    /* one byte less, and the last isn't whole */
    CHECK(dcsctp_items(in.bytes, end - 1, found.rest_offset, items, 4) == 1);
    free(in.bytes);
}

static void short_numbers(void)
{
    struct bytes in = bytes_of("000c 000a 0005 0006 000b 0000");
    struct dcsctp_parameter item;
    uint16_t numbers[4] = {9, 9, 9, 9};
    CHECK(dcsctp_item_at(in.bytes, in.length, BEFORE, &item));
    CHECK(dcsctp_short_numbers(in.bytes, in.length, &item, numbers, 4) == 3);
    CHECK(numbers[0] == 5 && numbers[1] == 6 && numbers[2] == 11 && numbers[3] == 9);
    numbers[1] = 9;
    CHECK(dcsctp_short_numbers(in.bytes, in.length, &item, numbers, 1) == 3 && numbers[0] == 5 && numbers[1] == 9);
    CHECK(dcsctp_short_numbers(in.bytes, in.length, &item, NULL, 0) == 3);
    item.value_size = 5;
    CHECK(dcsctp_short_numbers(in.bytes, in.length, &item, numbers, 4) == 0);
    item.value_size = 0;
    CHECK(dcsctp_short_numbers(in.bytes, in.length, &item, numbers, 4) == 0);
    item.value_size = 10;
    CHECK(dcsctp_short_numbers(in.bytes, in.length, &item, numbers, 4) == 0);
    item.value_size = SIZE_MAX - 1;
    CHECK(dcsctp_short_numbers(in.bytes, in.length, &item, numbers, 4) == 0 && numbers[0] == 5);
    free(in.bytes);
}

/* A struct of several types reads and writes no other one, whose value has the same form. */
static void other_types(void)
{
    struct bytes in = bytes_of("0c00 0008 01020304");
    struct dcsctp_chunk chunk;
    struct dcsctp_congestion congestion = {7, 7};
    struct dcsctp_parameter item = {DCSCTP_PARAMETER_PADDING, BEFORE + 4, 4, BEFORE + 8};
    struct dcsctp_random_or_padding data = {7, 7};
    uint8_t packet[ROOM];
    size_t size = HEADER;
    CHECK(dcsctp_chunk_at(in.bytes, in.length, BEFORE, &chunk));
    chunk.type = DCSCTP_CHUNK_SHUTDOWN;
    CHECK(!dcsctp_read_congestion(in.bytes, in.length, &chunk, &congestion));
    CHECK(congestion.flags == 7 && congestion.lowest_tsn == 7);
    chunk.type = DCSCTP_CHUNK_CWR, chunk.flags = 0xa5;
    CHECK(dcsctp_read_congestion(in.bytes, in.length, &chunk, &congestion));
    CHECK(congestion.flags == 0xa5 && congestion.lowest_tsn == 0x01020304);
    CHECK(dcsctp_write_congestion(packet, ROOM, &size, DCSCTP_CHUNK_SHUTDOWN, &congestion) == DCSCTP_BAD_VALUE);
    CHECK(dcsctp_read_random_or_padding(in.bytes, in.length, &item, &data));
    CHECK(data.data_offset == BEFORE + 4 && data.data_size == 4 && size == HEADER);
    item.type = DCSCTP_PARAMETER_CHUNK_LIST, data.data_size = 7;
    CHECK(!dcsctp_read_random_or_padding(in.bytes, in.length, &item, &data) && data.data_size == 7);
    const struct dcsctp_random_or_padding of = {BEFORE + 4, 4};
    const struct dcsctp_address_request request = {1, BEFORE + 4, 4};
    const struct dcsctp_parameters_cause cause = {0, 0};
    CHECK(dcsctp_add_chunk(packet, ROOM, &size, DCSCTP_CHUNK_ERROR, 0, NULL, 0) == DCSCTP_OK && size == HEADER + 4);
    CHECK(dcsctp_write_random_or_padding(packet, ROOM, &size, HEADER, DCSCTP_PARAMETER_CHUNK_LIST, &of, in.bytes, in.length)
          == DCSCTP_BAD_VALUE);
    CHECK(dcsctp_write_address_request(packet, ROOM, &size, HEADER, DCSCTP_PARAMETER_SUCCESS_INDICATION, &request, in.bytes,
                                       in.length)
          == DCSCTP_BAD_VALUE);
    CHECK(dcsctp_write_parameters_cause(packet, ROOM, &size, HEADER, DCSCTP_CAUSE_OUT_OF_RESOURCE, &cause, NULL, 0)
          == DCSCTP_BAD_VALUE && size == HEADER + 4);
    free(in.bytes);
}

int main(void)
{
    each_row();
    other_types();
    with_flags();
    unwritable();
    nested();
    requests();
    short_numbers();
    printf("registered: %u passed, %u failed\n", passed, failed);
    return failed != 0;
}
