/* SPDX-License-Identifier: Apache-2.0 */
/* Each call on packets of real peers; and calls at the edges: no bytes, offsets at and past the end, room that is just
   enough and one byte less, each allocation refused in turn. Linked with --wrap=malloc,--wrap=realloc,--wrap=free. */
#include <dcsctp.h>
#include <stdio.h>
#include <stdlib.h>
#include <string.h>

static unsigned passed, failed;

#define CHECK(condition) check_that(condition, #condition, __LINE__)

static void check_that(bool holds, const char *condition, int line)
{
    if (holds) {
        passed++;
    } else {
        failed++;
        printf("tests/c/edge.c:%d: %s\n", line, condition);
    }
}

/* ---- the library's requests for memory */

static unsigned requests, refused_request;
static int held;
void *__real_malloc(size_t size);
void *__real_realloc(void *block, size_t size);
void __real_free(void *block);

void *__wrap_malloc(size_t size)
{
    void *block = ++requests == refused_request ? NULL : __real_malloc(size);
    held += block != NULL;
    return block;
}

void *__wrap_realloc(void *block, size_t size)
{
    void *moved = ++requests == refused_request ? NULL : __real_realloc(block, size);
    held += !block && moved;
    return moved;
}

void __wrap_free(void *block)
{
    held -= block != NULL;
    __real_free(block);
}

/* ---- packets */

static const struct dcsctp_policy exact = {0}, any = {.any_checksum = true}, zero = {.zero_checksum = true},
                                  strict = {.any_checksum = true, .strict_padding = true};

/* A SACK with two blocks and a duplicate TSN, I-DATA of one byte with three of padding, and a HEARTBEAT. */
static const uint8_t packet[] = {
    0x13, 0x88, 0x13, 0x88, 1, 2, 3, 4, 0, 0, 0, 0, /* */
    3, 0, 0, 28, 0x36, 0x9d, 0xd0, 0x0b, 0, 1, 0xed, 0x73, 0, 2, 0, 1, 0, 2, 0, 6, 0, 8, 0, 8, 0x36, 0x9d, 0xd0, 0x11,
    0x40, 2, 0, 21, 0x94, 0x4a, 0x5d, 0xd5, 0, 1, 0, 0, 0, 0, 0, 7, 0, 0, 0, 0x35, 0xaa, 9, 9, 9, /* */
    4, 0, 0, 10, 0, 1, 0, 6, 0x7f, 0x7f, 0, 0,
};
enum { LENGTH = sizeof packet, SACK_AT = 12, DATA_AT = 40, HEARTBEAT_AT = 64, ROOM = 600 };

static uint8_t output[ROOM], before[ROOM];

static void fill_output(void)
{
    memset(output, 0xa5, sizeof output);
    memcpy(before, output, sizeof output);
}

static bool stays(size_t from)
{
    return !memcmp(output + from, before + from, sizeof output - from);
}

static struct dcsctp_chunk chunk_at(size_t offset)
{
    struct dcsctp_chunk chunk;
    CHECK(dcsctp_chunk_at(packet, LENGTH, offset, &chunk));
    return chunk;
}

/* ---- packets of real peers (docs/CAPTURES.md), whose numbers are read by hand by RFC 9260 */

/* DATA of usrsctp: "hello", and three bytes of padding. Its checksum field, and the bytes before and after that. */
#define HELLO_WORD 0x1148a1f6
#define HELLO_FRONT "\x13\x88\x13\x88\x0d\xa7\x37\x98"
#define HELLO_BACK "\0\3\0\x15\x79\x06\xb4\xb0\0\1\0\0\0\0\0\x33hello\0\0"
static const uint8_t hello[] = HELLO_FRONT "\x11\x48\xa1\xf6" HELLO_BACK;
static const uint8_t hello_canonical[] = HELLO_FRONT "\0\0\0\0" HELLO_BACK;
enum { HELLO = sizeof hello };
static const char hello_text[] = "source=5000 destination=5000 tag=229062552 checksum=289972726\n"
                                 "DATA, type=ordered::complete, tsn=2030482608, sid=1, ssn=0, ppid=51, length=5";
static const char hello_report[] = "source 5000, destination 5000, tag 0x0da73798\n"
                                   "checksum 0x1148a1f6: right\n"
                                   "DATA: tsn 2030482608, stream 1, ssn 0, ppid 51 (WebRTC String), ordered, beginning, end\n"
                                   "  payload: 5 bytes\n"
                                   "    0000: 68 65 6c 6c 6f                                   |hello|\n"
                                   "  text: \"hello\"\n";

static void captured_data(void)
{
    struct dcsctp_header header;
    struct dcsctp_chunk chunk;
    struct dcsctp_data data = {.mid = 7, .fsn = 7, .ssn = 7, .is_unordered = true, .immediate_ack = true};
    CHECK(HELLO == 36 && dcsctp_word(hello, HELLO) == HELLO_WORD);
    CHECK(dcsctp_header(hello, HELLO, &header) && header.source_port == 5000 && header.destination_port == 5000);
    CHECK(header.verification_tag == 229062552 && header.checksum == HELLO_WORD);
    CHECK(dcsctp_chunk_at(hello, HELLO, 12, &chunk) && chunk.type == DCSCTP_CHUNK_DATA && chunk.flags == 3);
    CHECK(chunk.value_offset == 16 && chunk.value_size == 17 && chunk.next == 36);
    CHECK(!dcsctp_chunk_at(hello, HELLO, 36, &chunk));
    CHECK(dcsctp_data(hello, HELLO, &chunk, &data) && data.tsn == 2030482608 && data.mid == 0 && data.fsn == 0);
    CHECK(data.ppid == 51 && data.stream == 1 && data.ssn == 0 && !data.is_unordered && !data.immediate_ack);
    CHECK(data.is_beginning && data.is_end && data.payload_offset == 28 && data.payload_size == 5);
}

static void captured_lists(void)
{
    static const uint8_t sack_packet[] =
        "\x13\x88\x13\x88\1\2\3\4\0\0\0\0\3\0\0\x1c\x36\x9d\xd0\x0b\0\1\xed\x73\0\2\0\1"
        "\0\2\0\6\0\x08\0\x08\x36\x9d\xd0\x11";
    struct dcsctp_chunk chunk;
    struct dcsctp_sack sack;
    struct dcsctp_gap_ack_block block;
    uint32_t tsn;
    CHECK(dcsctp_chunk_at(sack_packet, 40, 12, &chunk) && dcsctp_sack(sack_packet, 40, &chunk, &sack));
    CHECK(sack.cumulative_tsn_ack == 916312075 && sack.a_rwnd == 126323);
    CHECK(sack.block_count == 2 && sack.duplicate_count == 1 && dcsctp_validate_sack(sack_packet, 40, &chunk));
    CHECK(dcsctp_gap_ack_block(sack_packet, 40, &chunk, 0, &block) && block.start == 2 && block.end == 6);
    CHECK(!dcsctp_gap_ack_block(sack_packet, 40, &chunk, 2, &block));
    CHECK(dcsctp_duplicate_tsn(sack_packet, 40, &chunk, 0, &tsn) && tsn == 916312081);
    CHECK(!dcsctp_duplicate_tsn(sack_packet, 40, &chunk, 1, &tsn));

    static const uint8_t init_packet[] =
        "\x13\x88\x13\x88\0\0\0\0\0\0\0\0\1\0\0\x14\x4d\x2d\xf5\x2d\0\2\0\0\0\4\0\5\x79\x06\xb4\xb0";
    struct dcsctp_init init;
    CHECK(dcsctp_chunk_at(init_packet, 32, 12, &chunk) && dcsctp_init(init_packet, 32, &chunk, &init));
    CHECK(init.initiate_tag == 1294857517 && init.a_rwnd == 131072 && init.initial_tsn == 2030482608);
    CHECK(init.outbound_streams == 4 && init.inbound_streams == 5);
}

/* Whole lists in one call: with room for more, for one item fewer, and for none; and of what has no such list. */
static void whole_lists(void)
{
    static const uint8_t bytes[] =
        "\x13\x88\x13\x88\1\2\3\4\0\0\0\0\3\0\0\x1c\x36\x9d\xd0\x0b\0\1\xed\x73\0\2\0\1"
        "\0\2\0\6\0\x08\0\x08\x36\x9d\xd0\x11" /* SACK */
        "\xc0\0\0\x0c\0\0\0\5\0\1\0\2" /* FORWARD-TSN, at 40 */
        "\x82\0\0\x20\0\x0d\0\x14\0\0\0\1\0\0\0\2\0\0\0\3\0\4\0\5\0\x0f\0\x08\0\0\0\6" /* RE-CONFIG, at 52 */
        "\x09\0\0\x0e\0\2\0\x0a\0\0\0\1\0\7\0"; /* ERROR, at 84; the string's zero is the padding's last byte */
    enum { SIZE = sizeof bytes };
    struct dcsctp_chunk sack, forward, re_config, error;
    struct dcsctp_gap_ack_block blocks[3] = {[1] = {77, 77}, [2] = {77, 77}};
    struct dcsctp_skipped_stream streams[2] = {[1] = {.stream = 77}};
    struct dcsctp_parameter items[3] = {[1] = {.type = 77}, [2] = {.type = 77}};
    uint32_t tsns[2] = {77, 77};
    uint16_t numbers[3] = {77, 77, 77};
    CHECK(SIZE == 100 && dcsctp_chunk_at(bytes, SIZE, 12, &sack) && dcsctp_chunk_at(bytes, SIZE, sack.next, &forward));
    CHECK(dcsctp_chunk_at(bytes, SIZE, forward.next, &re_config) && dcsctp_chunk_at(bytes, SIZE, re_config.next, &error));
    CHECK(error.next == SIZE);

    CHECK(dcsctp_gap_ack_blocks(bytes, SIZE, &sack, NULL, 0) == 2);
    CHECK(dcsctp_gap_ack_blocks(bytes, SIZE, &sack, blocks, 1) == 2 && blocks[0].start == 2 && blocks[0].end == 6 && blocks[1].start == 77);
    CHECK(dcsctp_gap_ack_blocks(bytes, SIZE, &sack, blocks, 3) == 2 && blocks[1].start == 8 && blocks[1].end == 8 && blocks[2].end == 77);
    CHECK(dcsctp_duplicate_tsns(bytes, SIZE, &sack, NULL, 0) == 1);
    CHECK(dcsctp_duplicate_tsns(bytes, SIZE, &sack, tsns, 2) == 1 && tsns[0] == 916312081 && tsns[1] == 77);
    CHECK(dcsctp_skipped_streams(bytes, SIZE, &forward, NULL, 0) == 1);
    CHECK(dcsctp_skipped_streams(bytes, SIZE, &forward, streams, 2) == 1 && streams[0].stream == 1 && streams[0].ssn == 2);
    CHECK(streams[0].mid == 0 && !streams[0].is_unordered && streams[1].stream == 77);

    CHECK(dcsctp_parameters(bytes, SIZE, &re_config, NULL, 0) == 2);
    CHECK(dcsctp_parameters(bytes, SIZE, &re_config, items, 1) == 2 && items[0].type == 13 && items[0].value_offset == 60);
    CHECK(items[0].value_size == 16 && items[0].next == 76 && items[1].type == 77);
    CHECK(dcsctp_parameters(bytes, SIZE, &re_config, items, 3) == 2 && items[1].type == 15 && items[1].next == 84 && items[2].type == 77);
    CHECK(dcsctp_reset_streams(bytes, SIZE, &items[0], NULL, 0) == 2);
    CHECK(dcsctp_reset_streams(bytes, SIZE, &items[0], numbers, 1) == 2 && numbers[0] == 4 && numbers[1] == 77);
    CHECK(dcsctp_reset_streams(bytes, SIZE, &items[0], numbers, 3) == 2 && numbers[1] == 5 && numbers[2] == 77);
    CHECK(dcsctp_reset_streams(bytes, SIZE, &items[1], numbers, 3) == 0 && numbers[0] == 4);
    CHECK(dcsctp_parameters(bytes, SIZE, &error, items, 1) == 1 && items[0].type == 2 && items[0].value_size == 6);
    CHECK(dcsctp_missing_parameters(bytes, SIZE, &items[0], NULL, 0) == 1);
    CHECK(dcsctp_missing_parameters(bytes, SIZE, &items[0], numbers, 3) == 1 && numbers[0] == 7 && numbers[1] == 5 && numbers[2] == 77);
    CHECK(dcsctp_missing_parameters(bytes, SIZE, &items[1], numbers, 3) == 0 && numbers[0] == 7);

    /* another type, a value that is cut off, and one that lies beyond the bytes */
    CHECK(dcsctp_gap_ack_blocks(bytes, SIZE, &forward, blocks, 3) == 0 && dcsctp_duplicate_tsns(bytes, SIZE, &error, tsns, 2) == 0);
    CHECK(dcsctp_skipped_streams(bytes, SIZE, &sack, streams, 2) == 0 && dcsctp_parameters(bytes, SIZE, &sack, items, 3) == 0);
    CHECK(dcsctp_gap_ack_blocks(bytes, 39, &sack, blocks, 3) == 0 && dcsctp_parameters(bytes, 83, &re_config, items, 3) == 0);
    re_config.value_size = SIZE_MAX, items[0].value_offset = SIZE_MAX;
    CHECK(dcsctp_parameters(bytes, SIZE, &re_config, items, 3) == 0 && dcsctp_missing_parameters(bytes, SIZE, &items[0], numbers, 3) == 0);
    CHECK(blocks[0].start == 2 && tsns[0] == 916312081 && streams[0].stream == 1 && items[0].type == 2 && numbers[0] == 7);
}

/* One call: the header, and a row for each chunk, of which three have room here. */
static void captured_rows(void)
{
    struct dcsctp_row rows[4] = {[3] = {.tsn = 7}};
    struct dcsctp_packet read = {.chunk_count = 7, .fault_offset = 7};
    CHECK(dcsctp_read(hello, HELLO, HELLO_WORD, &exact, rows, 1, &read) == DCSCTP_OK);
    CHECK(read.header.source_port == 5000 && read.header.destination_port == 5000 && read.header.verification_tag == 229062552);
    CHECK(read.header.checksum == HELLO_WORD && read.chunk_count == 1 && read.fault_offset == HELLO);
    CHECK(rows[0].chunk.type == DCSCTP_CHUNK_DATA && rows[0].chunk.flags == 3 && rows[0].chunk.next == HELLO);
    CHECK(rows[0].tsn == 2030482608 && rows[0].ppid == 51 && rows[0].stream == 1 && rows[0].ssn == 0 && rows[0].mid == 0);
    CHECK(rows[0].is_beginning && rows[0].is_end && !rows[0].is_unordered && !rows[0].immediate_ack);
    CHECK(rows[0].rest_offset == 28 && rows[0].rest_size == 5 && rows[0].count == 0 && rows[0].a_rwnd == 0);

    CHECK(dcsctp_read(packet, LENGTH, 0, &exact, rows, 3, &read) == DCSCTP_OK && read.chunk_count == 3 && rows[3].tsn == 7);
    CHECK(rows[0].chunk.type == DCSCTP_CHUNK_SACK && rows[0].tsn == 916312075 && rows[0].a_rwnd == 126323);
    CHECK(rows[0].count == 2 && rows[0].duplicate_count == 1 && rows[0].rest_offset == 28 && rows[0].rest_size == 12);
    CHECK(rows[1].chunk.type == DCSCTP_CHUNK_I_DATA && rows[1].tsn == 0x944a5dd5 && rows[1].mid == 7 && rows[1].ppid == 53);
    CHECK(rows[1].stream == 1 && rows[1].is_beginning && !rows[1].is_end && rows[1].rest_offset == 60 && rows[1].rest_size == 1);
    CHECK(rows[2].chunk.type == DCSCTP_CHUNK_HEARTBEAT && rows[2].rest_offset == rows[2].chunk.value_offset && rows[2].tsn == 0);
    CHECK(rows[2].rest_size == rows[2].chunk.value_size && rows[2].chunk.next == LENGTH);

    /* two have room, or none; and a fault leaves all but its offset */
    rows[2].tsn = 7;
    CHECK(dcsctp_read(packet, LENGTH, 0, &exact, rows, 2, &read) == DCSCTP_OK && read.chunk_count == 3 && rows[2].tsn == 7);
    CHECK(dcsctp_read(packet, LENGTH, 0, &exact, NULL, 0, &read) == DCSCTP_OK && read.chunk_count == 3);
    rows[0].tsn = 7, read.header.checksum = 7;
    CHECK(dcsctp_read(packet, LENGTH, 1, &exact, rows, 4, &read) == DCSCTP_FAULT_CHECKSUM && read.chunk_count == 0);
    CHECK(read.fault_offset == 8 && read.header.checksum == 7 && rows[0].tsn == 7);
}

static struct dcsctp_placed_packet placed(size_t offset, size_t size, uint32_t word)
{
    return (struct dcsctp_placed_packet){offset, size, word, 77, {{77, 77, 77, 77}, 77, 77, 77}};
}

/* What was read: the code, the first row, the chunks, the offset of the fault. The header stays, unless there is a packet. */
static bool was_read(const struct dcsctp_placed_packet *it, uint32_t code, size_t first_row, size_t chunks, size_t fault)
{
    bool has_header = it->packet.header.source_port == 5000 && it->packet.header.destination_port == 5000;
    bool header_stays = it->packet.header.source_port == 77 && it->packet.header.checksum == 77;
    return it->packet.code == code && it->first_row == first_row && it->packet.chunk_count == chunks
        && it->packet.fault_offset == fault && (code == DCSCTP_OK ? has_header : header_stays);
}

/* Two packets one after the other, and ranges over them: in one call, the rows of all in one array. */
static void packets_in_a_block(void)
{
    static uint8_t block[HELLO + LENGTH];
    enum { END = HELLO + LENGTH, PACKETS = 11 };
    memcpy(block, hello, HELLO);
    memcpy(block + HELLO, packet, LENGTH);
    const struct dcsctp_placed_packet asked[PACKETS] = {
        placed(0, HELLO, HELLO_WORD), placed(HELLO, LENGTH, 0), placed(0, HELLO, 0), placed(HELLO, LENGTH, 0),
        placed(END, 0, 0), placed(HELLO, 15, 0), /* within the block; those that follow aren't */
        placed(END + 1, 0, 0), placed(HELLO, LENGTH + 1, 0), placed(SIZE_MAX, 1, 0), placed(1, SIZE_MAX, 0), placed(SIZE_MAX, SIZE_MAX, 0),
    };
    static const size_t places[] = {SACK_AT, DATA_AT, HEARTBEAT_AT};
    static const struct {
        size_t room, written, firsts[4];
    } rooms[] = {
        {9, 7, {0, 1, 4, 4}}, {7, 7, {0, 1, 4, 4}}, {6, 6, {0, 1, 4, 4}}, {3, 3, {0, 1, 3, 3}}, {1, 1, {0, 1, 1, 1}}, {0, 0, {0, 0, 0, 0}},
    };
    for (size_t i = 0; i < sizeof rooms / sizeof *rooms; i++) {
        const size_t room = rooms[i].room, end = rooms[i].written, *first = rooms[i].firsts;
        struct dcsctp_placed_packet packets[PACKETS + 1];
        struct dcsctp_row rows[10];
        memcpy(packets, asked, sizeof asked);
        packets[PACKETS].first_row = 7;
        for (size_t k = 0; k < 10; k++)
            rows[k] = (struct dcsctp_row){.tsn = 7};
        CHECK(dcsctp_read_many(block, END, &exact, packets, PACKETS, rows, room) == end);
        CHECK(was_read(&packets[0], DCSCTP_OK, first[0], 1, HELLO) && was_read(&packets[1], DCSCTP_OK, first[1], 3, LENGTH));
        CHECK(was_read(&packets[2], DCSCTP_FAULT_CHECKSUM, first[2], 0, 8) && was_read(&packets[3], DCSCTP_OK, first[3], 3, LENGTH));
        CHECK(was_read(&packets[4], DCSCTP_FAULT_SIZE, end, 0, 0) && was_read(&packets[5], DCSCTP_FAULT_SIZE, end, 0, 15));
        for (size_t k = 6; k < PACKETS; k++)
            CHECK(was_read(&packets[k], DCSCTP_BAD_PLACE, end, 0, 0));
        for (size_t k = 0; k < PACKETS; k++)
            CHECK(packets[k].offset == asked[k].offset && packets[k].size == asked[k].size && packets[k].word == asked[k].word);
        CHECK(packets[PACKETS].first_row == 7);
        CHECK(end < 1 || (rows[0].chunk.type == DCSCTP_CHUNK_DATA && rows[0].tsn == 2030482608 && rows[0].rest_offset == 28));
        for (size_t k = 1; k < end; k++) /* a SACK, I-DATA and a HEARTBEAT, twice */
            CHECK(rows[k].chunk.type == packet[places[(k - 1) % 3]] && rows[k].chunk.value_offset == places[(k - 1) % 3] + 4);
        for (size_t k = end; k < 10; k++)
            CHECK(rows[k].tsn == 7 && rows[k].chunk.next == 0);
    }

    /* no packet; another policy; no bytes */
    struct dcsctp_placed_packet one = placed(0, HELLO, 0);
    struct dcsctp_row row = {.tsn = 7};
    CHECK(dcsctp_read_many(block, HELLO, &exact, &one, 0, &row, 1) == 0 && row.tsn == 7 && one.first_row == 77);
    CHECK(dcsctp_read_many(block, HELLO, &exact, NULL, 0, NULL, 0) == 0 && dcsctp_read_many(NULL, 0, &exact, NULL, 0, NULL, 0) == 0);
    CHECK(dcsctp_read_many(block, HELLO, &exact, &one, 1, &row, 1) == 0 && was_read(&one, DCSCTP_FAULT_CHECKSUM, 0, 0, 8));
    CHECK(dcsctp_read_many(NULL, 0, &any, &one, 1, &row, 1) == 0 && was_read(&one, DCSCTP_BAD_PLACE, 0, 0, 0) && row.tsn == 7);
    CHECK(dcsctp_read_many(block, HELLO, &any, &one, 1, &row, 1) == 1 && was_read(&one, DCSCTP_OK, 0, 1, HELLO) && row.tsn == 2030482608);
    one = placed(0, 0, 0);
    CHECK(dcsctp_read_many(NULL, 0, &any, &one, 1, &row, 1) == 0 && was_read(&one, DCSCTP_FAULT_SIZE, 0, 0, 0));
}

/* A COOKIE ACK under a wrong tag and without a checksum is given both. */
static void captured_in_place(void)
{
    uint8_t ack[] = {0x13, 0x88, 0x13, 0x88, 0, 0, 0, 0, 0, 0, 0, 0, 0x0b, 0, 0, 4};
    CHECK(dcsctp_set_tag(ack, sizeof ack, 1294857517) == DCSCTP_OK && dcsctp_seal(ack, sizeof ack) == DCSCTP_OK);
    CHECK(!memcmp(ack, "\x13\x88\x13\x88\x4d\x2d\xf5\x2d\x67\xdb\x78\xb5\x0b\0\0\4", sizeof ack));
}

static void has_fault(const uint8_t *bytes, size_t length, uint32_t word, uint32_t code, size_t place)
{
    size_t offset;
    CHECK(dcsctp_check(bytes, length, word, &exact) == code);
    CHECK(dcsctp_first_fault(bytes, length, word, &exact, &offset) == code && offset == place);
}

static void captured_faults(void)
{
    has_fault(hello, HELLO, HELLO_WORD, DCSCTP_OK, 36);
    has_fault(hello, 2, HELLO_WORD, DCSCTP_FAULT_SIZE, 2);
    has_fault(hello, HELLO, 0, DCSCTP_FAULT_CHECKSUM, 8);
    /* a chunk whose length is 3 */
    static const uint8_t broken[] = HELLO_FRONT "\x11\x48\xa1\xf6\0\3\0\3";
    has_fault(broken, 16, HELLO_WORD, DCSCTP_FAULT_LENGTH, 12);
}

static void captured_outputs(void)
{
    size_t size = 7, length = strlen(hello_text);
    fill_output();
    CHECK(dcsctp_canonical(hello, HELLO, HELLO_WORD, &exact, output, 35, &size) == DCSCTP_NO_ROOM && size == 36);
    CHECK(stays(0));
    size = 7;
    CHECK(dcsctp_canonical(hello, HELLO, HELLO_WORD, &exact, output, 40, &size) == DCSCTP_OK && size == 36);
    CHECK(!memcmp(output, hello_canonical, HELLO) && stays(36));
    size = 7;
    CHECK(dcsctp_print(hello, HELLO, HELLO_WORD, &exact, output, 200, &size) == DCSCTP_OK && size == length);
    CHECK(!memcmp(output, hello_text, length));
    length = strlen(hello_report);
    CHECK(dcsctp_report(hello, HELLO, HELLO_WORD, &exact, output, ROOM, &size) == DCSCTP_OK && size == length);
    CHECK(!memcmp(output, hello_report, length));
}

/* ---- reading a whole packet */

static void sizes_and_policies(void)
{
    static uint8_t large[65536] = {0x13, 0x88, 0x13, 0x88, 1, 2, 3, 4, 0, 0, 0, 0, 10, 0, 0xff, 0xf0};
    size_t offset = 7, size = 7;
    CHECK(dcsctp_check(packet, 0, 0, &any) == DCSCTP_FAULT_SIZE);
    CHECK(dcsctp_first_fault(packet, 0, 0, &any, &offset) == DCSCTP_FAULT_SIZE && offset == 0);
    CHECK(dcsctp_first_fault(packet, 15, 0, &any, &offset) == DCSCTP_FAULT_SIZE && offset == 15);
    CHECK(dcsctp_first_fault(large, 65536, 0, &any, &offset) == DCSCTP_FAULT_SIZE && offset == 65535);
    CHECK(dcsctp_first_fault(packet, LENGTH, 0, &any, &offset) == DCSCTP_OK && offset == LENGTH);

    CHECK(dcsctp_first_fault(packet, LENGTH, 1, &exact, &offset) == DCSCTP_FAULT_CHECKSUM && offset == 8);
    CHECK(dcsctp_check(packet, LENGTH, 0, &exact) == DCSCTP_OK);
    CHECK(dcsctp_check(packet, LENGTH, 1, &zero) == DCSCTP_OK);
    CHECK(dcsctp_first_fault(packet, LENGTH, 0, &strict, &offset) == DCSCTP_FAULT_PADDING && offset == 61);

    /* a COOKIE ECHO of 65,520 bytes makes a packet of 65,532; of 65,521, one whose canonical form has four more */
    CHECK(dcsctp_check(large, 65532, 0, &any) == DCSCTP_OK);
    CHECK(dcsctp_canonical(large, 65532, 0, &any, output, 0, &size) == DCSCTP_NO_ROOM && size == 65532);
    large[15] = 0xf1;
    CHECK(dcsctp_check(large, 65533, 0, &any) == DCSCTP_OK);
    size = 7;
    fill_output();
    CHECK(dcsctp_canonical(large, 65533, 0, &any, output, sizeof output, &size) == DCSCTP_TOO_LONG);
    CHECK(size == 7 && stays(0));
}

typedef uint32_t writer(const uint8_t *, size_t, uint32_t, const struct dcsctp_policy *, uint8_t *, size_t, size_t *);

static void outputs(writer *write)
{
    size_t size = 7, needed;
    fill_output();
    CHECK(write(packet, LENGTH, 1, &exact, output, sizeof output, &size) == DCSCTP_FAULT_CHECKSUM && size == 7 && stays(0));
    CHECK(write(packet, 15, 0, &any, output, sizeof output, &size) == DCSCTP_FAULT_SIZE && size == 7 && stays(0));
    CHECK(write(packet, LENGTH, 0, &any, output, 0, &size) == DCSCTP_NO_ROOM && size > 7 && stays(0));
    needed = size;
    CHECK(needed <= sizeof output);
    size = 7;
    CHECK(write(packet, LENGTH, 0, &any, output, needed - 1, &size) == DCSCTP_NO_ROOM && size == needed && stays(0));
    size = 7;
    CHECK(write(packet, LENGTH, 0, &any, output, needed, &size) == DCSCTP_OK && size == needed && stays(needed));
    size = 7;
    fill_output();
    CHECK(write(packet, LENGTH, 0, &any, output, sizeof output, &size) == DCSCTP_OK && size == needed && stays(needed));
}

/* Packets with one cause whose text isn't UTF-8, in ERROR and in ABORT, and the canonical packet of each two. The fixed texts are
   the Rust crate dcsctp's, of 38 and 28 bytes; so the causes have 42 and 32 bytes, and the chunks 46 and 36, without padding. */
static void replaced_texts(void)
{
    static const struct {
        const char *packets[2], *canonical;
        size_t size;
    } rows[] = {
        {{"\0\1\0\2\0\0\0\3\0\0\0\0\11\0\0\11\0\15\0\5\xff", "\0\1\0\2\0\0\0\3\0\0\0\0\11\0\0\11\0\15\0\5\xfe"},
         "\0\1\0\2\0\0\0\3\0\0\0\0\11\0\0\x2e\0\15\0\x2a" "Failed to parse additional information\0", 60},
        {{"\0\1\0\2\0\0\0\3\0\0\0\0\6\0\0\11\0\14\0\5\x80", "\0\1\0\2\0\0\0\3\0\0\0\0\6\0\0\11\0\14\0\5\xc3"},
         "\0\1\0\2\0\0\0\3\0\0\0\0\6\0\0\x24\0\14\0\x20" "Failed to parse abort reason", 48},
    };
    for (size_t i = 0; i < 4; i++) {
        size_t size = 7;
        const uint8_t *bytes = (const uint8_t *)rows[i / 2].packets[i % 2];
        CHECK(dcsctp_canonical(bytes, 21, 0, &any, output, sizeof output, &size) == DCSCTP_OK && size == rows[i / 2].size);
        CHECK(!memcmp(output, rows[i / 2].canonical, size));
    }
}

/* Refuses each request of dcsctp_print in turn. The last turn is the one in which there is no such request. */
static void refusals(void)
{
    unsigned most;
    for (refused_request = 1;; refused_request++) {
        size_t size = 7;
        requests = 0;
        fill_output();
        uint32_t code = dcsctp_print(packet, LENGTH, 0, &any, output, sizeof output, &size);
        most = refused_request;
        if (code == DCSCTP_OK && requests < refused_request)
            break;
        CHECK(code == DCSCTP_NO_MEMORY && size == 7 && stays(0) && held == 0);
        if (most == 100)
            break;
    }
    refused_request = 0;
    CHECK(most > 3 && most < 100 && held == 0);
    /* a fault comes before any request */
    size_t size = 7;
    requests = 0;
    CHECK(dcsctp_print(packet, LENGTH, 1, &exact, output, sizeof output, &size) == DCSCTP_FAULT_CHECKSUM && requests == 0);
}

/* ---- reading the parts of a packet */

static void places(void)
{
    struct dcsctp_header header = {7, 7, 7, 7};
    struct dcsctp_chunk chunk = {7, 7, 7, 7, 7};
    CHECK(!dcsctp_header(packet, 0, &header) && !dcsctp_header(packet, 11, &header) && header.checksum == 7);
    CHECK(dcsctp_header(packet, 12, &header) && header.source_port == 5000 && header.verification_tag == 0x01020304);

    const size_t nowhere[] = {LENGTH, LENGTH - 3, LENGTH + 1, SIZE_MAX, SIZE_MAX - 3, SIZE_MAX - LENGTH};
    for (size_t i = 0; i < sizeof nowhere / sizeof *nowhere; i++)
        CHECK(!dcsctp_chunk_at(packet, LENGTH, nowhere[i], &chunk) && chunk.type == 7 && chunk.next == 7);
    CHECK(!dcsctp_chunk_at(packet, 0, 0, &chunk) && !dcsctp_chunk_at(packet, DATA_AT + 20, DATA_AT, &chunk));
    /* a chunk without all of its padding ends at the packet's end */
    CHECK(dcsctp_chunk_at(packet, DATA_AT + 22, DATA_AT, &chunk) && chunk.next == DATA_AT + 22);
    CHECK(chunk_at(SACK_AT).next == DATA_AT && chunk_at(DATA_AT).next == HEARTBEAT_AT);
    chunk = chunk_at(HEARTBEAT_AT);
    CHECK(chunk.next == LENGTH && chunk.type == DCSCTP_CHUNK_HEARTBEAT && chunk.value_offset == 68 && chunk.value_size == 6);
}

/* What is at an offset is read, whether or not something begins there: the ports 0 and 16 are the header of DATA of 16 bytes, and
   an INIT's initiate tag and window, 0x00010008 and 0x00070004, those of parameters of 8 and of 4 bytes. */
static void anywhere(void)
{
    static const uint8_t init[] = {0, 0, 0, 16, 0, 0, 0, 0, 0, 0, 0, 0, 1, 0, 0, 20, 0, 1, 0, 8, 0, 7, 0, 4, 0, 1, 0, 1, 0, 0, 0, 1};
    struct dcsctp_chunk chunk;
    struct dcsctp_parameter item;
    CHECK(dcsctp_chunk_at(init, sizeof init, 0, &chunk) && chunk.type == 0 && chunk.value_size == 12 && chunk.next == 16);
    CHECK(dcsctp_chunk_at(init, sizeof init, 20, &chunk) && chunk.type == 0 && chunk.flags == 7 && chunk.next == 24);
    CHECK(dcsctp_chunk_at(init, sizeof init, 12, &chunk) && chunk.type == 1 && dcsctp_list_offset(&chunk) == 32);
    CHECK(dcsctp_parameter_at(init, sizeof init, &chunk, 16, &item) && item.type == 1 && item.value_size == 4 && item.next == 24);
    CHECK(dcsctp_parameter_at(init, sizeof init, &chunk, 20, &item) && item.type == 7 && item.value_size == 0 && item.next == 24);
    CHECK(!dcsctp_parameter_at(init, sizeof init, &chunk, 32, &item) && !dcsctp_parameter_at(init, sizeof init, &chunk, 12, &item));
}

static void parts(void)
{
    struct dcsctp_chunk sack_chunk = chunk_at(SACK_AT), data_chunk = chunk_at(DATA_AT);
    struct dcsctp_data data = {.tsn = 7};
    struct dcsctp_sack sack = {.a_rwnd = 7};
    struct dcsctp_gap_ack_block block = {7, 7};
    struct dcsctp_init init = {.a_rwnd = 7};
    uint32_t tsn = 7;
    CHECK(!dcsctp_data(packet, LENGTH, &sack_chunk, &data) && data.tsn == 7);
    CHECK(!dcsctp_sack(packet, LENGTH, &data_chunk, &sack) && sack.a_rwnd == 7);
    CHECK(!dcsctp_init(packet, LENGTH, &data_chunk, &init) && init.a_rwnd == 7);
    CHECK(dcsctp_data(packet, LENGTH, &data_chunk, &data) && data.tsn == 0x944a5dd5 && data.stream == 1);
    CHECK(data.mid == 7 && data.fsn == 0 && data.ppid == 53 && data.ssn == 0 && data.is_beginning && !data.is_end);
    CHECK(data.payload_offset == 60 && data.payload_size == 1 && packet[data.payload_offset] == 0xaa);

    CHECK(dcsctp_sack(packet, LENGTH, &sack_chunk, &sack) && sack.block_count == 2 && sack.duplicate_count == 1);
    CHECK(dcsctp_gap_ack_block(packet, LENGTH, &sack_chunk, 1, &block) && block.start == 8 && block.end == 8);
    CHECK(dcsctp_duplicate_tsn(packet, LENGTH, &sack_chunk, 0, &tsn) && tsn == 0x369dd011);
    CHECK(dcsctp_validate_sack(packet, LENGTH, &sack_chunk) && !dcsctp_validate_sack(packet, LENGTH, &data_chunk));
    /* indexes at the end, and those whose four bytes each would overflow */
    const size_t beyond[] = {2, 3, SIZE_MAX / 4, SIZE_MAX / 4 + 1, SIZE_MAX / 4 + 2, SIZE_MAX / 2 + 1, SIZE_MAX};
    block.start = 7, tsn = 7;
    for (size_t i = 0; i < sizeof beyond / sizeof *beyond; i++) {
        CHECK(!dcsctp_gap_ack_block(packet, LENGTH, &sack_chunk, beyond[i], &block) && block.start == 7);
        CHECK(!dcsctp_duplicate_tsn(packet, LENGTH, &sack_chunk, beyond[i], &tsn) && tsn == 7);
    }
    CHECK(!dcsctp_duplicate_tsn(packet, LENGTH, &sack_chunk, 1, &tsn) && tsn == 7);

    /* chunks that no call wrote */
    const size_t wild[] = {0, LENGTH - 1, LENGTH, LENGTH + 1, SIZE_MAX - 15, SIZE_MAX};
    const uint8_t types[] = {DCSCTP_CHUNK_DATA, DCSCTP_CHUNK_I_DATA, DCSCTP_CHUNK_SACK, DCSCTP_CHUNK_INIT, DCSCTP_CHUNK_INIT_ACK};
    for (size_t i = 0; i < 6 * 6 * 5; i++) {
        struct dcsctp_chunk chunk = {types[i % 5], 0xff, wild[i / 5 % 6], wild[i / 30], wild[i / 30]};
        if (chunk.value_offset == 0 && chunk.value_size <= LENGTH)
            continue; /* the bytes are there */
        data.tsn = sack.a_rwnd = init.a_rwnd = tsn = 7;
        CHECK(!dcsctp_data(packet, LENGTH, &chunk, &data) && data.tsn == 7);
        CHECK(!dcsctp_sack(packet, LENGTH, &chunk, &sack) && sack.a_rwnd == 7);
        CHECK(!dcsctp_init(packet, LENGTH, &chunk, &init) && init.a_rwnd == 7);
        CHECK(!dcsctp_gap_ack_block(packet, LENGTH, &chunk, 0, &block) && block.start == 7);
        CHECK(!dcsctp_duplicate_tsn(packet, LENGTH, &chunk, 0, &tsn) && tsn == 7);
        CHECK(!dcsctp_validate_sack(packet, LENGTH, &chunk));
    }
}

/* ---- SHUTDOWN, FORWARD-TSN, parameters and error causes; what bytes of theirs mean is said by hand */

/* A text in which "\0" stands for a byte too, and its size. */
#define BYTES(text) (const uint8_t *)text, sizeof text - 1

struct item {
    const uint8_t *bytes;
    size_t size;
};

/* The chunk that begins a text. */
static struct dcsctp_chunk first_of(const uint8_t *bytes, size_t size)
{
    struct dcsctp_chunk chunk = {0};
    CHECK(dcsctp_chunk_at(bytes, size, 0, &chunk));
    return chunk;
}

/* The parameter or the cause that a text is. */
static struct dcsctp_parameter item_of(const uint8_t *bytes, size_t size)
{
    const struct dcsctp_chunk whole = {DCSCTP_CHUNK_ERROR, 0, 0, size, size};
    struct dcsctp_parameter item = {0};
    CHECK(dcsctp_parameter_at(bytes, size, &whole, 0, &item) && item.value_offset == 4 && item.value_size == size - 4 && item.next == size);
    return item;
}

static void list_offsets(void)
{
    static const struct {
        uint8_t type, offset; /* from the chunk on, of a value of 20 bytes */
    } lists[] = {{1, 20}, {2, 20}, {4, 4}, {5, 4}, {130, 4}, {6, 4}, {9, 4}, {0, 24}, {3, 24}, {7, 24}, {8, 24}, {10, 24}, {11, 24},
                 {14, 24}, {64, 24}, {192, 24}, {194, 24}, {12, 24}, {131, 24}, {255, 24}};
    for (size_t i = 0; i < sizeof lists / sizeof *lists; i++) {
        const struct dcsctp_chunk chunk = {lists[i].type, 0, 4, 20, 24};
        CHECK(dcsctp_list_offset(&chunk) == lists[i].offset);
    }
    /* a value that lies in no bytes: the sum stays below 2^64 */
    const struct dcsctp_chunk wild = {DCSCTP_CHUNK_INIT, 0, SIZE_MAX - 15, SIZE_MAX, 0}, none = {0, 0, 1, SIZE_MAX, 0};
    CHECK(dcsctp_list_offset(&wild) == SIZE_MAX && dcsctp_list_offset(&none) == SIZE_MAX);
    /* an INIT without its numbers has no list, and one without parameters an empty one */
    struct dcsctp_parameter item = {7, 7, 7, 7};
    for (uint8_t size = 4; size <= 20; size++) {
        const uint8_t bytes[24] = {DCSCTP_CHUNK_INIT, 0, 0, size};
        const struct dcsctp_chunk chunk = first_of(bytes, 24);
        CHECK(dcsctp_list_offset(&chunk) == size && !dcsctp_parameter_at(bytes, 24, &chunk, size, &item) && item.type == 7);
    }
}

/* Supported Extensions of three bytes, padded; Forward-TSN-Supported; and one of five bytes whose padding is missing. */
#define PARAMETERS "\x80\x08\0\7\xc0\x40\x82\0" "\xc0\0\0\4" "\0\x63\0\5!"

static void parameters(void)
{
    static const uint8_t init[] = "\1\0\0\x25" "0123456789abcdef" PARAMETERS;
    enum { SIZE = sizeof init - 1, FIRST = 20 };
    struct dcsctp_chunk chunk = first_of(init, SIZE);
    struct dcsctp_parameter item = {7, 7, 7, 7};
    CHECK(dcsctp_list_offset(&chunk) == FIRST && chunk.value_size == SIZE - 4);
    CHECK(dcsctp_parameter_at(init, SIZE, &chunk, FIRST, &item) && item.type == DCSCTP_PARAMETER_SUPPORTED_EXTENSIONS);
    CHECK(item.value_offset == 24 && item.value_size == 3 && item.next == 28);
    CHECK(dcsctp_parameter_at(init, SIZE, &chunk, 28, &item) && item.type == DCSCTP_PARAMETER_FORWARD_TSN_SUPPORTED);
    CHECK(item.value_offset == 32 && item.value_size == 0 && item.next == 32);
    CHECK(dcsctp_parameter_at(init, SIZE, &chunk, 32, &item) && item.type == 99);
    CHECK(item.value_offset == 36 && item.value_size == 1 && item.next == SIZE);

    /* offsets where none is: at the end of the value and after it, and before it */
    const size_t nowhere[] = {SIZE, SIZE - 3, SIZE + 1, 0, 3, SIZE_MAX, SIZE_MAX - 3, SIZE_MAX - SIZE};
    item.type = 7;
    for (size_t i = 0; i < sizeof nowhere / sizeof *nowhere; i++)
        CHECK(!dcsctp_parameter_at(init, SIZE, &chunk, nowhere[i], &item) && item.type == 7);
    /* a value that ends elsewhere: the last one is cut off, or the one before */
    for (size_t size = 12; size < chunk.value_size; size++) {
        struct dcsctp_chunk shorter = chunk;
        shorter.value_size = size;
        CHECK(!dcsctp_parameter_at(init, SIZE, &shorter, 32, &item) && item.type == 7);
        CHECK(!dcsctp_parameter_at(init, 4 + size, &chunk, FIRST, &item) && item.type == 7);
    }
    struct dcsctp_chunk shorter = chunk;
    shorter.value_size = 23; /* without the padding of the first */
    CHECK(dcsctp_parameter_at(init, SIZE, &shorter, FIRST, &item) && item.next == 27);
    /* lengths below 4, and above what is left */
    const struct item wrong[] = {{BYTES("\0\1\0\0")}, {BYTES("\0\1\0\3")}, {BYTES("\0\1\0\5")}, {BYTES("\0\1\xff\xff")}, {BYTES("\0\1\0")}};
    item.type = 7;
    for (size_t i = 0; i < sizeof wrong / sizeof *wrong; i++) {
        const struct dcsctp_chunk whole = {DCSCTP_CHUNK_HEARTBEAT, 0, 0, wrong[i].size, 0};
        CHECK(!dcsctp_parameter_at(wrong[i].bytes, wrong[i].size, &whole, 0, &item) && item.type == 7);
    }
    /* chunks that no call wrote */
    const size_t wild[] = {SIZE, SIZE + 1, SIZE_MAX - 15, SIZE_MAX};
    for (size_t i = 0; i < 16; i++) {
        const struct dcsctp_chunk other = {1, 0, wild[i / 4], wild[i % 4], SIZE};
        for (size_t k = 0; k < 4; k++)
            CHECK(!dcsctp_parameter_at(init, SIZE, &other, wild[k], &item) && item.type == 7);
        CHECK(!dcsctp_parameter_at(init, SIZE, &other, FIRST, &item) && item.type == 7);
    }
}

static const size_t far_indexes[] = {SIZE_MAX / 8, SIZE_MAX / 8 + 1, SIZE_MAX / 4, SIZE_MAX / 4 + 1, SIZE_MAX / 2, SIZE_MAX / 2 + 1, SIZE_MAX};
enum { FAR = sizeof far_indexes / sizeof *far_indexes };

static void numbers_of_chunks(void)
{
    uint32_t tsn = 7;
    struct dcsctp_forward_tsn forward = {7, 7};
    struct dcsctp_skipped_stream skipped = {7, 7, 7, true};
    const struct item shutdown = {BYTES("\7\0\0\x08\x12\x34\x56\x78")}, longer = {BYTES("\7\0\0\x09\x12\x34\x56\x78!")},
                      shorter = {BYTES("\7\0\0\7\x12\x34\x56")}, other = {BYTES("\x08\0\0\x08\x12\x34\x56\x78")};
    struct dcsctp_chunk chunk = first_of(longer.bytes, longer.size);
    CHECK(!dcsctp_shutdown(longer.bytes, longer.size, &chunk, &tsn) && tsn == 7);
    chunk = first_of(shorter.bytes, shorter.size);
    CHECK(!dcsctp_shutdown(shorter.bytes, shorter.size, &chunk, &tsn) && tsn == 7);
    chunk = first_of(other.bytes, other.size);
    CHECK(!dcsctp_shutdown(other.bytes, other.size, &chunk, &tsn) && tsn == 7);
    CHECK(!dcsctp_forward_tsn(other.bytes, other.size, &chunk, &forward) && forward.stream_count == 7);
    CHECK(!dcsctp_skipped_stream(other.bytes, other.size, &chunk, 0, &skipped) && skipped.mid == 7);
    chunk = first_of(shutdown.bytes, shutdown.size);
    CHECK(!dcsctp_shutdown(shutdown.bytes, 7, &chunk, &tsn) && tsn == 7);
    CHECK(dcsctp_shutdown(shutdown.bytes, shutdown.size, &chunk, &tsn) && tsn == 0x12345678);

    /* FORWARD-TSN has four bytes for a stream, I-FORWARD-TSN eight */
    uint8_t bytes[24] = {DCSCTP_CHUNK_FORWARD_TSN, 0xff, 0, 0, 1, 2, 3, 4, 0, 5, 0, 6, 0, 7, 0, 9, 0xff, 0xff, 0xff, 0xfe, 0, 0, 0, 9};
    for (uint8_t size = 0; size <= 20; size++) {
        bytes[0] = DCSCTP_CHUNK_FORWARD_TSN, bytes[3] = (uint8_t)(4 + size);
        chunk = first_of(bytes, 24);
        CHECK(dcsctp_forward_tsn(bytes, 24, &chunk, &forward) == (size >= 4 && size % 4 == 0));
        CHECK(forward.stream_count == (size < 4 ? 7 : size / 4 - 1u));
        bytes[0] = DCSCTP_CHUNK_I_FORWARD_TSN;
        chunk = first_of(bytes, 24);
        CHECK(dcsctp_forward_tsn(bytes, 24, &chunk, &(struct dcsctp_forward_tsn){0}) == (size == 4 || size == 12 || size == 20));
    }
    bytes[0] = DCSCTP_CHUNK_FORWARD_TSN, bytes[3] = 16;
    chunk = first_of(bytes, 24);
    CHECK(dcsctp_forward_tsn(bytes, 24, &chunk, &forward) && forward.new_cumulative_tsn == 0x01020304 && forward.stream_count == 2);
    CHECK(dcsctp_skipped_stream(bytes, 24, &chunk, 1, &skipped));
    CHECK(skipped.stream == 7 && skipped.ssn == 9 && skipped.mid == 0 && !skipped.is_unordered);
    skipped.ssn = 77;
    CHECK(!dcsctp_skipped_stream(bytes, 24, &chunk, 2, &skipped) && skipped.ssn == 77);
    for (size_t i = 0; i < FAR; i++)
        CHECK(!dcsctp_skipped_stream(bytes, 24, &chunk, far_indexes[i], &skipped) && skipped.ssn == 77);
    bytes[0] = DCSCTP_CHUNK_I_FORWARD_TSN, bytes[3] = 24;
    chunk = first_of(bytes, 24);
    CHECK(dcsctp_forward_tsn(bytes, 24, &chunk, &forward) && forward.stream_count == 2);
    CHECK(dcsctp_skipped_stream(bytes, 24, &chunk, 0, &skipped));
    CHECK(skipped.stream == 5 && skipped.ssn == 0 && skipped.mid == 0x00070009 && !skipped.is_unordered);
    /* of the two bytes after the stream one bit has a meaning */
    CHECK(dcsctp_skipped_stream(bytes, 24, &chunk, 1, &skipped));
    CHECK(skipped.stream == 0xffff && skipped.ssn == 0 && skipped.mid == 9 && !skipped.is_unordered);
    bytes[19] = 1;
    CHECK(dcsctp_skipped_stream(bytes, 24, &chunk, 1, &skipped) && skipped.is_unordered);
    skipped.mid = 77;
    CHECK(!dcsctp_skipped_stream(bytes, 24, &chunk, 2, &skipped) && !dcsctp_skipped_stream(bytes, 23, &chunk, 0, &skipped) && skipped.mid == 77);
    for (size_t i = 0; i < FAR; i++)
        CHECK(!dcsctp_skipped_stream(bytes, 24, &chunk, far_indexes[i], &skipped) && skipped.mid == 77);
}

/* A request or a response as bytes, and what it means (RFC 6525 section 4). */
static const struct {
    struct item item;
    struct dcsctp_re_config means;
    uint16_t streams[3];
} re_configs[] = {
    {{BYTES("\0\x0d\0\x16\0\0\0\1\0\0\0\2\0\0\0\3\0\4\0\5\0\6")},
     {.type = 13, .request_number = 1, .response_number = 2, .last_tsn = 3, .stream_count = 3}, {4, 5, 6}},
    {{BYTES("\0\x0d\0\x10\0\0\0\1\0\0\0\2\0\0\0\3")}, {.type = 13, .request_number = 1, .response_number = 2, .last_tsn = 3}, {0}},
    {{BYTES("\0\x0e\0\x0a\0\0\0\1\0\4")}, {.type = 14, .request_number = 1, .stream_count = 1}, {4}},
    {{BYTES("\0\x0e\0\x08\0\0\0\1")}, {.type = 14, .request_number = 1}, {0}},
    {{BYTES("\0\x0f\0\x08\0\0\0\1")}, {.type = 15, .request_number = 1}, {0}},
    {{BYTES("\0\x10\0\x0c\0\0\0\2\0\0\0\6")}, {.type = 16, .response_number = 2, .result = 6}, {0}},
    {{BYTES("\0\x10\0\x14\0\0\0\2\0\0\0\1\0\0\0\7\0\0\0\x08")},
     {.type = 16, .response_number = 2, .result = 1, .has_next_tsns = true, .sender_next_tsn = 7, .receiver_next_tsn = 8}, {0}},
    {{BYTES("\0\x11\0\x0c\0\0\0\1\0\x09\0\0")}, {.type = 17, .request_number = 1, .new_streams = 9}, {0}},
    {{BYTES("\0\x12\0\x0c\0\0\0\1\0\x09\0\0")}, {.type = 18, .request_number = 1, .new_streams = 9}, {0}},
};
enum { RE_CONFIGS = sizeof re_configs / sizeof *re_configs };

static bool is_same(const struct dcsctp_re_config *one, const struct dcsctp_re_config *other)
{
    return one->type == other->type && one->request_number == other->request_number && one->response_number == other->response_number
        && one->last_tsn == other->last_tsn && one->result == other->result && one->has_next_tsns == other->has_next_tsns
        && one->sender_next_tsn == other->sender_next_tsn && one->receiver_next_tsn == other->receiver_next_tsn
        && one->new_streams == other->new_streams && one->stream_count == other->stream_count;
}

static void re_configurations(void)
{
    uint16_t stream = 77;
    for (size_t i = 0; i < RE_CONFIGS; i++) {
        const struct item item = re_configs[i].item;
        const size_t count = re_configs[i].means.stream_count;
        const struct dcsctp_parameter parameter = item_of(item.bytes, item.size);
        struct dcsctp_re_config found;
        memset(&found, 0xa5, sizeof found); /* what the kind does not carry becomes 0 */
        found.has_next_tsns = true;
        CHECK(dcsctp_re_config(item.bytes, item.size, &parameter, &found) && is_same(&found, &re_configs[i].means));
        for (size_t k = 0; k < count; k++)
            CHECK(dcsctp_reset_stream(item.bytes, item.size, &parameter, k, &stream) && stream == re_configs[i].streams[k]);
        stream = 77;
        CHECK(!dcsctp_reset_stream(item.bytes, item.size, &parameter, count, &stream) && stream == 77);
        for (size_t k = 0; k < FAR; k++)
            CHECK(!dcsctp_reset_stream(item.bytes, item.size, &parameter, far_indexes[k], &stream) && stream == 77);
        CHECK(!dcsctp_re_config(item.bytes, item.size - 1, &parameter, &found) && is_same(&found, &re_configs[i].means));
    }
    /* the sizes of values that each type has; a response of 12 bytes has no next TSNs, and half of them is none */
    uint8_t bytes[40] = {0};
    for (uint16_t type = 12; type <= 19; type++)
        for (size_t size = 0; size <= 32; size++) {
            const struct dcsctp_parameter parameter = {type, 4, size, 4 + size};
            bool fits = type == 13 ? size >= 12 && size % 2 == 0 : type == 14 ? size >= 4 && size % 2 == 0 : type == 15 ? size == 4 :
                        type == 16 ? size == 8 || size == 16 : type == 17 || type == 18 ? size == 8 : false;
            struct dcsctp_re_config found = {.type = 7};
            CHECK(dcsctp_re_config(bytes, sizeof bytes, &parameter, &found) == fits && found.type == (fits ? type : 7));
        }
    const struct item unknown = {BYTES("\0\x10\0\x0c\0\0\0\2\0\0\0\7")}; /* its result */
    const struct dcsctp_parameter response = item_of(unknown.bytes, unknown.size);
    CHECK(!dcsctp_re_config(unknown.bytes, unknown.size, &response, &(struct dcsctp_re_config){0}));
}

static void numbers_of_items(void)
{
    const struct item method = {BYTES("\x80\1\0\x08\0\0\0\1")}, less = {BYTES("\x80\1\0\7\0\0\0")}, more = {BYTES("\x80\1\0\x09\0\0\0\1\0")};
    struct dcsctp_parameter item = item_of(less.bytes, less.size);
    uint32_t number = 77;
    CHECK(!dcsctp_number(less.bytes, less.size, &item, &number) && number == 77);
    item = item_of(more.bytes, more.size);
    CHECK(!dcsctp_number(more.bytes, more.size, &item, &number) && number == 77);
    item = item_of(method.bytes, method.size);
    CHECK(!dcsctp_number(method.bytes, 7, &item, &number) && number == 77);
    CHECK(dcsctp_number(method.bytes, method.size, &item, &number) && number == 1);
    item.type = DCSCTP_CAUSE_NO_USER_DATA; /* whatever its type is */
    item.value_offset = 0;
    CHECK(dcsctp_number(method.bytes, method.size, &item, &number) && number == 0x80010008);
    const size_t wild[] = {SIZE_MAX, SIZE_MAX - 3, 5, 8, 9};
    number = 77;
    for (size_t i = 0; i < sizeof wild / sizeof *wild; i++) {
        item.value_offset = wild[i];
        CHECK(!dcsctp_number(method.bytes, method.size, &item, &number) && number == 77);
    }

    /* Missing Mandatory Parameter: two types; and with a count that is another, or that wraps where it is multiplied */
    struct item missing = {BYTES("\0\2\0\x0c\0\0\0\2\0\7\x80\x08")};
    uint16_t type = 77;
    item = item_of(missing.bytes, missing.size);
    CHECK(dcsctp_missing_parameter(missing.bytes, missing.size, &item, 0, &type) && type == DCSCTP_PARAMETER_STATE_COOKIE);
    CHECK(dcsctp_missing_parameter(missing.bytes, missing.size, &item, 1, &type) && type == DCSCTP_PARAMETER_SUPPORTED_EXTENSIONS);
    type = 77;
    CHECK(!dcsctp_missing_parameter(missing.bytes, missing.size, &item, 2, &type) && type == 77);
    CHECK(!dcsctp_missing_parameter(missing.bytes, missing.size - 1, &item, 0, &type) && type == 77);
    for (size_t i = 0; i < FAR; i++)
        CHECK(!dcsctp_missing_parameter(missing.bytes, missing.size, &item, far_indexes[i], &type) && type == 77);
    item.type = 3;
    CHECK(!dcsctp_missing_parameter(missing.bytes, missing.size, &item, 0, &type) && type == 77);
    const struct item wrong[] = {{BYTES("\0\2\0\x0c\0\0\0\1\0\7\x80\x08")}, {BYTES("\0\2\0\x0c\0\0\0\3\0\7\x80\x08")},
                                 {BYTES("\0\2\0\x0c\x80\0\0\2\0\7\x80\x08")}, {BYTES("\0\2\0\x0b\0\0\0\2\0\7\x80")}, {BYTES("\0\2\0\7\0\0\0")}};
    for (size_t i = 0; i < sizeof wrong / sizeof *wrong; i++) {
        item = item_of(wrong[i].bytes, wrong[i].size);
        CHECK(!dcsctp_missing_parameter(wrong[i].bytes, wrong[i].size, &item, 0, &type) && type == 77);
    }
    missing = (struct item){BYTES("\0\2\0\x08\0\0\0\0")};
    item = item_of(missing.bytes, missing.size);
    CHECK(!dcsctp_missing_parameter(missing.bytes, missing.size, &item, 0, &type) && type == 77);
}

/* ---- changing a packet in place, and writing one */

static void in_place(void)
{
    fill_output();
    CHECK(dcsctp_seal(output, 0) == DCSCTP_BAD_PLACE && dcsctp_seal(output, 11) == DCSCTP_BAD_PLACE);
    CHECK(dcsctp_set_tag(output, 11, 1) == DCSCTP_BAD_PLACE && stays(0));
    memcpy(output, packet, LENGTH);
    CHECK(dcsctp_set_tag(output, LENGTH, 0x0a0b0c0d) == DCSCTP_OK && !memcmp(output + 4, "\x0a\x0b\x0c\x0d", 4) && stays(LENGTH));
    CHECK(!memcmp(output, packet, 4) && !memcmp(output + 8, packet + 8, LENGTH - 8));
    uint32_t word = dcsctp_word(output, LENGTH);
    CHECK(dcsctp_check(output, LENGTH, word, &exact) == DCSCTP_FAULT_CHECKSUM);
    CHECK(dcsctp_seal(output, LENGTH) == DCSCTP_OK && dcsctp_word(output, LENGTH) == word && stays(LENGTH));
    CHECK(dcsctp_check(output, LENGTH, word, &exact) == DCSCTP_OK);
    CHECK(!memcmp(output, packet, 4) && !memcmp(output + 12, packet + 12, LENGTH - 12));
}

/* What a call for a kind takes beside the packet is set to what it has to ignore. */
static const struct dcsctp_data message = {.tsn = 1, .mid = 9, .fsn = 9, .ppid = 51, .stream = 2, .ssn = 3, .is_beginning = true,
                                           .is_end = true, .payload_offset = 99, .payload_size = 99},
    begun = {.tsn = 1, .mid = 4, .fsn = 9, .ppid = 51, .stream = 2, .ssn = 9, .is_beginning = true, .immediate_ack = true},
    further = {.tsn = 1, .mid = 4, .fsn = 5, .ppid = 99, .stream = 2, .ssn = 9, .is_unordered = true};
static const struct dcsctp_gap_ack_block blocks[] = {{2, 6}, {8, 8}};
static const uint32_t duplicates[] = {5};
static const struct dcsctp_init numbers = {1, 2, 3, 4, 5};
static const struct dcsctp_skipped_stream skipped_streams[] = {{2, 3, 6, true}, {4, 5, 7, false}};

/* The bytes of the chunk that each call adds, with its padding (RFC 9260 section 3.3, RFC 8260, RFC 3758 section 3.2). */
static const struct item kinds[] = {
    {BYTES("\0\3\0\x15\0\0\0\1\0\2\0\3\0\0\0\x33hello\0\0\0")},
    {BYTES("\x40\x0a\0\x17\0\0\0\1\0\2\0\0\0\0\0\4\0\0\0\x33hel\0")},
    {BYTES("\x40\4\0\x18\0\0\0\1\0\2\0\0\0\0\0\4\0\0\0\5hell")},
    {BYTES("\3\0\0\x1c\0\0\0\x09\0\0\0\x08\0\2\0\1\0\2\0\6\0\x08\0\x08\0\0\0\5")},
    {BYTES("\1\0\0\x14\0\0\0\1\0\0\0\2\0\3\0\4\0\0\0\5")},
    {BYTES("\2\0\0\x14\0\0\0\1\0\0\0\2\0\3\0\4\0\0\0\5")},
    {BYTES("\x0a\0\0\x0ahello \0\0")},
    {BYTES("\x0b\0\0\4")},
    {BYTES("\4\0\0\x11\0\1\0\x0dhello you\0\0\0")},
    {BYTES("\5\0\0\x11\0\1\0\x0dhello you\0\0\0")},
    {BYTES("\6\0\0\x11\0\x0c\0\x0dhello you\0\0\0")},
    {BYTES("\6\1\0\x11\0\x0c\0\x0dhello you\0\0\0")},
    {BYTES("\7\0\0\x08\0\0\0\x09")},
    {BYTES("\x08\0\0\4")},
    {BYTES("\x0e\0\0\4")},
    {BYTES("\x0e\1\0\4")},
    {BYTES("\xc0\0\0\x10\0\0\0\x09\0\2\0\3\0\4\0\5")},
    {BYTES("\xc2\0\0\x18\0\0\0\x09\0\2\0\1\0\0\0\6\0\4\0\0\0\0\0\7")},
    {BYTES("\xff\x81\0\x09hello\0\0\0")},
};
enum { KINDS = sizeof kinds / sizeof *kinds };

static uint32_t add(int which, uint8_t *to, size_t room, size_t *size)
{
    const uint8_t *text = (const uint8_t *)"hello you";
    switch (which) {
    case 0:
        return dcsctp_add_data(to, room, size, &message, text, 5);
    case 1:
        return dcsctp_add_i_data(to, room, size, &begun, text, 3);
    case 2:
        return dcsctp_add_i_data(to, room, size, &further, text, 4);
    case 3:
        return dcsctp_add_sack(to, room, size, 9, 8, blocks, 2, duplicates, 1);
    case 4:
        return dcsctp_add_init(to, room, size, &numbers);
    case 5:
        return dcsctp_add_init_ack(to, room, size, &numbers);
    case 6:
        return dcsctp_add_cookie_echo(to, room, size, text, 6);
    case 7:
        return dcsctp_add_cookie_ack(to, room, size);
    case 8:
        return dcsctp_add_heartbeat(to, room, size, false, text, 9);
    case 9:
        return dcsctp_add_heartbeat(to, room, size, true, text, 9);
    case 10:
        return dcsctp_add_abort(to, room, size, false, text, 9);
    case 11:
        return dcsctp_add_abort(to, room, size, true, text, 9);
    case 12:
        return dcsctp_add_shutdown(to, room, size, 9);
    case 13:
        return dcsctp_add_shutdown_ack(to, room, size);
    case 14:
        return dcsctp_add_shutdown_complete(to, room, size, false);
    case 15:
        return dcsctp_add_shutdown_complete(to, room, size, true);
    case 16:
        return dcsctp_add_forward_tsn(to, room, size, 9, skipped_streams, 2);
    case 17:
        return dcsctp_add_i_forward_tsn(to, room, size, 9, skipped_streams, 2);
    default:
        return dcsctp_add_chunk(to, room, size, 0xff, 0x81, text, 5);
    }
}

/* The bytes of the item that each call adds, with its padding (RFC 9260 sections 3.2.1 and 3.3.10.2, RFC 6525 section 4). */
static const struct item items[] = {
    {BYTES("\x80\x08\0\7\xc0\x40\x82\0")},
    {BYTES("\xc0\0\0\4")},
    {BYTES("\x80\1\0\x08\0\0\0\1")},
    {BYTES("\0\2\0\x0a\0\0\0\1\x80\x08\0\0")},
    {BYTES("\0\2\0\x08\0\0\0\0")},
};
enum { OTHER_ITEMS = sizeof items / sizeof *items, ITEMS = OTHER_ITEMS + RE_CONFIGS };

/* The size of an item's header and value. */
static size_t size_of_item(int which)
{
    const uint8_t *bytes = which < OTHER_ITEMS ? items[which].bytes : re_configs[which - OTHER_ITEMS].item.bytes;
    return (size_t)bytes[2] << 8 | bytes[3];
}

static uint32_t add_item(int which, uint8_t *to, size_t room, size_t *size, size_t start)
{
    const uint8_t *extensions = (const uint8_t *)"\xc0\x40\x82";
    const uint16_t types[] = {DCSCTP_PARAMETER_SUPPORTED_EXTENSIONS};
    struct dcsctp_re_config re_config;
    switch (which) {
    case 0:
        return dcsctp_add_parameter(to, room, size, start, DCSCTP_PARAMETER_SUPPORTED_EXTENSIONS, extensions, 3);
    case 1:
        return dcsctp_add_parameter(to, room, size, start, DCSCTP_PARAMETER_FORWARD_TSN_SUPPORTED, NULL, 0);
    case 2:
        return dcsctp_add_number(to, room, size, start, DCSCTP_PARAMETER_ZERO_CHECKSUM_ACCEPTABLE, 1);
    case 3:
        return dcsctp_add_missing_parameters(to, room, size, start, types, 1);
    case 4:
        return dcsctp_add_missing_parameters(to, room, size, start, NULL, 0);
    default:
        /* the streams of another kind, and the count in the struct, are ignored */
        re_config = re_configs[which - OTHER_ITEMS].means;
        const bool has_streams = re_config.type <= 14;
        const size_t count = has_streams ? re_config.stream_count : 3;
        re_config.stream_count = 99;
        return dcsctp_add_re_config(to, room, size, start, &re_config, count ? re_configs[has_streams ? which - OTHER_ITEMS : 0].streams : NULL,
                                    count);
    }
}

/* Sizes that no packet that was begun has. */
static const size_t wild_sizes[] = {0, 8, 11, 13, 14, 15, ROOM + 4, SIZE_MAX - 3, SIZE_MAX};
enum { WILD_SIZES = sizeof wild_sizes / sizeof *wild_sizes };

static void rooms(void)
{
    size_t size = 7;
    fill_output();
    CHECK(dcsctp_begin(output, 0, &size, 1, 2, 3) == DCSCTP_NO_ROOM && dcsctp_begin(output, 11, &size, 1, 2, 3) == DCSCTP_NO_ROOM);
    CHECK(size == 7 && stays(0));
    CHECK(dcsctp_begin(output, 12, &size, 1, 2, 3) == DCSCTP_OK && size == 12 && stays(12));
    CHECK(!memcmp(output, "\0\1\0\2\0\0\0\3\0\0\0\0", 12));
    for (int which = 0; which < KINDS; which++) {
        fill_output();
        CHECK(dcsctp_begin(output, ROOM, &size, 1, 2, 3) == DCSCTP_OK);
        memcpy(before, output, 12);
        size_t needed = 12 + kinds[which].size;
        CHECK(add(which, output, needed - 1, &size) == DCSCTP_NO_ROOM && size == 12 && stays(0));
        CHECK(add(which, output, 12, &size) == DCSCTP_NO_ROOM && size == 12 && stays(0));
        CHECK(add(which, output, 11, &size) == DCSCTP_BAD_PLACE && add(which, output, 0, &size) == DCSCTP_BAD_PLACE && size == 12 && stays(0));
        for (size_t i = 0; i < WILD_SIZES; i++) {
            size_t other = wild_sizes[i];
            CHECK(add(which, output, ROOM, &other) == DCSCTP_BAD_PLACE && other == wild_sizes[i] && stays(0));
        }
        CHECK(add(which, output, needed, &size) == DCSCTP_OK && size == needed && stays(needed) && !memcmp(output, before, 12));
        CHECK(!memcmp(output + 12, kinds[which].bytes, kinds[which].size));
        CHECK(dcsctp_check(output, size, 0, &strict) == DCSCTP_OK);
    }
}

/* Each item after each chunk: its value is padded, and the chunk's length is that up to the item's end, without padding. */
static void item_rooms(void)
{
    for (int which = 0; which < ITEMS; which++)
        for (int kind = 0; kind < KINDS; kind++) {
            const struct item item = which < OTHER_ITEMS ? items[which] : re_configs[which - OTHER_ITEMS].item;
            const size_t has = size_of_item(which), whole = (has + 3) / 4 * 4;
            size_t size, start;
            fill_output();
            CHECK(dcsctp_begin(output, ROOM, &size, 1, 2, 3) == DCSCTP_OK && dcsctp_add_shutdown(output, ROOM, &size, 0x0c000008) == DCSCTP_OK);
            start = size;
            CHECK(add(kind, output, ROOM, &size) == DCSCTP_OK);
            const size_t end = size;
            memcpy(before, output, ROOM);
            CHECK(add_item(which, output, end + whole - 1, &size, start) == DCSCTP_NO_ROOM);
            CHECK(add_item(which, output, end, &size, start) == DCSCTP_NO_ROOM && size == end && stays(0));
            CHECK(add_item(which, output, end - 1, &size, start) == DCSCTP_BAD_PLACE && add_item(which, output, 0, &size, start) == DCSCTP_BAD_PLACE);
            for (size_t i = 0; i < WILD_SIZES; i++) {
                size_t other = wild_sizes[i];
                CHECK(add_item(which, output, ROOM, &other, start) == DCSCTP_BAD_PLACE && other == wild_sizes[i]);
            }
            /* where no chunk begins, or not the last: the header, the chunk before, between words, the end, and beyond */
            const size_t starts[] = {0, 4, 8, 11, 12, 13, 14, 15, start + 1, start + 2, start + 3, end, end + 4, SIZE_MAX - 3, SIZE_MAX};
            for (size_t i = 0; i < sizeof starts / sizeof *starts; i++)
                CHECK(add_item(which, output, ROOM, &size, starts[i]) == DCSCTP_BAD_PLACE);
            CHECK(size == end && stays(0));

            CHECK(add_item(which, output, end + whole, &size, start) == DCSCTP_OK && size == end + whole && stays(size));
            CHECK(!memcmp(output, before, start + 2) && !memcmp(output + start + 4, before + start + 4, end - start - 4));
            CHECK(((size_t)output[start + 2] << 8 | output[start + 3]) == end - start + has);
            CHECK(!memcmp(output + end, item.bytes, item.size));
            for (size_t i = end + has; i < size; i++)
                CHECK(output[i] == 0);
            /* and one more after it */
            CHECK(add_item(1, output, ROOM, &size, start) == DCSCTP_OK && size == end + whole + 4);
            CHECK(((size_t)output[start + 2] << 8 | output[start + 3]) == size - start && !memcmp(output + size - 4, "\xc0\0\0\4", 4));
        }
}

/* Whole packets with lists, which read as what was added. */
static void lists(void)
{
    static const uint8_t init_ack[] = "\0\1\0\2\0\0\0\3\0\0\0\0" "\2\0\0\x2d\0\0\0\1\0\0\0\2\0\3\0\4\0\0\0\5" "\x80\x08\0\7\xc0\x40\x82\0"
                                      "\xc0\0\0\4" "\0\7\0\x0dhello you\0\0\0";
    static const uint8_t error[] = "\0\1\0\2\0\0\0\3\0\0\0\0" "\x09\0\0\x21" "\0\6\0\x09\xff\x81\0\5!\0\0\0" "\0\2\0\x08\0\0\0\0"
                                   "\0\x0d\0\x09hello\0\0\0";
    static const uint8_t abort[] = "\0\1\0\2\0\0\0\3\0\0\0\0" "\6\1\0\x0c" "\0\x09\0\x08\0\0\0\7";
    const uint8_t *text = (const uint8_t *)"hello you";
    size_t size;
    CHECK(dcsctp_begin(output, ROOM, &size, 1, 2, 3) == DCSCTP_OK && dcsctp_add_init_ack(output, ROOM, &size, &numbers) == DCSCTP_OK);
    CHECK(add_item(0, output, ROOM, &size, 12) == DCSCTP_OK && add_item(1, output, ROOM, &size, 12) == DCSCTP_OK);
    CHECK(dcsctp_add_parameter(output, ROOM, &size, 12, DCSCTP_PARAMETER_STATE_COOKIE, text, 9) == DCSCTP_OK);
    CHECK(size == sizeof init_ack - 1 && !memcmp(output, init_ack, size) && dcsctp_check(output, size, 0, &strict) == DCSCTP_OK);
    struct dcsctp_chunk chunk;
    struct dcsctp_parameter item;
    const uint16_t types[] = {DCSCTP_PARAMETER_SUPPORTED_EXTENSIONS, DCSCTP_PARAMETER_FORWARD_TSN_SUPPORTED, DCSCTP_PARAMETER_STATE_COOKIE};
    size_t found = 0;
    CHECK(dcsctp_chunk_at(output, size, DCSCTP_FIRST_CHUNK, &chunk));
    for (size_t at = dcsctp_list_offset(&chunk); dcsctp_parameter_at(output, size, &chunk, at, &item); at = item.next, found++)
        CHECK(found < 3 && item.type == types[found]);
    CHECK(found == 3 && item.value_size == 9 && !memcmp(output + item.value_offset, text, 9));

    CHECK(dcsctp_begin(output, ROOM, &size, 1, 2, 3) == DCSCTP_OK);
    CHECK(dcsctp_add_chunk(output, ROOM, &size, DCSCTP_CHUNK_ERROR, 0, NULL, 0) == DCSCTP_OK);
    CHECK(dcsctp_check(output, size, 0, &strict) == DCSCTP_FAULT_LENGTH); /* an ERROR has a cause */
    CHECK(dcsctp_add_parameter(output, ROOM, &size, 12, DCSCTP_CAUSE_UNRECOGNIZED_CHUNK, BYTES("\xff\x81\0\5!")) == DCSCTP_OK);
    CHECK(dcsctp_add_missing_parameters(output, ROOM, &size, 12, NULL, 0) == DCSCTP_OK);
    CHECK(dcsctp_add_parameter(output, ROOM, &size, 12, DCSCTP_CAUSE_PROTOCOL_VIOLATION, text, 5) == DCSCTP_OK);
    CHECK(size == sizeof error - 1 && !memcmp(output, error, size) && dcsctp_check(output, size, 0, &strict) == DCSCTP_OK);

    CHECK(dcsctp_begin(output, ROOM, &size, 1, 2, 3) == DCSCTP_OK);
    CHECK(dcsctp_add_chunk(output, ROOM, &size, DCSCTP_CHUNK_ABORT, DCSCTP_TAG_REFLECTED, NULL, 0) == DCSCTP_OK);
    CHECK(dcsctp_add_number(output, ROOM, &size, 12, DCSCTP_CAUSE_NO_USER_DATA, 7) == DCSCTP_OK);
    CHECK(size == sizeof abort - 1 && !memcmp(output, abort, size) && dcsctp_check(output, size, 0, &strict) == DCSCTP_OK);
    /* after one more chunk the one before is no longer the last */
    CHECK(dcsctp_add_cookie_ack(output, ROOM, &size) == DCSCTP_OK);
    CHECK(dcsctp_add_number(output, ROOM, &size, 12, DCSCTP_CAUSE_NO_USER_DATA, 7) == DCSCTP_BAD_PLACE && size == sizeof abort + 3);
    /* padding that isn't zero becomes zero, since it is then a part of the chunk */
    CHECK(dcsctp_begin(output, ROOM, &size, 1, 2, 3) == DCSCTP_OK && dcsctp_add_chunk(output, ROOM, &size, 6, 0, text, 1) == DCSCTP_OK);
    memcpy(output + 17, "xyz", 3);
    CHECK(add_item(1, output, ROOM, &size, 12) == DCSCTP_OK && !memcmp(output + 12, "\6\0\0\x0ch\0\0\0\xc0\0\0\4", 12));
}

/* The first reason comes first; none changes anything. */
static void reasons(void)
{
    const uint8_t *half = (const uint8_t *)"\xc3", *whole = (const uint8_t *)"\xc3\xa9"; /* an é, and a half of it */
    const struct dcsctp_re_config other = {.type = 12}, request = {.type = 19}, unknown = {.type = 16, .result = 7};
    const struct dcsctp_re_config *const wrong[] = {&other, &request, &unknown};
    size_t size = 12, odd = 13, start;
    fill_output();
    CHECK(dcsctp_add_abort(output, ROOM, &odd, false, half, 1) == DCSCTP_BAD_PLACE && odd == 13);
    CHECK(dcsctp_add_abort(output, 12, &size, false, half, 1) == DCSCTP_BAD_VALUE && size == 12);
    CHECK(dcsctp_add_abort(output, ROOM, &size, false, half, 1) == DCSCTP_BAD_VALUE && size == 12 && stays(0));
    CHECK(dcsctp_add_abort(output, 12, &size, false, whole, 2) == DCSCTP_NO_ROOM && size == 12 && stays(0));
    CHECK(dcsctp_add_abort(output, ROOM, &size, false, whole, 2) == DCSCTP_OK && size == 24);
    CHECK(!memcmp(output + 12, "\6\0\0\x0a\0\x0c\0\6\xc3\xa9\0\0", 12));

    start = size;
    CHECK(dcsctp_add_chunk(output, ROOM, &size, DCSCTP_CHUNK_RE_CONFIG, 0, NULL, 0) == DCSCTP_OK && size == 28);
    memcpy(before, output, ROOM);
    for (int i = 0; i < 3; i++) {
        CHECK(dcsctp_add_re_config(output, ROOM, &size, 12, wrong[i], NULL, 0) == DCSCTP_BAD_PLACE);
        CHECK(dcsctp_add_re_config(output, 28, &size, start, wrong[i], NULL, 0) == DCSCTP_BAD_VALUE);
        CHECK(dcsctp_add_re_config(output, ROOM, &size, start, wrong[i], NULL, 0) == DCSCTP_BAD_VALUE && size == 28 && stays(0));
    }
    /* of a request the result is ignored: the parameters' least lengths are 16, 8, 8, 12 and 12 */
    for (int i = 0; i < 5; i++) {
        const size_t lengths[] = {16, 8, 8, 12, 12};
        const struct dcsctp_re_config any_result = {.type = (uint16_t)(i < 3 ? 13 + i : 14 + i), .result = 99};
        size = 28;
        CHECK(dcsctp_add_re_config(output, ROOM, &size, start, &any_result, NULL, 0) == DCSCTP_OK && size == 28 + lengths[i]);
        memcpy(output, before, ROOM);
    }
}

/* A packet of 65,532 bytes is the largest that is written, and a chunk's length is at most 65,535. */
static void largest(void)
{
    static uint8_t buffer[1 << 17], payload[1 << 17];
    static struct dcsctp_gap_ack_block many[20000];
    static struct dcsctp_skipped_stream skipped[20000];
    static uint16_t many_types[33000];
    enum { SIZE = sizeof buffer };
    size_t size, whole = 65536;
    CHECK(dcsctp_begin(buffer, SIZE, &size, 1, 2, 3) == DCSCTP_OK);
    /* what makes a chunk of 65,536 bytes or more; and of 65,535, for which no packet has room */
    CHECK(dcsctp_add_chunk(buffer, SIZE, &size, 0, 0, payload, 65532) == DCSCTP_BAD_VALUE);
    CHECK(dcsctp_add_chunk(buffer, SIZE, &size, 0, 0, payload, sizeof payload) == DCSCTP_BAD_VALUE);
    CHECK(dcsctp_add_chunk(buffer, SIZE, &size, 0, 0, payload, 65531) == DCSCTP_NO_ROOM);
    CHECK(dcsctp_add_data(buffer, SIZE, &size, &message, payload, sizeof payload) == DCSCTP_BAD_VALUE);
    CHECK(dcsctp_add_data(buffer, SIZE, &size, &message, payload, 65520) == DCSCTP_BAD_VALUE);
    CHECK(dcsctp_add_data(buffer, SIZE, &size, &message, payload, 65519) == DCSCTP_NO_ROOM);
    CHECK(dcsctp_add_i_data(buffer, SIZE, &size, &message, payload, 65516) == DCSCTP_BAD_VALUE);
    CHECK(dcsctp_add_i_data(buffer, SIZE, &size, &message, payload, 65515) == DCSCTP_NO_ROOM);
    CHECK(dcsctp_add_cookie_echo(buffer, SIZE, &size, payload, 65532) == DCSCTP_BAD_VALUE);
    CHECK(dcsctp_add_cookie_echo(buffer, SIZE, &size, payload, 65531) == DCSCTP_NO_ROOM);
    CHECK(dcsctp_add_heartbeat(buffer, SIZE, &size, true, payload, 65528) == DCSCTP_BAD_VALUE);
    CHECK(dcsctp_add_heartbeat(buffer, SIZE, &size, true, payload, 65527) == DCSCTP_NO_ROOM);
    CHECK(dcsctp_add_abort(buffer, SIZE, &size, true, payload, 65528) == DCSCTP_BAD_VALUE);
    CHECK(dcsctp_add_abort(buffer, SIZE, &size, true, payload, 65527) == DCSCTP_NO_ROOM);
    CHECK(dcsctp_add_sack(buffer, SIZE, &size, 1, 2, many, 20000, NULL, 0) == DCSCTP_BAD_VALUE);
    CHECK(dcsctp_add_sack(buffer, SIZE, &size, 1, 2, many, 16379, duplicates, 1) == DCSCTP_BAD_VALUE);
    CHECK(dcsctp_add_sack(buffer, SIZE, &size, 1, 2, many, 16379, NULL, 0) == DCSCTP_NO_ROOM);
    CHECK(dcsctp_add_forward_tsn(buffer, SIZE, &size, 1, skipped, 16382) == DCSCTP_BAD_VALUE);
    CHECK(dcsctp_add_forward_tsn(buffer, SIZE, &size, 1, skipped, 16381) == DCSCTP_NO_ROOM);
    CHECK(dcsctp_add_i_forward_tsn(buffer, SIZE, &size, 1, skipped, 8191) == DCSCTP_BAD_VALUE);
    CHECK(dcsctp_add_i_forward_tsn(buffer, SIZE, &size, 1, skipped, 8190) == DCSCTP_NO_ROOM && size == 12);
    CHECK(dcsctp_add_cookie_ack(buffer, SIZE, &whole) == DCSCTP_BAD_PLACE && whole == 65536);

    CHECK(dcsctp_add_data(buffer, SIZE, &size, &message, payload, 65505) == DCSCTP_NO_ROOM && size == 12);
    CHECK(dcsctp_add_data(buffer, SIZE, &size, &message, payload, 65504) == DCSCTP_OK && size == 65532);
    CHECK(dcsctp_add_cookie_ack(buffer, SIZE, &size) == DCSCTP_NO_ROOM && size == 65532);
    CHECK(dcsctp_check(buffer, size, 0, &strict) == DCSCTP_OK);
    CHECK(dcsctp_begin(buffer, SIZE, &size, 1, 2, 3) == DCSCTP_OK);
    CHECK(dcsctp_add_sack(buffer, SIZE, &size, 1, 2, many, 16376, duplicates, 1) == DCSCTP_NO_ROOM);
    CHECK(dcsctp_add_sack(buffer, SIZE, &size, 1, 2, many, 16376, NULL, 0) == DCSCTP_OK && size == 65532);

    /* after a value of 65,500 bytes, which needs no padding, and of 65,501, which gets three: 28 are left, or 24 */
    const struct dcsctp_re_config incoming = {.type = DCSCTP_PARAMETER_INCOMING_SSN_RESET};
    for (size_t odd = 0; odd < 2; odd++) {
        const size_t left = 16 - 4 * odd;
        CHECK(dcsctp_begin(buffer, SIZE, &size, 1, 2, 3) == DCSCTP_OK);
        CHECK(dcsctp_add_chunk(buffer, SIZE, &size, DCSCTP_CHUNK_HEARTBEAT, 0, payload, 65500 + odd) == DCSCTP_OK && size == 65532 - left);
        CHECK(dcsctp_add_parameter(buffer, SIZE, &size, 12, 9, payload, 28 - 4 * odd) == DCSCTP_BAD_VALUE);
        CHECK(dcsctp_add_parameter(buffer, SIZE, &size, 12, 9, payload, 65536) == DCSCTP_BAD_VALUE);
        CHECK(dcsctp_add_parameter(buffer, SIZE, &size, 12, 9, payload, 27 - 4 * odd) == DCSCTP_NO_ROOM);
        CHECK(dcsctp_add_parameter(buffer, SIZE, &size, 12, 9, payload, left - 3) == DCSCTP_NO_ROOM);
        CHECK(dcsctp_add_missing_parameters(buffer, SIZE, &size, 12, many_types, 33000) == DCSCTP_BAD_VALUE);
        CHECK(dcsctp_add_missing_parameters(buffer, SIZE, &size, 12, many_types, 12 - 2 * odd) == DCSCTP_BAD_VALUE);
        CHECK(dcsctp_add_missing_parameters(buffer, SIZE, &size, 12, many_types, 11 - 2 * odd) == DCSCTP_NO_ROOM);
        CHECK(dcsctp_add_re_config(buffer, SIZE, &size, 12, &incoming, many_types, 33000) == DCSCTP_BAD_VALUE);
        CHECK(dcsctp_add_re_config(buffer, SIZE, &size, 12, &incoming, many_types, 12 - 2 * odd) == DCSCTP_BAD_VALUE);
        CHECK(dcsctp_add_re_config(buffer, SIZE, &size, 12, &incoming, many_types, 11 - 2 * odd) == DCSCTP_NO_ROOM && size == 65532 - left);
        CHECK(dcsctp_add_parameter(buffer, SIZE, &size, 12, 9, payload, left - 4) == DCSCTP_OK && size == 65532);
        CHECK(buffer[14] == 0xff && buffer[15] == 0xf0 && dcsctp_add_parameter(buffer, SIZE, &size, 12, 9, NULL, 0) == DCSCTP_NO_ROOM);
    }
}

/* ---- null, where there is nothing */

static void nothing(void)
{
    struct dcsctp_header header;
    struct dcsctp_chunk chunk = {0};
    struct dcsctp_parameter parameter = {0};
    struct dcsctp_data data;
    struct dcsctp_sack sack;
    struct dcsctp_gap_ack_block block;
    struct dcsctp_init init;
    struct dcsctp_forward_tsn forward;
    struct dcsctp_skipped_stream skipped;
    struct dcsctp_re_config re_config;
    uint32_t number;
    uint16_t type;
    size_t size = 7;
    CHECK(dcsctp_check(NULL, 0, 0, &any) == DCSCTP_FAULT_SIZE && dcsctp_first_fault(NULL, 0, 0, &any, &size) == DCSCTP_FAULT_SIZE && size == 0);
    CHECK(dcsctp_canonical(NULL, 0, 0, &any, NULL, 0, &size) == DCSCTP_FAULT_SIZE);
    CHECK(dcsctp_print(NULL, 0, 0, &any, NULL, 0, &size) == DCSCTP_FAULT_SIZE);
    CHECK(dcsctp_report(NULL, 0, 0, &any, NULL, 0, &size) == DCSCTP_FAULT_SIZE && size == 0);
    CHECK(dcsctp_canonical(packet, LENGTH, 0, &any, NULL, 0, &size) == DCSCTP_NO_ROOM && size == LENGTH);
    CHECK(dcsctp_word(NULL, 0) == dcsctp_word(packet, 0));
    CHECK(!dcsctp_header(NULL, 0, &header) && !dcsctp_chunk_at(NULL, 0, 0, &chunk) && !dcsctp_chunk_at(NULL, 0, SIZE_MAX, &chunk));
    const uint8_t types[] = {0, 1, 2, 3, 4, 6, 7, 9, 64, 130, 192, 194};
    for (size_t i = 0; i < sizeof types; i++) {
        chunk.type = parameter.type = types[i];
        CHECK(!dcsctp_data(NULL, 0, &chunk, &data) && !dcsctp_sack(NULL, 0, &chunk, &sack) && !dcsctp_init(NULL, 0, &chunk, &init));
        CHECK(!dcsctp_gap_ack_block(NULL, 0, &chunk, 0, &block) && !dcsctp_duplicate_tsn(NULL, 0, &chunk, 0, &number));
        CHECK(!dcsctp_validate_sack(NULL, 0, &chunk) && !dcsctp_shutdown(NULL, 0, &chunk, &number));
        CHECK(!dcsctp_forward_tsn(NULL, 0, &chunk, &forward) && !dcsctp_skipped_stream(NULL, 0, &chunk, 0, &skipped));
        CHECK(!dcsctp_parameter_at(NULL, 0, &chunk, 0, &parameter) && !dcsctp_number(NULL, 0, &parameter, &number));
        CHECK(!dcsctp_re_config(NULL, 0, &parameter, &re_config) && !dcsctp_reset_stream(NULL, 0, &parameter, 0, &type));
        CHECK(!dcsctp_missing_parameter(NULL, 0, &parameter, 0, &type));
    }
    CHECK(dcsctp_seal(NULL, 0) == DCSCTP_BAD_PLACE && dcsctp_set_tag(NULL, 0, 1) == DCSCTP_BAD_PLACE);
    size = 7;
    CHECK(dcsctp_begin(NULL, 0, &size, 1, 2, 3) == DCSCTP_NO_ROOM && size == 7);
    for (int which = 0; which < KINDS; which++)
        CHECK(add(which, NULL, 0, &size) == DCSCTP_BAD_PLACE && size == 7);
    for (int which = 0; which < ITEMS; which++)
        CHECK(add_item(which, NULL, 0, &size, 12) == DCSCTP_BAD_PLACE && size == 7);

    /* no payload, blocks, duplicates, cookie, info, reason, streams or value */
    static const uint8_t empty[] = "\0\3\0\x10\0\0\0\1\0\2\0\3\0\0\0\x33" "\x40\x0a\0\x14\0\0\0\1\0\2\0\0\0\0\0\4\0\0\0\x33"
                                   "\3\0\0\x10\0\0\0\x09\0\0\0\x08\0\0\0\0" "\x0a\0\0\4" "\4\0\0\x08\0\1\0\4" "\6\0\0\x08\0\x0c\0\4"
                                   "\xc0\0\0\x08\0\0\0\x09" "\xc2\0\0\x08\0\0\0\x09" "\x84\0\0\4";
    CHECK(dcsctp_begin(output, ROOM, &size, 1, 2, 3) == DCSCTP_OK && dcsctp_add_data(output, ROOM, &size, &message, NULL, 0) == DCSCTP_OK);
    CHECK(dcsctp_add_i_data(output, ROOM, &size, &begun, NULL, 0) == DCSCTP_OK);
    CHECK(dcsctp_add_sack(output, ROOM, &size, 9, 8, NULL, 0, NULL, 0) == DCSCTP_OK);
    CHECK(dcsctp_add_cookie_echo(output, ROOM, &size, NULL, 0) == DCSCTP_OK);
    CHECK(dcsctp_add_heartbeat(output, ROOM, &size, false, NULL, 0) == DCSCTP_OK);
    CHECK(dcsctp_add_abort(output, ROOM, &size, false, NULL, 0) == DCSCTP_OK);
    CHECK(dcsctp_add_forward_tsn(output, ROOM, &size, 9, NULL, 0) == DCSCTP_OK);
    CHECK(dcsctp_add_i_forward_tsn(output, ROOM, &size, 9, NULL, 0) == DCSCTP_OK);
    CHECK(dcsctp_add_chunk(output, ROOM, &size, 0x84, 0, NULL, 0) == DCSCTP_OK);
    CHECK(size == 12 + sizeof empty - 1 && !memcmp(output + 12, empty, sizeof empty - 1));
}

/* ---- the blocks of a SACK, and names */

static bool are_cleaned(const struct dcsctp_gap_ack_block *from, size_t count, const struct dcsctp_gap_ack_block *wanted, size_t left)
{
    struct dcsctp_gap_ack_block copy[8];
    memcpy(copy, from, count * sizeof *from);
    return dcsctp_clean_blocks(copy, count) == left && !memcmp(copy, wanted, left * sizeof *wanted);
}

static void clean_blocks(void)
{
    const struct dcsctp_gap_ack_block mixed[] = {{20, 30}, {8, 8}, {9, 1}, {2, 6}, {25, 40}, {7, 7}, {10, 10}}, runs[] = {{2, 8}, {10, 10}, {20, 40}};
    const struct dcsctp_gap_ack_block ends[] = {{65535, 65535}, {0, 0}, {65535, 0}}, kept[] = {{0, 0}, {65535, 65535}};
    const struct dcsctp_gap_ack_block all[] = {{1, 65535}, {0, 0}, {5, 5}}, one[] = {{0, 65535}}, none[] = {{1, 0}, {9, 8}};
    CHECK(are_cleaned(mixed, 7, runs, 3) && are_cleaned(runs, 3, runs, 3) && are_cleaned(ends, 3, kept, 2));
    CHECK(are_cleaned(all, 3, one, 1) && are_cleaned(none, 2, none, 0) && dcsctp_clean_blocks(NULL, 0) == 0);
}

/* How many of these texts aren't the one for a value without a name. */
static int named(const char *(*name)(uint32_t), uint32_t limit, const char *other)
{
    int count = 0;
    for (uint32_t value = 0; value < limit; value++)
        count += strcmp(name(value), other) != 0;
    return count;
}

static const char *chunk_name(uint32_t type)
{
    return dcsctp_chunk_name((uint8_t)type);
}

static const char *parameter_name(uint32_t type)
{
    return dcsctp_parameter_name((uint16_t)type);
}

static const char *cause_name(uint32_t code)
{
    return dcsctp_cause_name((uint16_t)code);
}

/* Whether a text is the name of a number, or says what it is and both of its forms. */
static bool is_text(const char *text, const char *name, const char *form, uint32_t number)
{
    char numbered[64];
    snprintf(numbered, sizeof numbered, form, number, number);
    return !strcmp(text, strcmp(name, "unknown") ? name : numbered);
}

static bool are_texts(void)
{
    char text[DCSCTP_TEXT_SIZE];
    for (uint32_t i = 0; i < 65536; i++)
        if (!is_text(dcsctp_parameter_text((uint16_t)i, text), parameter_name(i), "parameter type %u (0x%04x)", i)
            || !is_text(dcsctp_cause_text((uint16_t)i, text), cause_name(i), "cause code %u (0x%04x)", i)
            || (i < 256 && !is_text(dcsctp_chunk_text((uint8_t)i, text), chunk_name(i), "chunk type %u (0x%02x)", i)))
            return false;
    return true;
}

static void names(void)
{
    CHECK(named(chunk_name, 256, "unknown") == 25 && !strcmp(dcsctp_chunk_name(14), "SHUTDOWN COMPLETE") && !strcmp(dcsctp_chunk_name(0), "DATA"));
    CHECK(named(parameter_name, 65536, "unknown") == 28 && !strcmp(dcsctp_parameter_name(0x8008), "Supported Extensions"));
    CHECK(named(cause_name, 65536, "unknown") == 19 && !strcmp(dcsctp_cause_name(13), "Protocol Violation"));
    CHECK(named(dcsctp_re_config_result_name, 65536, "unknown") == 7 && !strcmp(dcsctp_re_config_result_name(2), "Denied"));
    CHECK(are_texts());
    CHECK(named(dcsctp_result_text, 65536, "unknown result") == 11 && !strcmp(dcsctp_result_text(7), "no room"));
    CHECK(!strcmp(dcsctp_version(), DCSCTP_VERSION));
    CHECK(dcsctp_version_number() == DCSCTP_VERSION_NUMBER && DCSCTP_VERSION_NUMBER == 256);
}

/* RFC 9260's own: table 1 of section 3.2 without ECNE and CWR, which it reserves, and sections 3.3.2, 3.3.3 and 3.3.5. */
static void base_types(void)
{
    static const uint8_t chunks[] = {DCSCTP_BASE_CHUNKS}, table[] = {0, 1, 2, 3, 4, 5, 6, 7, 8, 9, 10, 11, 14};
    static const uint16_t parameters[] = {DCSCTP_BASE_PARAMETERS}, values[] = {1, 5, 6, 7, 8, 9, 11, 12};
    CHECK(sizeof chunks == sizeof table && memcmp(chunks, table, sizeof table) == 0);
    CHECK(sizeof parameters == sizeof values && memcmp(parameters, values, sizeof values) == 0);
    const struct dcsctp_policy *usual = dcsctp_usual_policy();
    CHECK(!usual->any_checksum && !usual->zero_checksum && !usual->strict_padding && usual->reserved[0] + usual->reserved[4] == 0);
}

int main(void)
{
    base_types();
    captured_data();
    captured_lists();
    whole_lists();
    captured_rows();
    packets_in_a_block();
    captured_in_place();
    captured_faults();
    places();
    anywhere();
    parts();
    list_offsets();
    parameters();
    numbers_of_chunks();
    re_configurations();
    numbers_of_items();
    in_place();
    rooms();
    item_rooms();
    lists();
    reasons();
    largest();
    clean_blocks();
    names();
    sizes_and_policies();
    replaced_texts();
    outputs(dcsctp_canonical);
    outputs(dcsctp_report);
    CHECK(requests == 0); /* none of these functions allocates */
    nothing();
    captured_outputs();
    outputs(dcsctp_print);
    refusals();
    CHECK(held == 0);
    printf("edge: %u passed, %u failed\n", passed, failed);
    return failed > 0;
}
