/* SPDX-License-Identifier: Apache-2.0 */
/* What RFC 9260 asks of whoever receives a packet: each sentence of sections 3.2, 3.2.1, 3.3.2, 3.3.3, 8.4 and 8.5.1, as a C
   program asks. */
#include <dcsctp.h>
#include <stdint.h>
#include <stdio.h>
#include <string.h>

static unsigned passed, failed;

#define CHECK(condition) check_that(condition, #condition, __LINE__)

static void check_that(bool holds, const char *condition, int line)
{
    if (holds) {
        passed++;
    } else {
        failed++;
        printf("tests/c/receive.c:%d: %s\n", line, condition);
    }
}

enum { OWN = 0x01020304, PEER = 0x05060708, OTHER = 0x090a0b0c, ROOM = 128 };

struct packet {
    uint8_t bytes[ROOM];
    size_t size;
};

/* A packet of chunks without a value, each by its type and its flags; a type of 0 ends the list. */
static struct packet packet_of(uint32_t tag, const uint8_t (*chunks)[2])
{
    struct packet packet = {{0}, 0};
    CHECK(dcsctp_begin(packet.bytes, ROOM, &packet.size, 5000, 5001, tag) == DCSCTP_OK);
    for (; (*chunks)[0]; chunks++)
        CHECK(dcsctp_add_chunk(packet.bytes, ROOM, &packet.size, (*chunks)[0], (*chunks)[1], NULL, 0) == DCSCTP_OK);
    return packet;
}

#define PACKET(tag, ...) packet_of(tag, (const uint8_t[][2]){__VA_ARGS__, {0, 0}})

/* "Chunk Types are encoded such that the highest-order 2 bits specify the action": section 3.2, and of parameters 3.2.1. */
static void each_action(void)
{
    const uint32_t actions[] = {DCSCTP_ACTION_STOP, DCSCTP_ACTION_STOP_AND_REPORT, DCSCTP_ACTION_SKIP,
                                DCSCTP_ACTION_SKIP_AND_REPORT};
    for (unsigned type = 0; type < 256; type++)
        CHECK(dcsctp_unrecognized_chunk((uint8_t)type) == actions[type / 64]);
    for (unsigned bits = 0; bits < 4; bits++)
        CHECK(dcsctp_unrecognized_parameter((uint16_t)(bits << 14)) == actions[bits]
              && dcsctp_unrecognized_parameter((uint16_t)(bits << 14 | 0x3fff)) == actions[bits]);
    /* "01 - Stop processing .. and report"; "10 - Skip"; "11 - Skip .. and report" */
    CHECK(!dcsctp_action_reports(DCSCTP_ACTION_STOP) && !dcsctp_action_skips(DCSCTP_ACTION_STOP));
    CHECK(dcsctp_action_reports(DCSCTP_ACTION_STOP_AND_REPORT) && !dcsctp_action_skips(DCSCTP_ACTION_STOP_AND_REPORT));
    CHECK(!dcsctp_action_reports(DCSCTP_ACTION_SKIP) && dcsctp_action_skips(DCSCTP_ACTION_SKIP));
    CHECK(dcsctp_action_reports(DCSCTP_ACTION_SKIP_AND_REPORT) && dcsctp_action_skips(DCSCTP_ACTION_SKIP_AND_REPORT));
}

static uint32_t verdict(const struct packet *packet, bool knows_peer, bool awaits_cookie)
{
    const struct dcsctp_association association = {OWN, PEER, knows_peer, awaits_cookie};
    return dcsctp_verify_tag(packet->bytes, packet->size, &association);
}

static void tags(void)
{
    const struct {
        struct packet packet;
        uint32_t verdict; /* where the peer's tag is known, and no cookie awaited */
    } rows[] = {
        /* 8.5: the receiver's own tag, and no other */
        {PACKET(OWN, {DCSCTP_CHUNK_COOKIE_ACK, 0}), DCSCTP_TAG_ACCEPT},
        {PACKET(PEER, {DCSCTP_CHUNK_COOKIE_ACK, 0}), DCSCTP_TAG_DISCARD},
        {PACKET(OTHER, {DCSCTP_CHUNK_COOKIE_ACK, 0}), DCSCTP_TAG_DISCARD},
        /* 8.5.1 A: an INIT alone, under the tag 0 */
        {PACKET(0, {DCSCTP_CHUNK_INIT, 0}), DCSCTP_TAG_ESTABLISH},
        {PACKET(0, {DCSCTP_CHUNK_INIT, 0}, {DCSCTP_CHUNK_COOKIE_ACK, 0}), DCSCTP_TAG_DISCARD},
        {PACKET(0, {DCSCTP_CHUNK_COOKIE_ACK, 0}), DCSCTP_TAG_DISCARD},
        {PACKET(OWN, {DCSCTP_CHUNK_INIT, 0}), DCSCTP_TAG_DISCARD},
        /* B: ABORT, with the own tag, or with the peer's and the T bit */
        {PACKET(OWN, {DCSCTP_CHUNK_ABORT, 0}), DCSCTP_TAG_ACCEPT},
        {PACKET(PEER, {DCSCTP_CHUNK_ABORT, DCSCTP_TAG_REFLECTED}), DCSCTP_TAG_ACCEPT},
        {PACKET(OWN, {DCSCTP_CHUNK_ABORT, DCSCTP_TAG_REFLECTED}), DCSCTP_TAG_DISCARD},
        {PACKET(PEER, {DCSCTP_CHUNK_ABORT, 0}), DCSCTP_TAG_DISCARD},
        {PACKET(OTHER, {DCSCTP_CHUNK_ABORT, DCSCTP_TAG_REFLECTED}), DCSCTP_TAG_DISCARD},
        /* C: SHUTDOWN COMPLETE, likewise */
        {PACKET(OWN, {DCSCTP_CHUNK_SHUTDOWN_COMPLETE, 0}), DCSCTP_TAG_ACCEPT},
        {PACKET(PEER, {DCSCTP_CHUNK_SHUTDOWN_COMPLETE, DCSCTP_TAG_REFLECTED}), DCSCTP_TAG_ACCEPT},
        {PACKET(OWN, {DCSCTP_CHUNK_SHUTDOWN_COMPLETE, DCSCTP_TAG_REFLECTED}), DCSCTP_TAG_DISCARD},
        {PACKET(PEER, {DCSCTP_CHUNK_SHUTDOWN_COMPLETE, 0}), DCSCTP_TAG_DISCARD},
        /* D: COOKIE ECHO, by section 5 */
        {PACKET(OTHER, {DCSCTP_CHUNK_COOKIE_ECHO, 0}, {DCSCTP_CHUNK_SACK, 0}), DCSCTP_TAG_ESTABLISH},
        {PACKET(OTHER, {DCSCTP_CHUNK_AUTH, 0}, {DCSCTP_CHUNK_COOKIE_ECHO, 0}), DCSCTP_TAG_ESTABLISH}, /* RFC 4895 section 6.3 */
        /* E: SHUTDOWN ACK, out of the blue where a cookie is awaited */
        {PACKET(OWN, {DCSCTP_CHUNK_SHUTDOWN_ACK, 0}), DCSCTP_TAG_ACCEPT},
    };
    for (size_t i = 0; i < sizeof rows / sizeof *rows; i++)
        check_that(verdict(&rows[i].packet, true, false) == rows[i].verdict, "the verdict of a row", (int)i);
    struct packet packet = PACKET(OTHER, {DCSCTP_CHUNK_SHUTDOWN_ACK, 0});
    CHECK(verdict(&packet, true, true) == DCSCTP_TAG_OUT_OF_THE_BLUE && verdict(&packet, true, false) == DCSCTP_TAG_DISCARD);
    packet = PACKET(PEER, {DCSCTP_CHUNK_ABORT, DCSCTP_TAG_REFLECTED});
    CHECK(verdict(&packet, false, true) == DCSCTP_TAG_DISCARD);
    packet.size = 11;
    CHECK(verdict(&packet, true, false) == DCSCTP_TAG_DISCARD);
    packet.size = 0;
    CHECK(verdict(&packet, true, false) == DCSCTP_TAG_DISCARD);
}

static uint32_t answer(const struct packet *packet)
{
    return dcsctp_out_of_the_blue(packet->bytes, packet->size, true);
}

/* The steps of section 8.4, each before those after it. */
static void out_of_the_blue(void)
{
    struct packet error = PACKET(OTHER, {DCSCTP_CHUNK_ERROR, 0});
    struct dcsctp_registered stale = {.number = 1000};
    CHECK(answer(&error) == DCSCTP_ANSWER_ABORT);
    CHECK(dcsctp_add_registered_cause(error.bytes, ROOM, &error.size, 12, DCSCTP_CAUSE_STALE_COOKIE, &stale, NULL, 0)
          == DCSCTP_OK);
    const struct {
        struct packet packet;
        uint32_t answer;
    } rows[] = {
        {PACKET(OTHER, {DCSCTP_CHUNK_SHUTDOWN_ACK, 0}, {DCSCTP_CHUNK_ABORT, 0}), DCSCTP_ANSWER_DISCARD},
        {PACKET(0, {DCSCTP_CHUNK_INIT, 0}), DCSCTP_ANSWER_INIT},
        {PACKET(0, {DCSCTP_CHUNK_INIT, 0}, {DCSCTP_CHUNK_SHUTDOWN_ACK, 0}), DCSCTP_ANSWER_DISCARD},
        {PACKET(OTHER, {DCSCTP_CHUNK_INIT, 0}), DCSCTP_ANSWER_ABORT},
        {PACKET(OTHER, {DCSCTP_CHUNK_COOKIE_ECHO, 0}, {DCSCTP_CHUNK_SHUTDOWN_ACK, 0}), DCSCTP_ANSWER_COOKIE_ECHO},
        {PACKET(OTHER, {DCSCTP_CHUNK_AUTH, 0}, {DCSCTP_CHUNK_COOKIE_ECHO, 0}), DCSCTP_ANSWER_COOKIE_ECHO},
        {PACKET(OTHER, {DCSCTP_CHUNK_SACK, 0}, {DCSCTP_CHUNK_COOKIE_ECHO, 0}), DCSCTP_ANSWER_ABORT},
        {PACKET(OTHER, {DCSCTP_CHUNK_SHUTDOWN_COMPLETE, 0}, {DCSCTP_CHUNK_SHUTDOWN_ACK, 0}), DCSCTP_ANSWER_SHUTDOWN_COMPLETE},
        {PACKET(OTHER, {DCSCTP_CHUNK_SHUTDOWN_COMPLETE, 0}), DCSCTP_ANSWER_DISCARD},
        {PACKET(OTHER, {DCSCTP_CHUNK_COOKIE_ACK, 0}), DCSCTP_ANSWER_DISCARD},
        {error, DCSCTP_ANSWER_DISCARD},
        {PACKET(OTHER, {DCSCTP_CHUNK_DATA, 3}), DCSCTP_ANSWER_ABORT},
    };
    for (size_t i = 0; i < sizeof rows / sizeof *rows; i++) {
        check_that(answer(&rows[i].packet) == rows[i].answer, "the answer of a row", (int)i);
        check_that(dcsctp_out_of_the_blue(rows[i].packet.bytes, rows[i].packet.size, false) == DCSCTP_ANSWER_DISCARD,
                   "not unicast", (int)i);
        check_that(dcsctp_out_of_the_blue(rows[i].packet.bytes, 11, true) == DCSCTP_ANSWER_DISCARD, "no header", (int)i);
    }
    CHECK(dcsctp_out_of_the_blue(NULL, 0, true) == DCSCTP_ANSWER_DISCARD);
}

/* The reply, byte for byte, and none to it. */
static void replies(void)
{
    static const uint8_t complete[] = {0x13, 0x89, 0x13, 0x88, 9, 10, 11, 12, 0, 0, 0, 0, 14, 1, 0, 4},
                         abort[] = {0x13, 0x89, 0x13, 0x88, 9, 10, 11, 12, 0, 0, 0, 0, 6, 1, 0, 4};
    struct packet packet = PACKET(OTHER, {DCSCTP_CHUNK_SHUTDOWN_ACK, 0}), reply;
    struct dcsctp_header header;
    CHECK(dcsctp_header(packet.bytes, packet.size, &header));
    for (uint32_t asked = 0; asked < 7; asked++) {
        bool is_reply = asked == DCSCTP_ANSWER_SHUTDOWN_COMPLETE || asked == DCSCTP_ANSWER_ABORT;
        memset(&reply, 0xa5, sizeof reply);
        struct packet before = reply;
        CHECK(dcsctp_reply(reply.bytes, 15, &reply.size, &header, asked) == (is_reply ? DCSCTP_NO_ROOM : DCSCTP_BAD_VALUE));
        CHECK(reply.size == before.size && !memcmp(reply.bytes, before.bytes, ROOM));
        CHECK(dcsctp_reply(reply.bytes, ROOM, &reply.size, &header, asked) == (is_reply ? DCSCTP_OK : DCSCTP_BAD_VALUE));
        if (!is_reply) {
            CHECK(reply.size == before.size && !memcmp(reply.bytes, before.bytes, ROOM));
            continue;
        }
        CHECK(reply.size == 16 && !memcmp(reply.bytes, asked == DCSCTP_ANSWER_ABORT ? abort : complete, 16));
        CHECK(!memcmp(reply.bytes + 16, before.bytes + 16, ROOM - 16));
        CHECK(answer(&reply) == DCSCTP_ANSWER_DISCARD && dcsctp_seal(reply.bytes, reply.size) == DCSCTP_OK);
        CHECK(answer(&reply) == DCSCTP_ANSWER_DISCARD);
    }
}

/* ---- INIT and INIT ACK */

static struct packet init_of(bool is_ack, struct dcsctp_init init, bool has_cookie)
{
    struct packet packet = {{0}, 0};
    CHECK(dcsctp_begin(packet.bytes, ROOM, &packet.size, 5000, 5001, is_ack ? OWN : 0) == DCSCTP_OK);
    CHECK((is_ack ? dcsctp_add_init_ack : dcsctp_add_init)(packet.bytes, ROOM, &packet.size, &init) == DCSCTP_OK);
    if (has_cookie)
        CHECK(dcsctp_add_parameter(packet.bytes, ROOM, &packet.size, 12, DCSCTP_PARAMETER_STATE_COOKIE, (const uint8_t *)"c", 1)
              == DCSCTP_OK);
    return packet;
}

static uint32_t init_fault(const struct packet *packet, bool is_ack)
{
    return dcsctp_init_fault(packet->bytes, packet->size, is_ack);
}

static void initiations(void)
{
    const struct {
        struct dcsctp_init init;
        uint32_t fault;
    } rows[] = {
        {{1, 1500, 1, 1, 0}, DCSCTP_INIT_NO_FAULT},
        {{0, 0, 0, 0, 0}, DCSCTP_INIT_TAG_ZERO},
        {{1, 1499, 0, 0, 0}, DCSCTP_INIT_SMALL_WINDOW},
        {{1, 1500, 0, 0, 0}, DCSCTP_INIT_NO_OUTBOUND_STREAMS},
        {{1, 1500, 1, 0, 0}, DCSCTP_INIT_NO_INBOUND_STREAMS},
    };
    for (size_t i = 0; i < sizeof rows / sizeof *rows; i++) {
        struct packet init = init_of(false, rows[i].init, false), ack = init_of(true, rows[i].init, true);
        check_that(init_fault(&init, false) == rows[i].fault, "the fault of an INIT", (int)i);
        check_that(init_fault(&ack, true) == rows[i].fault, "the fault of an INIT ACK", (int)i);
        CHECK(init_fault(&init, true) == DCSCTP_INIT_NOT_ALONE && init_fault(&ack, false) == DCSCTP_INIT_NOT_ALONE);
        ack = init_of(true, rows[i].init, false);
        check_that(init_fault(&ack, true) == (rows[i].fault ? rows[i].fault : (uint32_t)DCSCTP_INIT_NO_STATE_COOKIE), "no cookie", (int)i);
        CHECK(dcsctp_add_cookie_ack(init.bytes, ROOM, &init.size) == DCSCTP_OK && init_fault(&init, false) == DCSCTP_INIT_NOT_ALONE);
    }
    struct packet packet = PACKET(0, {DCSCTP_CHUNK_INIT, 0});
    CHECK(init_fault(&packet, false) == DCSCTP_INIT_TOO_SHORT);
    packet = init_of(false, rows[0].init, false);
    CHECK(dcsctp_add_parameter(packet.bytes, ROOM, &packet.size, 12, DCSCTP_PARAMETER_HOST_NAME_ADDRESS, (const uint8_t *)"a.", 2)
          == DCSCTP_OK);
    CHECK(init_fault(&packet, false) == DCSCTP_INIT_HOST_NAME_ADDRESS);
    CHECK(dcsctp_init_fault(NULL, 0, false) == DCSCTP_INIT_NOT_ALONE);
}

static void refusals(void)
{
    /* of an INIT (sections 3.3.2 and 8.5.1), and of an INIT ACK in COOKIE-WAIT (sections 3.3.3 and 5.1), by the fault's number */
    static const uint32_t of_init[] = {0, 0, 0, 0, 1, 1, 1, 0, 1, 0}, of_ack[] = {0, 0, 0, 2, 1, 2, 2, 2, 2, 0};
    for (uint32_t fault = 0; fault < 10; fault++) {
        CHECK(dcsctp_init_refusal(fault, false, false) == of_init[fault] && dcsctp_init_refusal(fault, false, true) == of_init[fault]);
        CHECK(dcsctp_init_refusal(fault, true, true) == of_ack[fault]);
        CHECK(dcsctp_init_refusal(fault, true, false) == DCSCTP_REFUSAL_DISCARD);
    }
}

/* The ABORT: under the initiate tag, or reflected where there is none; and its cause. */
static void init_aborts(void)
{
    static const uint8_t reflected[] = {0x13, 0x89, 0x13, 0x88, 1, 2, 3, 4, 0, 0, 0, 0, 6, 1, 0, 8, 0, 7, 0, 4},
                         invalid[] = {0x13, 0x89, 0x13, 0x88, 9, 10, 11, 12, 0, 0, 0, 0, 6, 0, 0, 8, 0, 7, 0, 4},
                         missing[] = {0x13, 0x89, 0x13, 0x88, 9, 10, 11, 12, 0, 0, 0, 0, 6, 0, 0, 14, 0, 2, 0, 10, 0, 0, 0, 1, 0, 7, 0, 0},
                         none[] = {0x13, 0x89, 0x13, 0x88, 9, 10, 11, 12, 0, 0, 0, 0, 6, 0, 0, 4};
    const struct {
        const uint8_t *bytes;
        size_t size;
    } wanted[] = {{NULL, 0}, {none, 16}, {none, 16}, {reflected, 20}, {invalid, 20}, {invalid, 20}, {invalid, 20}, {missing, 28},
                {none, 16}, {NULL, 0}};
    const struct dcsctp_header header = {5000, 5001, OWN, 77};
    for (uint32_t fault = 0; fault < 10; fault++) {
        struct packet packet, before;
        memset(&packet, 0xa5, sizeof packet);
        before = packet;
        uint32_t tag = fault == DCSCTP_INIT_TAG_ZERO ? 0 : OTHER, size = (uint32_t)wanted[fault].size;
        CHECK(dcsctp_init_abort(packet.bytes, size ? size - 1 : ROOM, &packet.size, &header, tag, fault)
              == (size ? DCSCTP_NO_ROOM : DCSCTP_BAD_VALUE));
        CHECK(packet.size == before.size && !memcmp(packet.bytes, before.bytes, ROOM));
        if (!size)
            continue;
        CHECK(dcsctp_init_abort(packet.bytes, size, &packet.size, &header, tag, fault) == DCSCTP_OK && packet.size == size);
        CHECK(!memcmp(packet.bytes, wanted[fault].bytes, size) && !memcmp(packet.bytes + size, before.bytes + size, ROOM - size));
    }
}

/* What is reported at once: what is known, what came, what is added to the packet, and where processing stops. */
struct report {
    uint16_t known[6];
    size_t known_count;
    const uint8_t *came;
    size_t came_size;
    const uint8_t *added;
    size_t added_size, end;
};

/* Parameters into an INIT ACK, or in an ERROR after the header; or chunks in an ERROR. */
enum reported { PARAMETERS, PARAMETERS_ERROR, CHUNKS };

static uint32_t report(struct packet *packet, size_t room, const struct report *it, enum reported reported, size_t *end)
{
    uint8_t known[6];
    for (size_t i = 0; i < it->known_count; i++)
        known[i] = (uint8_t)it->known[i];
    if (reported == CHUNKS)
        return dcsctp_add_unrecognized_chunks(packet->bytes, room, &packet->size, it->came, it->came_size, known, it->known_count, end);
    return reported == PARAMETERS
        ? dcsctp_add_unrecognized_parameters(packet->bytes, room, &packet->size, DCSCTP_FIRST_CHUNK, it->came, it->came_size,
                                             it->known, it->known_count, end)
        : dcsctp_add_unrecognized_parameters_error(packet->bytes, room, &packet->size, it->came, it->came_size, it->known,
                                                   it->known_count, end);
}

/* Nothing changes in a buffer that is too small, whatever its size; in one that isn't, what is added and nothing else. */
static void check_report(const struct report *it, enum reported reported, int line)
{
    const struct dcsctp_init init = {.initiate_tag = OTHER, .a_rwnd = 1500, .outbound_streams = 1, .inbound_streams = 1};
    struct packet packet, before;
    memset(&packet, 0xa5, sizeof packet);
    CHECK(dcsctp_begin(packet.bytes, ROOM, &packet.size, 5000, 5001, OWN) == DCSCTP_OK);
    if (reported == PARAMETERS)
        CHECK(dcsctp_add_init_ack(packet.bytes, ROOM, &packet.size, &init) == DCSCTP_OK);
    before = packet;
    const size_t start = packet.size, size = start + it->added_size;
    for (size_t room = 0; room < size; room++) {
        size_t end = 77;
        check_that(report(&packet, room, it, reported, &end) == (room < start ? DCSCTP_BAD_PLACE : DCSCTP_NO_ROOM), "no room", line);
        check_that(packet.size == start && end == 77 && !memcmp(packet.bytes, before.bytes, ROOM), "nothing changes", line);
    }
    size_t end = 77;
    check_that(report(&packet, size, it, reported, &end) == DCSCTP_OK && end == it->end, "what is reported", line);
    check_that(packet.size == size && !memcmp(packet.bytes + start, it->added, it->added_size), "what is added", line);
    check_that(!memcmp(packet.bytes + size, before.bytes + size, ROOM - size), "what is behind stays", line);
    size_t length = 20; /* of the INIT ACK: without the padding of its last parameter */
    for (size_t at = 0; reported == PARAMETERS && at < it->added_size; at += (length - 20 + 3) / 4 * 4 - at)
        length = 20 + at + (size_t)(it->added[at + 2] * 256 + it->added[at + 3]);
    if (reported == PARAMETERS)
        check_that(packet.bytes[14] * 256u + packet.bytes[15] == length, "the length of the chunk", line);
}

/* The same parameters in an INIT ACK, and in an ERROR, whose causes have the same bytes as the INIT ACK's parameters. */
static void check_parameters(const struct report *it, int line)
{
    uint8_t error[100] = {9};
    size_t length = 4;
    for (size_t at = 0; at < it->added_size; at += (length - 4 + 3) / 4 * 4 - at)
        length = 4 + at + (size_t)(it->added[at + 2] * 256 + it->added[at + 3]);
    error[3] = (uint8_t)length;
    memcpy(error + 4, it->added, it->added_size);
    struct report in_error = *it;
    in_error.added = error;
    in_error.added_size = it->added_size ? 4 + it->added_size : 0;
    check_report(it, PARAMETERS, line);
    check_report(&in_error, PARAMETERS_ERROR, line);
}

/* Reporting (sections 3.2, 3.2.1, 3.2.2, 3.3.3.1.2, 3.3.10.6 and 3.3.10.8): each pair of high bits, in whole lists and in cut ones. */
static void reports(void)
{
    static const uint8_t parameters[] = {0x80, 1, 0, 4, 0xc0, 1, 0, 8, 1, 2, 3, 4, 0xc0, 2, 0, 5, 9, 255, 255, 255, 0x40, 3, 0, 6,
                                         7, 8, 0, 0, 0xc0, 4, 0, 4, 0, 5, 0, 4, 0xc0, 6, 0, 4},
                         first[] = {0, 8, 0, 12, 0xc0, 1, 0, 8, 1, 2, 3, 4, 0, 8, 0, 9, 0xc0, 2, 0, 5, 9, 0, 0, 0, 0, 8, 0, 10, 0x40,
                                    3, 0, 6, 7, 8, 0, 0},
                         second[] = {0, 8, 0, 9, 0xc0, 2, 0, 5, 9, 0, 0, 0, 0, 8, 0, 8, 0xc0, 4, 0, 4},
                         lone[] = {0, 8, 0, 8, 0xc0, 1, 0, 4}, unpadded[] = {0, 8, 0, 9, 0xc0, 1, 0, 5, 9, 0, 0, 0};
    static const uint8_t chunks[] = {1, 2, 3, 4, 5, 6, 7, 8, 0, 0, 0, 0, 11, 0, 0, 4, 0x81, 0, 0, 4, 0xc1, 2, 0, 6, 9, 8, 255, 255,
                                     0x41, 1, 0, 4, 0xc2, 0, 0, 4},
                         error[] = {9, 0, 0, 24, 0, 6, 0, 10, 0xc1, 2, 0, 6, 9, 8, 0, 0, 0, 6, 0, 8, 0x41, 1, 0, 4},
                         shorter[] = {9, 0, 0, 14, 0, 6, 0, 10, 0xc1, 2, 0, 6, 9, 8, 0, 0},
                         last[] = {9, 0, 0, 12, 0, 6, 0, 8, 0xc2, 0, 0, 4};
#define ROW(known_count, came, came_size, added, added_size, end, ...) \
    {{__VA_ARGS__}, known_count, came, came_size, added, added_size, end}
    const struct report of_parameters[] = {
        ROW(1, parameters, sizeof parameters, first, sizeof first, 20, 5),
        ROW(2, parameters, sizeof parameters, second, sizeof second, 32, 0xc001, 0x4003), /* 00 stops, and isn't reported */
        ROW(6, parameters, sizeof parameters, second, 0, sizeof parameters, 0xc001, 0xc002, 0x4003, 0xc004, 5, 0xc006),
        ROW(0, parameters, 0, first, 0, 0, 0), ROW(0, NULL, 0, first, 0, 0, 0), ROW(0, parameters, 3, first, 0, 3, 0),
        ROW(0, parameters, 8, first, 0, 8, 0), /* a length beyond the list's end */
    },
    of_chunks[] = {
        ROW(1, chunks, sizeof chunks, error, sizeof error, 28, 11),
        ROW(0, chunks, sizeof chunks, error, 0, 12, 0), /* COOKIE ACK stops, and isn't reported */
        ROW(4, chunks, sizeof chunks, last, sizeof last, sizeof chunks, 11, 0x81, 0xc1, 0x41),
        ROW(5, chunks, sizeof chunks, error, 0, sizeof chunks, 11, 0x81, 0xc1, 0x41, 0xc2),
        ROW(0, chunks, 12, error, 0, 12, 0), ROW(0, chunks, 11, error, 0, 11, 0), ROW(0, NULL, 0, error, 0, 0, 0),
        ROW(1, chunks, 26, shorter, sizeof shorter, 26, 11), /* the last padding is cut */
    };
    for (size_t i = 0; i < sizeof of_parameters / sizeof *of_parameters; i++)
        check_parameters(&of_parameters[i], (int)i);
    for (size_t i = 0; i < sizeof of_chunks / sizeof *of_chunks; i++)
        check_report(&of_chunks[i], CHUNKS, (int)i);
    /* lengths of 0 to 3 behind one that is whole, and one whose padding is missing */
    for (uint8_t length = 0; length < 4; length++) {
        const uint8_t cut[] = {0xc0, 1, 0, 4, 0xc0, 2, 0, length};
        const struct report row = ROW(0, cut, sizeof cut, lone, sizeof lone, sizeof cut, 0);
        check_parameters(&row, __LINE__);
    }
    const uint8_t short_one[] = {0xc0, 1, 0, 5, 9};
    const struct report row = ROW(0, short_one, sizeof short_one, unpadded, sizeof unpadded, sizeof short_one, 0);
    check_parameters(&row, __LINE__);
#undef ROW
}

/* Addresses that an INIT adds (sections 5.2.2 and 3.3.10.11), of IPv4 and IPv6, among other parameters; those that are known. */
static void new_addresses(void)
{
#define V4(last) 0, 5, 0, 8, 10, 0, 0, last
#define V6(last) 0, 6, 0, 20, 0x20, 1, 0xd, 0xb8, 0, 0, 0, 0, 0, 0, 0, 0, 0, 0, 0, last
    static const uint8_t list[] = {V4(1), 0, 9, 0, 8, 0, 0, 0, 1, V6(1), V4(2), V6(2), 0, 5, 0, 7, 1, 2, 3, 0},
                         known[] = {0xc0, 0, 0, 4, V6(2), V4(1)}, cause[] = {0, 11, 0, 32, V6(1), V4(2)}, v6[] = {V6(2)};
#undef V4
#undef V6
    struct packet packet, before;
    memset(&packet, 0xa5, sizeof packet);
    CHECK(dcsctp_adds_addresses(list, sizeof list, known, sizeof known) && !dcsctp_adds_addresses(list, 8, known, sizeof known));
    CHECK(!dcsctp_adds_addresses(v6, sizeof v6, known, sizeof known) && dcsctp_adds_addresses(v6, sizeof v6, known, 4));
    CHECK(!dcsctp_adds_addresses(v6, sizeof v6 - 1, NULL, 0) && !dcsctp_adds_addresses(NULL, 0, NULL, 0));
    CHECK(dcsctp_begin(packet.bytes, ROOM, &packet.size, 5000, 5001, OWN) == DCSCTP_OK);
    CHECK(dcsctp_add_chunk(packet.bytes, ROOM, &packet.size, DCSCTP_CHUNK_ABORT, 0, NULL, 0) == DCSCTP_OK);
    before = packet;
    for (size_t room = 0; room < 16 + sizeof cause; room++)
        CHECK(dcsctp_add_new_addresses(packet.bytes, room, &packet.size, DCSCTP_FIRST_CHUNK, list, sizeof list, known, sizeof known)
              == (room < 16 ? DCSCTP_BAD_PLACE : DCSCTP_NO_ROOM) && !memcmp(&packet, &before, sizeof packet));
    CHECK(dcsctp_add_new_addresses(packet.bytes, 16 + sizeof cause, &packet.size, DCSCTP_FIRST_CHUNK, list, sizeof list, known,
                                   sizeof known) == DCSCTP_OK && packet.size == 16 + sizeof cause);
    CHECK(packet.bytes[15] == 4 + sizeof cause && !memcmp(packet.bytes + 16, cause, sizeof cause));
    CHECK(!memcmp(packet.bytes + packet.size, before.bytes + packet.size, ROOM - packet.size));
}

/* More than a packet can have: 65,532 bytes, of which 32 are the header and the INIT ACK. */
static void too_much(void)
{
    static uint8_t packet[70000], before[sizeof packet], list[4 * 8187 + 4];
    const struct dcsctp_init init = {.initiate_tag = OTHER, .a_rwnd = 1500, .outbound_streams = 1, .inbound_streams = 1};
    size_t size, end = 77;
    for (size_t at = 0; at < sizeof list; at += 4)
        list[at] = 0xc0, list[at + 3] = 4; /* each takes 8 bytes */
    CHECK(dcsctp_begin(packet, sizeof packet, &size, 5000, 5001, OWN) == DCSCTP_OK);
    CHECK(dcsctp_add_init_ack(packet, sizeof packet, &size, &init) == DCSCTP_OK && size == 32);
    memcpy(before, packet, sizeof packet);
    CHECK(dcsctp_add_unrecognized_parameters(packet, sizeof packet, &size, DCSCTP_FIRST_CHUNK, list, 4 * 8188, NULL, 0, &end)
          == DCSCTP_NO_ROOM);
    CHECK(size == 32 && end == 77 && !memcmp(packet, before, sizeof packet));
    CHECK(dcsctp_add_unrecognized_parameters(packet, sizeof packet, &size, DCSCTP_FIRST_CHUNK, list, 4 * 8187, NULL, 0, &end)
          == DCSCTP_OK);
    CHECK(size == 32 + 8 * 8187 && end == 4 * 8187 && packet[14] * 256u + packet[15] == 20 + 8 * 8187);
    /* a place that is none */
    CHECK(dcsctp_add_unrecognized_parameters(packet, sizeof packet, &size, 16, list, 4, NULL, 0, &end) == DCSCTP_BAD_PLACE);
    size = 13;
    CHECK(dcsctp_add_unrecognized_chunks(packet, sizeof packet, &size, before, 32, NULL, 0, &end) == DCSCTP_BAD_PLACE && size == 13);
}

int main(void)
{
    each_action();
    tags();
    out_of_the_blue();
    replies();
    initiations();
    refusals();
    init_aborts();
    reports();
    new_addresses();
    too_much();
    printf("receive: %u passed, %u failed\n", passed, failed);
    return failed != 0;
}
