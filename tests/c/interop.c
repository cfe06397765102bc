/* SPDX-License-Identifier: Apache-2.0 */
/* Two sockets of usrsctp, a real stack of SCTP, talk to each other in one process, with the library between them; or one calls
   examples/c/responder.c.

   usage: interop [SCENARIO ..] [--messages N] [--seed N] [--rows FILE]

   Each packet is checked as by a socket, read by every reader and compared with plain_reader.h, written anew from what was read,
   and dropped by examples/c/filter.c with a bit changed. Then noise goes into every bit that a receiver ignores, and the other
   side gets what the filter makes of that: it has to be what was sent. Each message has to arrive once, and in order.

   Where the responder is called, there are scenarios that lose, hold back, change or forget something on purpose, and look at
   what it answers: AUTH, a peer that begins anew, late cookies, unknown types, and packets out of the blue.

   usrsctp asks this program for the time and for random numbers: so a run depends on its seed alone, and waits for no timer.
   Only the nanoseconds that are printed differ. That takes the shared libusrsctp, whose calls of gettimeofday and read_random
   reach the functions here. */
#define _GNU_SOURCE
#include "../../examples/c/filter.c"
#include "../../examples/c/responder.c"
#include "plain_reader.h"
#include <dcsctp.h>
#include <errno.h>
#include <stdio.h>
#include <stdlib.h>
#include <string.h>
#include <sys/time.h>
#include <time.h>
#include <usrsctp.h>

enum { MOST = 65536, STREAMS = 16, MORE_STREAMS = 64, LARGEST = 20000, STEP = 5 /* of the clock, in milliseconds */ };
enum { INTERLEAVING_SUPPORTED = 0x1206 }; /* usrsctp's SCTP_INTERLEAVING_SUPPORTED, which its header leaves out */
enum { KEY_IDENTIFIER = 7 };              /* of the endpoint pair shared key, where there is one */

/* ---- scenarios: those that are short run where none is named */

struct scenario {
    const char *name;
    bool is_short, is_interleaved; /* is_interleaved: I-DATA in place of DATA (RFC 8260) */
    bool abandons, changes;        /* messages are given up (RFC 3758); streams are reset and added (RFC 6525) */
    bool aborts;                   /* the end is ABORT in place of SHUTDOWN */
    bool is_answered;              /* the second side is the responder, which sends no messages */
    unsigned lost, late;           /* packets of a hundred */
    bool is_authenticated;         /* chunks come after AUTH (RFC 4895), with SHA-1: Debian's usrsctp has no other HMAC */
    const char *key, *wrong_key;   /* the endpoint pair shared key; what the responder takes for it */
    bool lists_cookies;            /* COOKIE ECHO comes after AUTH too */
    void (*run)(void);             /* what is done with an association, in place of messages and its end */
};

static void run_wrong_key(void);
static void run_restart(void);
static void run_cookies(void);
static void run_shutting_down(void);
static void run_stale(void);
static void run_unknown(void);
static void run_forgotten(void);
static void run_wrong_cookie(void);
static void run_addresses(void);
static void run_collision(void);
static void run_calls(void);

/* Not here, since usrsctp itself stops now and then: I-DATA with loss and partial reliability, and SCTP_RESET_ASSOC; nor calls of both
   ends at once with AUTH: usrsctp's INIT ACK then has another RANDOM than its INIT, against section 5.2.1. */
static const struct scenario scenarios[] = {
    {.name = "plain", .is_short = true},
    {.name = "lossy", .is_short = true, .lost = 5, .late = 10},
    {.name = "i-data", .is_interleaved = true},
    {.name = "i-data-lossy", .is_interleaved = true, .lost = 5, .late = 10},
    {.name = "partial", .abandons = true, .lost = 5, .late = 10},
    {.name = "streams", .changes = true},
    {.name = "i-data-streams", .is_short = true, .is_interleaved = true, .changes = true},
    {.name = "abort", .aborts = true},
    {.name = "responder", .is_short = true, .is_answered = true},
    {.name = "responder-lossy", .is_short = true, .is_answered = true, .lost = 5, .late = 10},
    {.name = "responder-partial", .is_answered = true, .abandons = true, .lost = 5, .late = 10},
    {.name = "responder-streams", .is_short = true, .is_answered = true, .is_interleaved = true, .changes = true},
    {.name = "responder-abort", .is_answered = true, .aborts = true},
    {.name = "responder-auth", .is_short = true, .is_answered = true, .lost = 5, .late = 10, .is_authenticated = true},
    {.name = "responder-key", .is_short = true, .is_answered = true, .changes = true, .is_authenticated = true, .key = "a key"},
    {.name = "responder-wrong-key", .is_short = true, .is_answered = true, .is_authenticated = true, .key = "a key",
     .wrong_key = "another", .run = run_wrong_key},
    {.name = "responder-restart", .is_short = true, .is_answered = true, .run = run_restart},
    {.name = "responder-auth-restart", .is_short = true, .is_answered = true, .is_authenticated = true, .run = run_restart},
    {.name = "responder-cookies", .is_short = true, .is_answered = true, .run = run_cookies},
    {.name = "responder-shutting-down", .is_short = true, .is_answered = true, .run = run_shutting_down},
    {.name = "responder-stale", .is_short = true, .is_answered = true, .run = run_stale},
    {.name = "responder-unknown", .is_short = true, .is_answered = true, .run = run_unknown},
    {.name = "responder-forgotten", .is_short = true, .is_answered = true, .run = run_forgotten},
    {.name = "responder-auth-forgotten", .is_short = true, .is_answered = true, .is_authenticated = true, .run = run_forgotten},
    {.name = "responder-auth-cookies", .is_short = true, .is_answered = true, .lost = 5, .late = 10, .is_authenticated = true,
     .lists_cookies = true},
    {.name = "responder-wrong-cookie", .is_short = true, .is_answered = true, .is_authenticated = true, .lists_cookies = true,
     .key = "a key", .wrong_key = "another", .run = run_wrong_cookie},
    {.name = "responder-addresses", .is_short = true, .is_answered = true, .run = run_addresses},
    {.name = "responder-collision", .is_short = true, .is_answered = true, .run = run_collision},
    {.name = "responder-calls", .is_short = true, .is_answered = true, .run = run_calls},
};
enum { SCENARIOS = sizeof scenarios / sizeof *scenarios };

static const struct scenario *scenario = &scenarios[0];
static FILE *rows;   /* what passes at the responder is written there, with short messages */
static uint64_t now; /* the clock, in milliseconds */

/* What passed in the scenario. */
static struct {
    unsigned packets, chunks, lost, noisy, blocks, kinds[256];
    double filtering; /* nanoseconds */
} tally;

/* ---- failing */

static const uint8_t *checked; /* last */
static size_t checked_length;

_Noreturn static void fail(const char *condition, int line)
{
    fprintf(stderr, "tests/c/interop.c:%d: %s: fails at %llu ms: %s\n", line, scenario->name, (unsigned long long)now, condition);
    for (size_t i = 0; i < checked_length; i++)
        fprintf(stderr, "%s%02x", i ? "" : "last packet: ", checked[i]);
    fputc('\n', stderr);
    fflush(NULL);
    _Exit(1);
}

#define REQUIRE(condition) ((condition) ? (void)0 : fail(#condition, __LINE__))

/* ---- random numbers: xorshift64* */

static uint64_t state = 1;

static uint64_t draw(uint64_t *from)
{
    *from ^= *from >> 12;
    *from ^= *from << 25;
    *from ^= *from >> 27;
    return *from * 0x2545f4914f6cdd1d;
}

static size_t below(size_t limit)
{
    return (size_t)((draw(&state) >> 32) % limit);
}

static void fill(uint8_t *bytes, size_t size, uint64_t *from)
{
    for (size_t i = 0; i < size; i++)
        bytes[i] = (uint8_t)(draw(from) >> 56);
}

/* ---- the library: all that is used of it but by the responder, with what each number has to be by the RFC */

static const struct dcsctp_policy as_a_socket = {.any_checksum = false, .zero_checksum = false, .strict_padding = false};
enum { ACCEPTED = DCSCTP_OK, WRONG_CHECKSUM = DCSCTP_FAULT_CHECKSUM };

static void check(const uint8_t *bytes, size_t length, uint32_t fault, size_t offset)
{
    size_t found = 0;
    uint32_t word = dcsctp_word(bytes, length);
    checked = bytes;
    checked_length = length;
    REQUIRE(dcsctp_check(bytes, length, word, &as_a_socket) == fault);
    REQUIRE(dcsctp_first_fault(bytes, length, word, &as_a_socket, &found) == fault && found == offset);
}

static void compare_data(const uint8_t *bytes, size_t length, const struct dcsctp_chunk *chunk)
{
    const uint8_t *value = bytes + chunk->value_offset;
    bool is_data = chunk->type == PLAIN_DATA, is_i_data = chunk->type == PLAIN_I_DATA, is_first = chunk->flags & 2;
    size_t numbers = plain_kinds[chunk->type].numbers;
    struct dcsctp_data data;
    REQUIRE(dcsctp_data(bytes, length, chunk, &data) == (is_data || is_i_data));
    if (!is_data && !is_i_data)
        return;
    REQUIRE((data.is_end | data.is_beginning << 1 | data.is_unordered << 2 | data.immediate_ack << 3) == (chunk->flags & 15));
    REQUIRE(data.payload_offset == chunk->value_offset + numbers && data.payload_size == chunk->value_size - numbers);
    REQUIRE(is_i_data || plain_are(value, "4224", data.tsn, data.stream, data.ssn, data.ppid));
    REQUIRE(is_data || (plain_are(value, "42", data.tsn, data.stream)
                        && plain_are(value + 8, "44", data.mid, is_first ? data.ppid : data.fsn)));
    REQUIRE(is_data ? !data.mid && !data.fsn : !data.ssn && !(is_first ? data.fsn : data.ppid));
}

static void compare_sack(const uint8_t *bytes, size_t length, const struct dcsctp_chunk *chunk)
{
    const uint8_t *list = bytes + chunk->value_offset + 12;
    struct dcsctp_sack sack = {0};
    struct dcsctp_gap_ack_block block = {0};
    uint32_t tsn, last = 0, blocks = 0, duplicates = 0;
    bool is_sack = chunk->type == PLAIN_SACK, has_gaps = is_sack;
    REQUIRE(dcsctp_sack(bytes, length, chunk, &sack) == is_sack);
    for (; dcsctp_gap_ack_block(bytes, length, chunk, blocks, &block); blocks++, list += 4) {
        REQUIRE(plain_are(list, "22", block.start, block.end));
        has_gaps = has_gaps && block.start >= last + 2 && block.start <= block.end;
        last = block.end;
    }
    for (; dcsctp_duplicate_tsn(bytes, length, chunk, duplicates, &tsn); duplicates++, list += 4)
        REQUIRE(plain_are(list, "4", tsn));
    REQUIRE(dcsctp_validate_sack(bytes, length, chunk) == has_gaps);
    REQUIRE(sack.block_count == blocks && sack.duplicate_count == duplicates);
    REQUIRE(!is_sack || plain_are(bytes + chunk->value_offset, "4422", sack.cumulative_tsn_ack, sack.a_rwnd, blocks, duplicates));
    tally.blocks += blocks;
}

static void compare_init(const uint8_t *bytes, size_t length, const struct dcsctp_chunk *chunk)
{
    bool is_init = chunk->type == PLAIN_INIT || chunk->type == PLAIN_INIT_ACK;
    struct dcsctp_init init;
    REQUIRE(dcsctp_init(bytes, length, chunk, &init) == is_init);
    REQUIRE(!is_init || plain_are(bytes + chunk->value_offset, "44224", init.initiate_tag, init.a_rwnd, init.outbound_streams,
                                  init.inbound_streams, init.initial_tsn));
}

static void compare_tsns(const uint8_t *bytes, size_t length, const struct dcsctp_chunk *chunk)
{
    const uint8_t *value = bytes + chunk->value_offset, *at = value + 4;
    bool by_mid = chunk->type == PLAIN_I_FORWARD_TSN, is_forward = by_mid || chunk->type == PLAIN_FORWARD_TSN;
    struct dcsctp_forward_tsn forward = {0};
    struct dcsctp_skipped_stream stream;
    uint32_t tsn;
    size_t count = 0;
    REQUIRE(dcsctp_shutdown(bytes, length, chunk, &tsn) == (chunk->type == PLAIN_SHUTDOWN));
    REQUIRE(chunk->type != PLAIN_SHUTDOWN || plain_are(value, "4", tsn));
    REQUIRE(dcsctp_forward_tsn(bytes, length, chunk, &forward) == is_forward);
    for (; dcsctp_skipped_stream(bytes, length, chunk, count, &stream); count++, at += by_mid ? 8 : 4) {
        REQUIRE(plain_are(at, "2", stream.stream) && stream.is_unordered == (by_mid && (at[3] & 1)));
        REQUIRE(by_mid ? plain_are(at + 4, "4", stream.mid) && !stream.ssn : plain_are(at + 2, "2", stream.ssn) && !stream.mid);
    }
    REQUIRE(count == forward.stream_count);
    REQUIRE(!is_forward || (plain_are(value, "4", forward.new_cumulative_tsn) && at == value + chunk->value_size));
}

/* A parameter of RFC 6525 section 4. */
static void compare_re_config(const uint8_t *bytes, size_t length, const struct dcsctp_parameter *parameter)
{
    const uint8_t *value = bytes + parameter->value_offset, *list = value + parameter->value_size;
    const uint32_t type = parameter->type;
    struct dcsctp_re_config it;
    uint16_t stream;
    size_t count = 0;
    bool is_outgoing = type == 13, is_response = type == 16, adds = type == 17 || type == 18;
    bool has_next = is_response && parameter->value_size == 16;
    REQUIRE(dcsctp_re_config(bytes, length, parameter, &it) == (type >= 13 && type <= 18));
    if (type >= 13 && type <= 18) {
        REQUIRE(it.type == type && (is_response ? it.request_number == 0 && plain_are(value, "44", it.response_number, it.result)
                                                : plain_are(value, "4", it.request_number) && it.result == 0));
        REQUIRE(is_outgoing ? plain_are(value + 4, "44", it.response_number, it.last_tsn) : it.last_tsn == 0);
        REQUIRE(it.has_next_tsns == has_next && (adds ? plain_are(value + 4, "2", it.new_streams) : it.new_streams == 0));
        REQUIRE(has_next ? plain_are(value + 8, "44", it.sender_next_tsn, it.receiver_next_tsn)
                         : !it.sender_next_tsn && !it.receiver_next_tsn);
        REQUIRE(is_response || is_outgoing || it.response_number == 0);
        list = is_outgoing ? value + 12 : type == 14 ? value + 4 : list;
    }
    for (; dcsctp_reset_stream(bytes, length, parameter, count, &stream); count++, list += 2)
        REQUIRE(plain_are(list, "2", stream));
    REQUIRE(list == value + parameter->value_size && ((type < 13 || type > 18) || it.stream_count == count));
}

/* The parameters or error causes of a chunk, if it has any. */
static void compare_list(const uint8_t *bytes, size_t length, const struct dcsctp_chunk *chunk)
{
    const struct plain_kind *kind = &plain_kinds[chunk->type];
    bool has_list = kind->rest >= PLAIN_PARAMETERS;
    size_t end = chunk->value_offset + chunk->value_size, at = has_list ? chunk->value_offset + kind->numbers : end;
    struct plain_item item;
    struct dcsctp_parameter it;
    uint32_t number;
    uint16_t type;
    REQUIRE(dcsctp_list_offset(chunk) == at);
    for (; plain_item_at(bytes, at, end, &item); at = item.next) {
        uint32_t missing = 0, missing_wanted = item.type == 2 ? plain_u32(bytes + item.value) : 0;
        REQUIRE(dcsctp_parameter_at(bytes, length, chunk, at, &it) && it.type == item.type && it.next == item.next);
        REQUIRE(it.value_offset == item.value && it.value_size == item.size);
        REQUIRE(dcsctp_number(bytes, length, &it, &number) == (item.size == 4));
        REQUIRE(item.size != 4 || plain_are(bytes + item.value, "4", number));
        if (kind->rest == PLAIN_PARAMETERS)
            compare_re_config(bytes, length, &it);
        for (; dcsctp_missing_parameter(bytes, length, &it, missing, &type); missing++)
            REQUIRE(plain_are(bytes + item.value + 4 + 2 * missing, "2", type));
        REQUIRE(kind->rest != PLAIN_CAUSES || missing == missing_wanted);
    }
    REQUIRE(at == end && !dcsctp_parameter_at(bytes, length, chunk, at, &it));
}

/* Reads a packet by every reader; its text has a line for the header, and one for each chunk. */
static void compare_readings(const uint8_t *bytes, size_t length)
{
    static uint8_t text[MOST];
    struct dcsctp_header header;
    struct dcsctp_chunk chunk;
    struct plain_item item;
    size_t at = PLAIN_HEADER, size = 0, lines = 1;
    REQUIRE(dcsctp_header(bytes, length, &header));
    REQUIRE(plain_are(bytes, "2244", header.source_port, header.destination_port, header.verification_tag, header.checksum));
    for (; plain_chunk_at(bytes, at, length, &item); at = item.next, lines++) {
        REQUIRE(dcsctp_chunk_at(bytes, length, at, &chunk));
        REQUIRE(chunk.type == item.type && chunk.flags == item.flags && chunk.next == item.next);
        REQUIRE(chunk.value_offset == item.value && chunk.value_size == item.size);
        compare_data(bytes, length, &chunk);
        compare_sack(bytes, length, &chunk);
        compare_init(bytes, length, &chunk);
        compare_tsns(bytes, length, &chunk);
        compare_list(bytes, length, &chunk);
    }
    REQUIRE(at == length && !dcsctp_chunk_at(bytes, length, at, &chunk));
    REQUIRE(dcsctp_print(bytes, length, dcsctp_word(bytes, length), &as_a_socket, text, sizeof text, &size) == ACCEPTED);
    for (size_t i = 0; i < size; i++)
        lines -= text[i] == '\n';
    REQUIRE(lines == 1);
}

static void seal(uint8_t *bytes, size_t length)
{
    REQUIRE(dcsctp_seal(bytes, length) == DCSCTP_OK);
}

#define TO_COPY copy, MOST, &size

/* Adds to the chunk that begins at `start` what is read of a list. */
static size_t add_list(const uint8_t *bytes, size_t length, const struct dcsctp_chunk *chunk, uint8_t *copy, size_t size,
                       size_t start)
{
    static uint16_t list[MOST / 2];
    const bool has_causes = plain_kinds[chunk->type].rest == PLAIN_CAUSES;
    struct dcsctp_parameter it;
    struct dcsctp_re_config re_config;
    uint32_t number, code;
    for (size_t at = dcsctp_list_offset(chunk); dcsctp_parameter_at(bytes, length, chunk, at, &it); at = it.next) {
        size_t count = 0;
        if (!has_causes && dcsctp_re_config(bytes, length, &it, &re_config)) {
            while (dcsctp_reset_stream(bytes, length, &it, count, &list[count]))
                count++;
            code = dcsctp_add_re_config(TO_COPY, start, &re_config, list, count);
        } else if (has_causes && it.type == DCSCTP_CAUSE_MISSING_MANDATORY_PARAMETER) {
            while (dcsctp_missing_parameter(bytes, length, &it, count, &list[count]))
                count++;
            code = dcsctp_add_missing_parameters(TO_COPY, start, list, count);
        } else if (dcsctp_number(bytes, length, &it, &number)) {
            code = dcsctp_add_number(TO_COPY, start, it.type, number);
        } else {
            code = dcsctp_add_parameter(TO_COPY, start, it.type, bytes + it.value_offset, it.value_size);
        }
        REQUIRE(code == DCSCTP_OK);
    }
    return size;
}

/* Adds what is read of a chunk, by the call for its kind, if there is one; returns the new size. */
static size_t add_read(const uint8_t *bytes, size_t length, const struct dcsctp_chunk *chunk, uint8_t *copy, size_t size)
{
    static struct dcsctp_gap_ack_block blocks[MOST / 4];
    static struct dcsctp_skipped_stream streams[MOST / 4];
    static uint32_t duplicates[MOST / 4];
    const uint8_t *value = bytes + chunk->value_offset;
    const uint8_t type = chunk->type;
    const size_t start = size;
    struct dcsctp_data data;
    struct dcsctp_sack sack;
    struct dcsctp_init init;
    struct dcsctp_forward_tsn forward;
    struct dcsctp_parameter info;
    uint32_t tsn, code;
    bool is_reflected = chunk->flags & DCSCTP_TAG_REFLECTED, has_more = false; /* of its list */
    if (dcsctp_data(bytes, length, chunk, &data)) {
        uint32_t (*add)(uint8_t *, size_t, size_t *, const struct dcsctp_data *, const uint8_t *, size_t) =
            type == DCSCTP_CHUNK_DATA ? dcsctp_add_data : dcsctp_add_i_data;
        code = add(TO_COPY, &data, bytes + data.payload_offset, data.payload_size);
    } else if (dcsctp_sack(bytes, length, chunk, &sack)) {
        for (size_t i = 0; i < sack.block_count; i++)
            REQUIRE(dcsctp_gap_ack_block(bytes, length, chunk, i, &blocks[i]));
        for (size_t i = 0; i < sack.duplicate_count; i++)
            REQUIRE(dcsctp_duplicate_tsn(bytes, length, chunk, i, &duplicates[i]));
        code = dcsctp_add_sack(TO_COPY, sack.cumulative_tsn_ack, sack.a_rwnd, blocks, sack.block_count, duplicates,
                               sack.duplicate_count);
    } else if (dcsctp_init(bytes, length, chunk, &init)) {
        code = (type == DCSCTP_CHUNK_INIT ? dcsctp_add_init : dcsctp_add_init_ack)(TO_COPY, &init);
        has_more = true;
    } else if (dcsctp_forward_tsn(bytes, length, chunk, &forward)) {
        for (size_t i = 0; i < forward.stream_count; i++)
            REQUIRE(dcsctp_skipped_stream(bytes, length, chunk, i, &streams[i]));
        code = (type == DCSCTP_CHUNK_FORWARD_TSN ? dcsctp_add_forward_tsn : dcsctp_add_i_forward_tsn)(
            TO_COPY, forward.new_cumulative_tsn, streams, forward.stream_count);
    } else if (dcsctp_shutdown(bytes, length, chunk, &tsn)) {
        code = dcsctp_add_shutdown(TO_COPY, tsn);
    } else if ((type == DCSCTP_CHUNK_HEARTBEAT || type == DCSCTP_CHUNK_HEARTBEAT_ACK)
               && dcsctp_parameter_at(bytes, length, chunk, dcsctp_list_offset(chunk), &info)
               && info.type == DCSCTP_PARAMETER_HEARTBEAT_INFO) {
        code = dcsctp_add_heartbeat(TO_COPY, type == DCSCTP_CHUNK_HEARTBEAT_ACK, bytes + info.value_offset, info.value_size);
    } else if (type == DCSCTP_CHUNK_COOKIE_ECHO) {
        code = dcsctp_add_cookie_echo(TO_COPY, value, chunk->value_size);
    } else if (type == DCSCTP_CHUNK_COOKIE_ACK) {
        code = dcsctp_add_cookie_ack(TO_COPY);
    } else if (type == DCSCTP_CHUNK_SHUTDOWN_ACK) {
        code = dcsctp_add_shutdown_ack(TO_COPY);
    } else if (type == DCSCTP_CHUNK_SHUTDOWN_COMPLETE) {
        code = dcsctp_add_shutdown_complete(TO_COPY, is_reflected);
    } else {
        has_more = plain_kinds[type].rest != PLAIN_UNKNOWN;
        code = dcsctp_add_chunk(TO_COPY, type, chunk->flags, value, has_more ? 0 : chunk->value_size);
    }
    REQUIRE(code == DCSCTP_OK);
    return has_more ? add_list(bytes, length, chunk, copy, size, start) : size;
}

/* Writes a packet anew from what is read of it: the same bytes, since usrsctp and the responder write zeros where nothing is. */
static void write_anew(const uint8_t *bytes, size_t length)
{
    static uint8_t copy[MOST];
    struct dcsctp_header header;
    struct dcsctp_chunk chunk;
    size_t size = 0;
    REQUIRE(dcsctp_header(bytes, length, &header));
    REQUIRE(dcsctp_begin(TO_COPY, header.source_port, header.destination_port, header.verification_tag) == DCSCTP_OK);
    for (size_t at = PLAIN_HEADER; dcsctp_chunk_at(bytes, length, at, &chunk); at = chunk.next)
        size = add_read(bytes, length, &chunk, copy, size);
    seal(copy, size);
    REQUIRE(size == length && !memcmp(copy, bytes, length));
}

/* Filters a packet, and adds up the time that it takes. */
static size_t filtered(const uint8_t *bytes, size_t length, uint8_t *output)
{
    struct timespec begin, end;
    clock_gettime(CLOCK_PROCESS_CPUTIME_ID, &begin);
    size_t size = filter(bytes, length, &as_a_socket, output, MOST);
    clock_gettime(CLOCK_PROCESS_CPUTIME_ID, &end);
    tally.filtering += (double)(end.tv_sec - begin.tv_sec) * 1e9 + (double)(end.tv_nsec - begin.tv_nsec);
    return size;
}

/* A packet with AUTH arrives as it came, with bits that a receiver ignores; where it has room. */
static void check_authenticated(void)
{
    static const uint8_t auth[] = {0, 0, 0, 1, 1, 2, 3, 4}, data[] = {0, 0, 0, 1, 0, 2, 0, 3, 0, 0, 0, 51, 'a', 'b', 'c', 'd'};
    uint8_t packet[100], passed[100];
    size_t size;
    REQUIRE(dcsctp_begin(packet, sizeof packet, &size, 1, 2, 3) == DCSCTP_OK);
    REQUIRE(dcsctp_add_chunk(packet, sizeof packet, &size, DCSCTP_CHUNK_AUTH, 0, auth, sizeof auth) == DCSCTP_OK);
    REQUIRE(dcsctp_add_chunk(packet, sizeof packet, &size, DCSCTP_CHUNK_DATA, 0xf3, data, sizeof data) == DCSCTP_OK);
    seal(packet, size);
    REQUIRE(filter(packet, size, &as_a_socket, passed, sizeof passed) == size && !memcmp(passed, packet, size));
    REQUIRE(filter(packet, size, &as_a_socket, passed, size - 1) == 0);
    packet[8] ^= 1;
    REQUIRE(filter(packet, size, &as_a_socket, passed, sizeof passed) == 0);
}

/* ---- between the sides */

/* Takes a packet that was sent, and writes the one that the other side gets; returns its size. */
static size_t pass(const uint8_t *sent, size_t length, uint8_t *passed)
{
    static uint8_t changed[MOST], ignored[MOST], noise[MOST];
    struct plain_item chunk;
    check(sent, length, ACCEPTED, length);
    memset(ignored, 0, length);
    memset(noise, 0, length);
    for (size_t at = PLAIN_HEADER; plain_chunk_at(sent, at, length, &chunk); at = chunk.next) {
        tally.kinds[chunk.type]++;
        tally.chunks++;
        REQUIRE(plain_ignored(sent, &chunk, ignored));
    }
    tally.packets++;
    compare_readings(sent, length);
    write_anew(sent, length);

    memcpy(changed, sent, length);
    changed[below(length)] ^= (uint8_t)(1 << below(8));
    check(changed, length, WRONG_CHECKSUM, 8);
    REQUIRE(filtered(changed, length, passed) == 0);

    fill(noise, is_authenticated(sent, length) ? 0 : length, &state); /* an HMAC covers ignored bits too */
    for (size_t i = 0; i < length; i++)
        changed[i] = sent[i] ^ (noise[i] & ignored[i]);
    seal(changed, length);
    tally.noisy += memcmp(changed, sent, length) != 0;
    check(changed, length, ACCEPTED, length);
    compare_readings(changed, length);
    size_t size = filtered(changed, length, passed);
    REQUIRE(size == length && !memcmp(passed, sent, length));
    return size;
}

/* ---- what usrsctp asks for: the time, and random numbers */

int gettimeofday(struct timeval *restrict time, void *restrict zone)
{
    (void)zone;
    *time = (struct timeval){.tv_sec = (time_t)(1000000000 + now / 1000), .tv_usec = (suseconds_t)(now % 1000 * 1000)};
    return 0;
}

void read_random(void *buffer, size_t size);

void read_random(void *buffer, size_t size)
{
    fill(buffer, size, &state);
}

/* ---- two sides, and the packets under way */

struct message {
    uint64_t seed; /* of its bytes */
    size_t size;
    uint16_t stream;
    bool is_unordered, may_be_lost, has_come;
};

static struct side {
    struct socket *listener, *socket;
    struct message *messages;                /* that it sends */
    size_t planned, sent, received, awaited; /* awaited: of those that may not be lost */
    uint32_t next[MORE_STREAMS];             /* the least index that may come next on a stream */
    unsigned streams, changes;               /* streams to send on; how often it heard that streams changed */
} sides[2];

static struct side *other(const struct side *side)
{
    return side == &sides[0] ? &sides[1] : &sides[0];
}

/* What usrsctp knows a side by: it is in its HEARTBEATs, so it has to be the same in each run. */
static void *name_of(const struct side *side)
{
    return (void *)(uintptr_t)(1 + (side - sides));
}

static struct packet {
    struct packet *next;
    uint64_t due;
    struct side *to;
    size_t size;
    uint8_t bytes[];
} *under_way; /* by the time when they are due */

/* usrsctp calls this with locks held: so the packet waits until the clock goes on. */
static int send_packet(void *from, void *bytes, size_t length, uint8_t tos, uint8_t set_df)
{
    static uint8_t passed[MOST];
    size_t size = pass(bytes, length, passed);
    struct packet **place = &under_way, *packet;
    (void)tos, (void)set_df;
    if (below(100) < scenario->lost) {
        tally.lost++;
        return 0;
    }
    packet = malloc(sizeof *packet + size);
    REQUIRE(packet);
    *packet = (struct packet){.to = &sides[from == name_of(&sides[0])], .size = size};
    packet->due = now + 10 + (below(100) < scenario->late ? below(60) : 0);
    memcpy(packet->bytes, passed, size);
    while (*place && (*place)->due <= packet->due)
        place = &(*place)->next;
    packet->next = *place;
    *place = packet;
    return 0;
}

/* ---- messages: the PPID is the index */

static void plan_messages(struct side *side, size_t count)
{
    for (; count > 0; count--) {
        struct message *message = &side->messages[side->planned++];
        size_t limit = rows ? 40 : below(10) < 7 ? 300 : below(3) ? 3000 : LARGEST;
        *message = (struct message){.seed = draw(&state) | 1, .size = 1 + below(limit)};
        message->stream = (uint16_t)below(side->streams);
        message->is_unordered = below(5) == 0;
        message->may_be_lost = scenario->abandons && below(4);
        side->awaited += !message->may_be_lost;
    }
}

static void send_messages(struct side *side)
{
    static uint8_t bytes[LARGEST];
    for (; side->sent < side->planned; side->sent++) {
        const struct message *message = &side->messages[side->sent];
        uint64_t seed = message->seed;
        struct sctp_sendv_spa how = {.sendv_flags = SCTP_SEND_SNDINFO_VALID | SCTP_SEND_PRINFO_VALID,
            .sendv_sndinfo = {.snd_sid = message->stream, .snd_ppid = htonl((uint32_t)side->sent)}};
        how.sendv_sndinfo.snd_flags = message->is_unordered ? SCTP_UNORDERED | SCTP_SACK_IMMEDIATELY : 0; /* some with the I bit */
        /* given up where it would have to be sent a second time */
        how.sendv_prinfo.pr_policy = message->may_be_lost ? SCTP_PR_SCTP_RTX : SCTP_PR_SCTP_NONE;
        fill(bytes, message->size, &seed);
        if (usrsctp_sendv(side->socket, bytes, message->size, NULL, 0, &how, sizeof how, SCTP_SENDV_SPA, 0) < 0) {
            REQUIRE(errno == EWOULDBLOCK);
            return;
        }
    }
}

static void take_message(struct side *side, const uint8_t *bytes, size_t size, const struct sctp_rcvinfo *info)
{
    static uint8_t wanted[LARGEST];
    struct side *from = other(side);
    uint32_t index = ntohl(info->rcv_ppid);
    REQUIRE(index < from->sent);
    struct message *message = &from->messages[index];
    uint64_t seed = message->seed;
    REQUIRE(!message->has_come && size == message->size && info->rcv_sid == message->stream);
    REQUIRE(!(info->rcv_flags & SCTP_UNORDERED) == !message->is_unordered);
    fill(wanted, size, &seed);
    REQUIRE(!memcmp(bytes, wanted, size));
    if (!message->is_unordered) {
        REQUIRE(index >= side->next[message->stream]);
        side->next[message->stream] = index + 1;
    }
    message->has_come = true;
    side->received++;
    from->awaited -= !message->may_be_lost;
}

/* ---- the responder in place of the second side: its TSNs in order, and the messages on their streams */

static struct responder responder;

/* The chunks that came, by TSN, and how many of them were looked at; what there is of a message on each stream. */
static struct part {
    struct dcsctp_data data;
    uint8_t *payload;
} *parts;
static size_t part_room, part_count;
static struct partial {
    uint8_t bytes[LARGEST];
    size_t size;
    uint32_t ppid, next_fsn, next_tsn;
    bool is_whole;
} partials[MORE_STREAMS];

static uint32_t first_tsn(void)
{
    return responder.association.peer_initial_tsn;
}

static void keep_part(void *user, const struct dcsctp_data *data, const uint8_t *payload)
{
    const size_t index = data->tsn - first_tsn();
    (void)user;
    REQUIRE(index < part_room && !parts[index].payload);
    parts[index] = (struct part){*data, malloc(data->payload_size)};
    REQUIRE(parts[index].payload);
    memcpy(parts[index].payload, payload, data->payload_size);
}

/* Takes the messages up to the cumulative TSN. Where TSNs were skipped, a message isn't whole. */
static void take_parts(struct side *side)
{
    for (; part_count != responder.cumulative_tsn + 1 - first_tsn(); part_count++) {
        struct part *part = &parts[part_count];
        const struct dcsctp_data *data = &part->data;
        if (!part->payload)
            continue;
        REQUIRE(data->stream < MORE_STREAMS);
        struct partial *message = &partials[data->stream];
        bool is_next = scenario->is_interleaved ? data->fsn == message->next_fsn : data->tsn == message->next_tsn;
        message->is_whole = data->is_beginning || (message->is_whole && is_next);
        if (data->is_beginning)
            message->size = message->next_fsn = 0, message->ppid = data->ppid;
        message->next_fsn++;
        message->next_tsn = data->tsn + 1;
        if (message->is_whole) {
            REQUIRE(message->size + data->payload_size <= LARGEST);
            memcpy(message->bytes + message->size, part->payload, data->payload_size);
            message->size += data->payload_size;
        }
        if (message->is_whole && data->is_end) {
            const struct sctp_rcvinfo info = {.rcv_sid = data->stream, .rcv_ppid = htonl(message->ppid),
                                              .rcv_flags = data->is_unordered ? SCTP_UNORDERED : 0};
            take_message(side, message->bytes, message->size, &info);
            message->is_whole = false;
        }
        free(part->payload);
        part->payload = NULL;
    }
}

/* ---- what passes at the responder, as rows for those in other languages (bindings/rust/examples/responder.txt) */

static uint8_t answer_given[1400]; /* the responder's last one */
static size_t answer_size;

static void write_bytes(const uint8_t *bytes, size_t size)
{
    fputc(' ', rows);
    for (size_t i = 0; i < size; i++)
        fprintf(rows, "%02x", bytes[i]);
    fputs(size ? "" : "-", rows);
}

static void write_next(void)
{
    if (rows) {
        fprintf(rows, "next %08x %08x", responder.own.initiate_tag, responder.own.initial_tsn);
        write_bytes(responder.random, scenario->is_authenticated ? sizeof responder.random : 0);
        write_bytes(responder.tie_tags, sizeof responder.tie_tags);
        fputc('\n', rows);
    }
}

static void write_new(void)
{
    if (rows) {
        fprintf(rows, "# %s\nnew %u", scenario->name, responder.pair_key_identifier);
        write_bytes(responder.pair_key.at, responder.pair_key.size);
        write_bytes(responder.listed.at, responder.listed.size);
        write_bytes(responder.key, sizeof responder.key);
        fputc('\n', rows);
        write_next();
    }
}

static void write_word(const char *word)
{
    if (rows)
        fprintf(rows, "%s\n", word);
}

static void write_row(const uint8_t *bytes, size_t length)
{
    if (rows) {
        fprintf(rows, "%llu", (unsigned long long)now * 1000);
        write_bytes(bytes, length);
        write_bytes(answer_given, answer_size);
        fputc('\n', rows);
    }
}

/* ---- the beginning and the end of the responder */

static const uint8_t authenticated[] = {PLAIN_DATA, PLAIN_SACK, PLAIN_HEARTBEAT, PLAIN_HEARTBEAT_ACK, PLAIN_ABORT,
    PLAIN_SHUTDOWN, PLAIN_SHUTDOWN_ACK, PLAIN_ERROR, PLAIN_RE_CONFIG, PLAIN_COOKIE_ACK, PLAIN_COOKIE_ECHO};

/* How many of these are listed. */
static size_t listed_count(void)
{
    return sizeof authenticated - !scenario->lists_cookies;
}

/* Draws what the responder's next association has. */
static void draw_next(void)
{
    responder.own.initiate_tag = (uint32_t)draw(&state) | 1;
    responder.own.initial_tsn = (uint32_t)draw(&state);
    fill(responder.tie_tags, sizeof responder.tie_tags, &state);
    if (scenario->is_authenticated)
        fill(responder.random, sizeof responder.random, &state);
}

static void begin_responder(size_t messages)
{
    const char *key = scenario->wrong_key ? scenario->wrong_key : scenario->key;
    responder = (struct responder){.take_data = keep_part};
    responder.own = (struct dcsctp_init){.a_rwnd = 1 << 20, .outbound_streams = 1, .inbound_streams = MORE_STREAMS};
    draw_next();
    for (size_t i = 0; i < sizeof responder.key; i++)
        responder.key[i] = (uint8_t)draw(&state);
    if (scenario->is_authenticated)
        responder.listed = (struct bytes){authenticated, listed_count()};
    if (key) {
        responder.pair_key = (struct bytes){(const uint8_t *)key, strlen(key)};
        responder.pair_key_identifier = KEY_IDENTIFIER;
    }
    write_new();
    part_room = messages * (2 + LARGEST / 400);
    part_count = 0;
    parts = calloc(part_room, sizeof *parts);
    REQUIRE(parts);
}

static void forget_parts(void)
{
    for (size_t i = 0; i < part_room; i++) {
        free(parts[i].payload);
        parts[i].payload = NULL;
    }
    part_count = 0;
}

static void end_responder(void)
{
    forget_parts();
    free(parts);
    parts = NULL;
}

/* Gives a packet to a side. */
static void give(struct side *side, const uint8_t *bytes, size_t length)
{
    if (!scenario->is_answered || side == &sides[0]) {
        usrsctp_conninput(name_of(side), bytes, length, 0);
        return;
    }
    const uint32_t tag = responder.association.local_tag;
    answer_size = responder_receive(&responder, now * 1000, bytes, length, answer_given, sizeof answer_given);
    write_row(bytes, length);
    if (responder.association.local_tag != tag) {
        forget_parts();
        draw_next();
        write_next();
    }
    if (responder.state >= ESTABLISHED)
        take_parts(side);
    if (answer_size > 0)
        send_packet(name_of(side), answer_given, answer_size, 0, 0);
}

static void ignore_data(void *user, const struct dcsctp_data *data, const uint8_t *payload)
{
    (void)user, (void)data, (void)payload;
}

/* Gives a packet to the responder with some bytes changed; it is then as it was before. */
static void give_changed(uint8_t *bytes, size_t length)
{
    const struct responder before = responder;
    for (size_t count = 1 + below(3); count > 0; count--)
        bytes[PLAIN_HEADER + below(length < 80 ? length - PLAIN_HEADER : 80 - PLAIN_HEADER)] ^= (uint8_t)(1 << below(8));
    seal(bytes, length);
    responder.take_data = ignore_data;
    write_word("save");
    answer_size = responder_receive(&responder, now * 1000, bytes, length, answer_given, sizeof answer_given);
    write_row(bytes, length);
    write_word("restore");
    responder = before;
}

/* usrsctp's call: with a message, with an event of streams that changed, or with no data at the end. */
static int receive(struct socket *socket, union sctp_sockstore from, void *data, size_t size, struct sctp_rcvinfo info, int flags,
                   void *to)
{
    struct side *side = to;
    const union sctp_notification *event = data;
    (void)socket, (void)from;
    REQUIRE(!data || flags & MSG_EOR);
    if (data && flags & MSG_NOTIFICATION) {
        REQUIRE(!(event->sn_header.sn_flags & (SCTP_STREAM_RESET_DENIED | SCTP_STREAM_RESET_FAILED)));
        if (event->sn_header.sn_type == SCTP_STREAM_CHANGE_EVENT)
            side->streams = event->sn_strchange_event.strchange_outstrms;
        side->changes++;
    } else if (data) {
        take_message(side, data, size, &info);
    }
    free(data);
    return 1;
}

/* ---- the clock, by which usrsctp's timers run too: if they ran faster, it would sometimes not send its last packet again */

/* What a scenario does with a packet before a side gets it: the new size; 0 where it is lost. There is room for MOST bytes. */
static size_t (*meddle)(const struct side *to, uint8_t *bytes, size_t length);

static void step(void)
{
    for (int i = 0; i < 2; i++)
        if (sides[i].socket)
            send_messages(&sides[i]);
    now += STEP;
    while (under_way && under_way->due <= now) {
        struct packet *packet = under_way;
        static uint8_t bytes[MOST];
        size_t size = packet->size;
        under_way = packet->next;
        memcpy(bytes, packet->bytes, size);
        if (meddle)
            size = meddle(packet->to, bytes, size);
        if (size > 0)
            give(packet->to, bytes, size);
        if (size > 0 && rows && scenario->is_answered && !scenario->run && packet->to == &sides[1]) {
            give(packet->to, bytes, size); /* rows have each packet twice, */
            give_changed(bytes, size);     /* and then with other bytes */
        }
        free(packet);
    }
    usrsctp_handle_timers(STEP);
}

/* Half an hour of it is enough for anything. */
#define RUN_UNTIL(condition) \
    for (uint64_t last = now + 1800000; !(condition); step()) \
        REQUIRE(now < last && #condition)

/* ---- an association */

static struct sockaddr_conn address_of(struct side *side)
{
    return (struct sockaddr_conn){.sconn_family = AF_CONN, .sconn_port = htons(5000), .sconn_addr = name_of(side)};
}

static void set(struct socket *socket, int option, const void *value, size_t size)
{
    REQUIRE(!usrsctp_setsockopt(socket, IPPROTO_SCTP, option, value, (socklen_t)size));
}

/* Asks for AUTH before chunks of some types. */
static void authenticate(struct socket *socket)
{
    uint32_t words[32] = {0};
    struct sctp_authkey *key = (struct sctp_authkey *)(void *)words;
    struct sctp_authkeyid active = {.scact_keynumber = KEY_IDENTIFIER};
    for (size_t i = 0; i < listed_count() - (scenario->wrong_key && !scenario->lists_cookies); i++) {
        struct sctp_authchunk chunk = {.sauth_chunk = authenticated[i]};
        set(socket, SCTP_AUTH_CHUNK, &chunk, sizeof chunk);
    }
    if (scenario->key) {
        key->sca_keynumber = KEY_IDENTIFIER;
        key->sca_keylength = (uint16_t)strlen(scenario->key);
        memcpy(key->sca_key, scenario->key, key->sca_keylength);
        set(socket, SCTP_AUTH_KEY, key, sizeof *key + key->sca_keylength);
        set(socket, SCTP_AUTH_ACTIVE_KEY, &active, sizeof active);
    }
}

static struct socket *open_socket(struct side *side)
{
    const int level = 2;
    const uint16_t types[] = {SCTP_STREAM_RESET_EVENT, SCTP_STREAM_CHANGE_EVENT};
    struct sctp_initmsg init = {.sinit_num_ostreams = STREAMS, .sinit_max_instreams = MORE_STREAMS};
    struct sctp_assoc_value interleaving = {.assoc_value = 1};
    struct sctp_assoc_value changes = {.assoc_value = SCTP_ENABLE_RESET_STREAM_REQ | SCTP_ENABLE_CHANGE_ASSOC_REQ};
    struct sockaddr_conn address = address_of(side);
    struct socket *socket = usrsctp_socket(AF_CONN, SOCK_STREAM, IPPROTO_SCTP, receive, NULL, 0, side);
    REQUIRE(socket && !usrsctp_set_non_blocking(socket, 1));
    set(socket, SCTP_INITMSG, &init, sizeof init);
    set(socket, SCTP_ENABLE_STREAM_RESET, &changes, sizeof changes);
    for (int i = 0; i < 2; i++) {
        struct sctp_event event = {.se_type = types[i], .se_on = 1};
        set(socket, SCTP_EVENT, &event, sizeof event);
    }
    if (scenario->is_interleaved) {
        set(socket, SCTP_FRAGMENT_INTERLEAVE, &level, sizeof level);
        set(socket, INTERLEAVING_SUPPORTED, &interleaving, sizeof interleaving);
    }
    if (scenario->is_authenticated)
        authenticate(socket);
    REQUIRE(!usrsctp_bind(socket, (struct sockaddr *)&address, sizeof address));
    return socket;
}

/* The state of a side's association; -1 where there is none. The responder has no timer, so where SHUTDOWN COMPLETE is lost it
   waits for ever. */
static int32_t state_of(const struct side *side)
{
    if (scenario->is_answered && side == &sides[1])
        return responder.state == ESTABLISHED ? SCTP_ESTABLISHED : -1;
    struct sctp_status status = {0};
    socklen_t size = sizeof status;
    return usrsctp_getsockopt(side->socket, IPPROTO_SCTP, SCTP_STATUS, &status, &size) ? -1 : status.sstat_state;
}

static void call(void)
{
    struct sockaddr_conn to = address_of(&sides[0]);
    sides[0].socket = open_socket(&sides[0]);
    REQUIRE(usrsctp_connect(sides[0].socket, (struct sockaddr *)&to, sizeof to) < 0 && errno == EINPROGRESS);
}

/* The responder calls usrsctp. */
static void call_back(void)
{
    answer_size = responder_call(&responder, 5000, 5000, answer_given, sizeof answer_given);
    REQUIRE(answer_size > 0 && responder.state == COOKIE_WAIT);
    send_packet(name_of(&sides[1]), answer_given, answer_size, 0, 0);
}

static void connect_sides(void)
{
    if (!scenario->is_answered) {
        sides[1].listener = open_socket(&sides[1]);
        REQUIRE(!usrsctp_listen(sides[1].listener, 1));
    }
    call();
    if (!scenario->is_answered) {
        RUN_UNTIL((sides[1].socket = usrsctp_accept(sides[1].listener, NULL, NULL)));
        REQUIRE(!usrsctp_set_non_blocking(sides[1].socket, 1));
    }
    RUN_UNTIL(state_of(&sides[0]) == SCTP_ESTABLISHED);
}

static void exchange_messages(size_t count)
{
    plan_messages(&sides[0], count);
    plan_messages(&sides[1], scenario->is_answered ? 0 : count);
    RUN_UNTIL(sides[0].awaited == 0 && sides[1].awaited == 0);
}

/* Asks for other streams, once the last request is answered, and waits until both sides have heard. */
static void change(struct side *side, int option, const void *request, size_t size)
{
    unsigned before = side->changes, before_there = other(side)->changes;
    RUN_UNTIL(!usrsctp_setsockopt(side->socket, IPPROTO_SCTP, option, request, (socklen_t)size));
    RUN_UNTIL(side->changes > before && (scenario->is_answered || other(side)->changes > before_there));
}

/* Resets the first `count` streams of a direction; for 0, all. */
static void reset_streams(struct side *side, uint16_t direction, uint16_t count)
{
    size_t size = sizeof(struct sctp_reset_streams) + count * sizeof(uint16_t);
    struct sctp_reset_streams *request = calloc(1, size);
    REQUIRE(request);
    request->srs_flags = direction;
    request->srs_number_streams = count;
    for (uint16_t i = 0; i < count; i++)
        request->srs_stream_list[i] = i;
    change(side, SCTP_RESET_STREAMS, request, size);
    free(request);
}

static void change_streams(void)
{
    const struct sctp_add_streams own = {.sas_outstrms = 4}, others = {.sas_instrms = 3};
    reset_streams(&sides[0], SCTP_STREAM_RESET_OUTGOING, 0);
    if (scenario->is_answered) { /* which asks for nothing, and denies what is asked of its own streams */
        reset_streams(&sides[0], SCTP_STREAM_RESET_OUTGOING, 3);
        change(&sides[0], SCTP_ADD_STREAMS, &own, sizeof own);
        REQUIRE(sides[0].streams == STREAMS + 4);
        return;
    }
    reset_streams(&sides[1], SCTP_STREAM_RESET_OUTGOING, 3);
    reset_streams(&sides[1], SCTP_STREAM_RESET_INCOMING, 2);
    change(&sides[0], SCTP_ADD_STREAMS, &own, sizeof own);
    change(&sides[0], SCTP_ADD_STREAMS, &others, sizeof others);
    REQUIRE(sides[0].streams == STREAMS + 4 && sides[1].streams == STREAMS + 3);
}

static void end_association(void)
{
    struct sctp_sndinfo info = {.snd_flags = SCTP_ABORT};
    if (scenario->aborts)
        usrsctp_sendv(sides[0].socket, "enough", 6, NULL, 0, &info, sizeof info, SCTP_SENDV_SNDINFO, 0);
    else
        REQUIRE(!usrsctp_shutdown(sides[0].socket, SHUT_WR));
    RUN_UNTIL(state_of(&sides[0]) < 0 && state_of(&sides[1]) < 0 && !under_way);
}

/* Chunks of the kinds that the scenario is about have passed, and no others. */
static void check_kinds(void)
{
    bool is_due[256] = {[PLAIN_INIT] = true, [PLAIN_INIT_ACK] = true, [PLAIN_COOKIE_ECHO] = true, [PLAIN_COOKIE_ACK] = true,
        [PLAIN_SACK] = true, [PLAIN_HEARTBEAT] = true, [PLAIN_HEARTBEAT_ACK] = true, [PLAIN_DATA] = !scenario->is_interleaved,
        [PLAIN_I_DATA] = scenario->is_interleaved, [PLAIN_FORWARD_TSN] = scenario->abandons,
        [PLAIN_RE_CONFIG] = scenario->changes, [PLAIN_ABORT] = scenario->aborts, [PLAIN_SHUTDOWN] = !scenario->aborts,
        [PLAIN_SHUTDOWN_ACK] = !scenario->aborts, [PLAIN_SHUTDOWN_COMPLETE] = !scenario->aborts,
        [DCSCTP_CHUNK_AUTH] = scenario->is_authenticated};
    for (int type = 0; type < 256; type++)
        REQUIRE((tally.kinds[type] > 0) == is_due[type]);
    REQUIRE((tally.blocks > 0) == (scenario->lost > 0) && (scenario->is_authenticated || tally.noisy > tally.packets / 2));
}

/* ---- what the RFCs ask of the responder */

static void run_for(uint64_t time)
{
    for (uint64_t end = now + time; now < end;)
        step();
}

/* Whether a packet begins with a chunk of this type. */
static bool begins_with(const uint8_t *bytes, size_t length, uint8_t type)
{
    return length > PLAIN_HEADER && bytes[PLAIN_HEADER] == type;
}

/* Whether the responder's last answer has the header of its association's peer, and these chunks: their types, as bytes. */
static bool answers(const char *types, size_t count)
{
    struct plain_item chunk;
    size_t at = PLAIN_HEADER, i = 0;
    for (; answer_size > 0 && plain_chunk_at(answer_given, at, answer_size, &chunk); at = chunk.next, i++)
        if (i == count || chunk.type != (uint8_t)types[i])
            return false;
    return i == count;
}

/* Whether the last answer is one chunk with the T bit, and has the tag of the packet that it answers (section 8.4). */
static bool answers_blue(const uint8_t *bytes, uint8_t type)
{
    return answer_size == PLAIN_HEADER + 4 && begins_with(answer_given, answer_size, type) && answer_given[PLAIN_HEADER + 1] == 1
        && plain_u32(answer_given + 4) == plain_u32(bytes + 4);
}

static size_t lose_all(const struct side *to, uint8_t *bytes, size_t length)
{
    (void)to, (void)bytes, (void)length;
    return 0;
}

/* Loses a chunk's packets on their way to the responder. */
static uint8_t lost_type;

static size_t lose_type(const struct side *to, uint8_t *bytes, size_t length)
{
    return to == &sides[1] && begins_with(bytes, length, lost_type) ? 0 : length;
}

/* Ends usrsctp's association without a word to the responder. */
static void crash(void)
{
    const struct linger linger = {.l_onoff = 1, .l_linger = 0};
    meddle = lose_all;
    REQUIRE(!usrsctp_setsockopt(sides[0].socket, SOL_SOCKET, SO_LINGER, &linger, sizeof linger));
    usrsctp_close(sides[0].socket);
    sides[0].socket = NULL;
    RUN_UNTIL(!under_way);
    meddle = NULL;
}

/* Begins a packet to a side in the other's name, under the tag that the side has. */
static uint8_t written[200];
static size_t written_size;

#define TO_WRITTEN written, sizeof written, &written_size

static void begin_to(const struct side *side)
{
    const struct dcsctp_cookie *it = &responder.association;
    REQUIRE(!dcsctp_begin(TO_WRITTEN, 5000, 5000, side == &sides[0] ? it->peer_tag : it->local_tag));
}

static void give_written(struct side *side)
{
    struct exchange x = {.packet = written, .room = sizeof written, .size = written_size};
    REQUIRE(side == &sides[1] || responder.shared_key_size == 0 || sign(&responder, &x));
    written_size = x.size;
    seal(written, written_size);
    give(side, written, written_size);
}

/* RFC 4895 section 6.3: what comes after an AUTH that isn't right is discarded, and no state changes. */
static void run_wrong_key(void)
{
    struct sctp_status status;
    socklen_t size = sizeof status;
    connect_sides();
    RUN_UNTIL(!under_way);
    const struct responder before = responder;
    answer_size = 0;
    plan_messages(&sides[0], 20);
    for (uint64_t end = now + 20000; now < end; step())
        REQUIRE(!memcmp(&responder, &before, sizeof before) && answers("", 0));
    REQUIRE(sides[0].sent > 0 && sides[1].received == 0 && tally.kinds[DCSCTP_CHUNK_AUTH] > 2);
    REQUIRE(!usrsctp_getsockopt(sides[0].socket, IPPROTO_SCTP, SCTP_STATUS, &status, &size) && status.sstat_unackdata > 0);

    /* What isn't after an AUTH is discarded too (section 6.3); what needn't be isn't. */
    const struct dcsctp_data data = {.tsn = before.cumulative_tsn + 1, .is_beginning = true};
    begin_to(&sides[1]);
    REQUIRE(!dcsctp_add_data(TO_WRITTEN, &data, (const uint8_t *)"a", 1));
    give_written(&sides[1]);
    REQUIRE(!memcmp(&responder, &before, sizeof before) && answers("", 0));

    /* Under the responder's own key: another shared key identifier is discarded, and another HMAC identifier reported (section
       4.1); so is a second AUTH (section 5.1). */
    const uint16_t identifiers[][2] = {{KEY_IDENTIFIER + 1, SHA_1}, {KEY_IDENTIFIER, 2}, {KEY_IDENTIFIER, SHA_1}};
    for (int i = 0; i < 4; i++) {
        const uint16_t *it = identifiers[i < 3 ? i : 2];
        const struct dcsctp_registered auth = {.short_number = it[0], .second_short_number = it[1], .rest_size = 20};
        const size_t starts[] = {PLAIN_HEADER, PLAIN_HEADER + 28};
        begin_to(&sides[1]);
        for (int k = 0; k < (i == 2 ? 2 : 1); k++)
            REQUIRE(!dcsctp_add_registered_chunk(TO_WRITTEN, DCSCTP_CHUNK_AUTH, &auth, (const uint8_t[20]){0}, 20));
        REQUIRE(!dcsctp_add_data(TO_WRITTEN, &data, (const uint8_t *)"a", 1));
        for (int k = i == 2; k >= 0; k--)
            REQUIRE(dcsctp_sign_auth(responder.shared_key, responder.shared_key_size, written + starts[k], written_size - starts[k])
                    == (i != 1));
        give_written(&sides[1]);
        if (i == 1) {
            REQUIRE(answers((const char[]){DCSCTP_CHUNK_AUTH, PLAIN_ERROR}, 2));
            REQUIRE(!memcmp(answer_given + answer_size - 8, (const uint8_t[]){1, 5, 0, 6, 0, 2, 0, 0}, 8));
        } else {
            REQUIRE(i == 3 ? answers((const char[]){DCSCTP_CHUNK_AUTH, PLAIN_SACK}, 2) : answers("", 0));
        }
        REQUIRE(!memcmp(&responder, &before, sizeof before) == (i != 3));
    }

    /* Nor does usrsctp take what is signed under another key than its own. */
    const struct dcsctp_data own = {.tsn = responder.association.local_initial_tsn, .is_beginning = true};
    const unsigned sacks = tally.kinds[PLAIN_SACK];
    begin_to(&sides[0]);
    REQUIRE(!dcsctp_add_data(TO_WRITTEN, &own, (const uint8_t *)"a", 1));
    give_written(&sides[0]);
    REQUIRE(written_size == PLAIN_HEADER + 28 + 20);
    run_for(1000);
    REQUIRE(tally.kinds[PLAIN_SACK] == sacks);

    /* A Random of another size than 32 bytes (section 6.1). */
    const struct dcsctp_init init = {5, 1 << 20, 1, 1, 1};
    REQUIRE(!dcsctp_begin(TO_WRITTEN, 5000, 5000, 0) && !dcsctp_add_init(TO_WRITTEN, &init));
    REQUIRE(!dcsctp_add_parameter(TO_WRITTEN, PLAIN_HEADER, DCSCTP_PARAMETER_RANDOM, responder.random, 31));
    give_written(&sides[1]);
    REQUIRE(answers((const char[]){PLAIN_ABORT}, 1) && plain_u32(answer_given + 4) == 5);
    REQUIRE(!memcmp(answer_given + answer_size - 4, (const uint8_t[]){0, 13, 0, 4}, 4));
    crash();
}

/* The same of a COOKIE ECHO: its AUTH is verified by what its cookie says; where there is an association, by the keys of that one, which
   a peer that begins anew doesn't have. */
static void run_wrong_cookie(void)
{
    for (int i = 0; i < 2; i++) {
        const unsigned echoes = tally.kinds[PLAIN_COOKIE_ECHO];
        if (i > 0) {
            responder.pair_key = (struct bytes){(const uint8_t *)scenario->key, strlen(scenario->key)};
            connect_sides();
            crash();
        }
        call();
        RUN_UNTIL(answers((const char[]){PLAIN_INIT_ACK}, 1));
        const struct responder before = responder;
        run_for(5000);
        REQUIRE(tally.kinds[PLAIN_COOKIE_ECHO] > echoes + 1 && answers("", 0) && !memcmp(&responder, &before, sizeof before));
        crash();
    }
}

/* Loses the COOKIE ECHO, so that an INIT alone arrives: INIT ACK has a new tag, and nothing changes (section 5.2.2). */
static void call_anew(void)
{
    const struct responder before = responder;
    const unsigned echoes = tally.kinds[PLAIN_COOKIE_ECHO];
    lost_type = PLAIN_COOKIE_ECHO;
    meddle = lose_type;
    call();
    RUN_UNTIL(tally.kinds[PLAIN_COOKIE_ECHO] > echoes && !under_way);
    REQUIRE(answers((const char[]){PLAIN_INIT_ACK}, 1) && plain_u32(answer_given + 16) == before.own.initiate_tag);
    REQUIRE(before.own.initiate_tag != before.association.local_tag && !memcmp(&responder, &before, sizeof before));
}

/* A peer that begins anew (sections 5.2.2 and 5.2.4, action A). */
static void run_restart(void)
{
    connect_sides();
    for (int i = 0; i < 3; i++) {
        exchange_messages(20);
        crash();
        const struct responder before = responder;
        call_anew();
        meddle = NULL;
        RUN_UNTIL(state_of(&sides[0]) == SCTP_ESTABLISHED);
        REQUIRE(responder.state == ESTABLISHED && responder.association.local_tag == before.own.initiate_tag);
        REQUIRE(responder.association.peer_tag != before.association.peer_tag);
    }
    exchange_messages(20);
    end_association();
}

/* Table 12 of section 5.2.4: of the tags and the Tie-Tags of a cookie M is the association's, X another one, and 0 none. The
   local tag X is the next one's; E is one of an association that has ended. */
static const char *const table_12[] = {"XXM A", "XX0 -", "XXX -", "MXM B", "MX0 B", "MXX B", "XMM -", "XM0 C", "XMX -",
                                       "MMM D", "MM0 D", "MMX D", "EXM -", "EX0 -"};

static void run_cookies(void)
{
    connect_sides();
    RUN_UNTIL(!under_way);
    meddle = lose_all;
    write_word("save");
    const struct responder before = responder;
    const uint32_t next = before.own.initiate_tag;
    for (size_t i = 0; i < 2 * sizeof table_12 / sizeof *table_12; i++) {
        const char *row = table_12[i / 2], action = row[4];
        const bool is_old = i % 2 == 0;
        struct dcsctp_cookie cookie = before.association;
        uint8_t sealed[80 + 12], ties[12] = {0, DCSCTP_PARAMETER_HEARTBEAT_INFO, 0, sizeof ties};
        size_t sealed_size;
        cookie.created = now * 1000 - is_old;
        cookie.lifespan = 0;
        cookie.local_tag = row[0] == 'M' ? cookie.local_tag : row[0] == 'X' ? next : next ^ 4;
        cookie.peer_tag += row[1] != 'M';
        memcpy(ties + 4, before.association_tie_tags, 8);
        ties[11] ^= row[2] == 'X';
        REQUIRE(!dcsctp_seal_cookie(sealed, sizeof sealed, &sealed_size, before.key, sizeof before.key, &cookie, ties,
                                    row[2] == '0' ? 0 : sizeof ties));
        REQUIRE(!dcsctp_begin(TO_WRITTEN, 5000, 5000, cookie.local_tag));
        REQUIRE(!dcsctp_add_cookie_echo(TO_WRITTEN, sealed, sealed_size));
        give_written(&sides[1]);
        const bool is_taken = !is_old && (action == 'A' || action == 'B');
        REQUIRE(action == 'D' || is_taken ? answers((const char[]){PLAIN_COOKIE_ACK}, 1)
                : is_old ? answers((const char[]){PLAIN_ERROR}, 1) && plain_u16(answer_given + 16) == 3
                : answers("", 0));
        REQUIRE(!answer_size || plain_u32(answer_given + 4) == cookie.peer_tag);
        REQUIRE(is_taken || !memcmp(&responder, &before, sizeof before));
        REQUIRE(responder.state == ESTABLISHED && (!is_taken || (responder.association.local_tag == cookie.local_tag
                                                                 && responder.association.peer_tag == cookie.peer_tag)));
        responder = before;
        write_word("restore");
    }

    /* The last one opens no association where none is; and there is no INIT ACK while no new tag is drawn. */
    responder.state = CLOSED;
    write_word("forget");
    give_written(&sides[1]);
    REQUIRE(responder.state == CLOSED);
    responder = before;
    responder.own.initiate_tag = before.association.local_tag;
    write_word("restore");
    write_next();
    const struct dcsctp_init init = {5, 1 << 20, 1, 1, 1};
    REQUIRE(!dcsctp_begin(TO_WRITTEN, 5000, 5000, 0) && !dcsctp_add_init(TO_WRITTEN, &init));
    give_written(&sides[1]);
    REQUIRE(answers("", 0));
    responder.own.initiate_tag = next;
    write_next();
    give_written(&sides[1]);
    REQUIRE(answers((const char[]){PLAIN_INIT_ACK}, 1));
    crash();
}

/* The same while the association shuts down: an INIT gets SHUTDOWN ACK again (section 9.2), and a COOKIE ECHO an ERROR too
   (section 5.2.4). usrsctp answers that by SHUTDOWN COMPLETE, and its next INIT or COOKIE ECHO opens an association. */
static void run_shutting_down(void)
{
    connect_sides();
    exchange_messages(20);
    lost_type = PLAIN_SHUTDOWN_COMPLETE;
    meddle = lose_type;
    REQUIRE(!usrsctp_shutdown(sides[0].socket, SHUT_WR));
    RUN_UNTIL(state_of(&sides[0]) < 0 && !under_way);
    REQUIRE(responder.state == SHUTDOWN_ACK_SENT);
    meddle = NULL;
    usrsctp_close(sides[0].socket);
    const unsigned calls = tally.kinds[PLAIN_INIT];
    call();
    RUN_UNTIL(tally.kinds[PLAIN_INIT] > calls && !under_way);
    REQUIRE(responder.state == CLOSED && answers("", 0) && tally.kinds[PLAIN_INIT_ACK] == 1);
    RUN_UNTIL(state_of(&sides[0]) == SCTP_ESTABLISHED);
    exchange_messages(20);

    crash();
    call_anew();
    meddle = lose_all;
    begin_to(&sides[1]);
    REQUIRE(!dcsctp_add_shutdown(TO_WRITTEN, responder.association.local_initial_tsn - 1));
    give_written(&sides[1]);
    REQUIRE(responder.state == SHUTDOWN_ACK_SENT);
    RUN_UNTIL(!under_way);
    meddle = NULL;
    RUN_UNTIL(answers((const char[]){PLAIN_SHUTDOWN_ACK, PLAIN_ERROR}, 2));
    REQUIRE(responder.state == SHUTDOWN_ACK_SENT && !memcmp(answer_given + answer_size - 4, (const uint8_t[]){0, 10, 0, 4}, 4));
    RUN_UNTIL(state_of(&sides[0]) == SCTP_ESTABLISHED);
    exchange_messages(20);
    end_association();
}

/* A COOKIE ECHO that comes too late (section 5.1.5); usrsctp asks for a longer life (section 5.2.6), and gets it. */
static uint32_t increment; /* that the last INIT asks for, in milliseconds */

static size_t lose_cookies(const struct side *to, uint8_t *bytes, size_t length)
{
    struct plain_item init, item;
    if (to == &sides[1] && begins_with(bytes, length, PLAIN_INIT) && plain_chunk_at(bytes, PLAIN_HEADER, length, &init)) {
        increment = 0;
        for (size_t at = init.value + 16; plain_item_at(bytes, at, init.value + init.size, &item); at = item.next)
            if (item.type == 9)
                increment = plain_u32(bytes + item.value);
    }
    return lose_type(to, bytes, length);
}

static void run_stale(void)
{
    enum { LIFE = COOKIE_LIFE / 1000 };
    lost_type = PLAIN_COOKIE_ECHO;
    meddle = lose_cookies;
    call();
    RUN_UNTIL(answers((const char[]){PLAIN_INIT_ACK}, 1));
    uint64_t created = now;
    REQUIRE(increment == 0);
    run_for(LIFE);
    meddle = NULL;
    RUN_UNTIL(answers((const char[]){PLAIN_ERROR}, 1));
    REQUIRE(now > created + LIFE && responder.state == CLOSED && plain_are(answer_given + 16, "224", 3, 8, 1000 * (now - created - LIFE)));
    meddle = lose_cookies;
    RUN_UNTIL(answers((const char[]){PLAIN_INIT_ACK}, 1));
    created = now;
    REQUIRE(increment > 0);
    run_for(LIFE + 1);
    meddle = NULL;
    RUN_UNTIL(state_of(&sides[0]) == SCTP_ESTABLISHED);
    REQUIRE(now > created + LIFE && now <= created + LIFE + increment + 1000);
    REQUIRE(responder.association.lifespan == 1000 * (LIFE + (uint64_t)increment));
    exchange_messages(20);
    end_association();
}

/* Section 5.2.2: a peer that begins anew adds no addresses. usrsctp names none here, so they are added to its INIT. */
static uint8_t address_count;
static uint32_t initiate_tag; /* of the last INIT */

static size_t add_addresses(const struct side *to, uint8_t *bytes, size_t length)
{
    if (to != &sides[1] || !begins_with(bytes, length, PLAIN_INIT))
        return length;
    initiate_tag = plain_u32(bytes + PLAIN_HEADER + 4);
    for (uint8_t i = 1; i <= address_count; i++) {
        const uint8_t address[] = {10, 0, 0, i};
        REQUIRE(!dcsctp_add_parameter(bytes, MOST, &length, PLAIN_HEADER, DCSCTP_PARAMETER_IPV4_ADDRESS, address, sizeof address));
    }
    seal(bytes, length);
    return length;
}

static void run_addresses(void)
{
    const uint8_t cause[] = {0, 11, 0, 20, 0, 5, 0, 8, 10, 0, 0, 3, 0, 5, 0, 8, 10, 0, 0, 4};
    meddle = add_addresses;
    address_count = 2;
    connect_sides();
    exchange_messages(20);
    crash();
    const struct responder before = responder;
    meddle = add_addresses;
    address_count = 4;
    call();
    RUN_UNTIL(answers((const char[]){PLAIN_ABORT}, 1));
    REQUIRE(answer_size == PLAIN_HEADER + 4 + sizeof cause && !memcmp(answer_given + PLAIN_HEADER + 4, cause, sizeof cause));
    REQUIRE(answer_given[PLAIN_HEADER + 1] == 0 && plain_u32(answer_given + 4) == initiate_tag);
    REQUIRE(!memcmp(&responder, &before, sizeof before));
    RUN_UNTIL(state_of(&sides[0]) < 0);
    usrsctp_close(sides[0].socket);
    address_count = 1;
    call();
    RUN_UNTIL(state_of(&sides[0]) == SCTP_ESTABLISHED);
    REQUIRE(responder.association.local_tag == before.own.initiate_tag && responder.addresses_size == 8);
    exchange_messages(20);
    end_association();
}

/* Both ends call at once (sections 5.2.1 and 5.2.4): either INIT, either COOKIE ECHO or none is lost. */
static void run_collision(void)
{
    const uint8_t types[] = {0, PLAIN_INIT, PLAIN_COOKIE_ECHO};
    for (size_t i = 0; i < 2 * sizeof types; i++) {
        const uint32_t own = responder.own.initiate_tag;
        lost_type = types[i / 2];
        meddle = lose_type;
        if (i % 2)
            call_back();
        call();
        if (i % 2 == 0)
            call_back();
        RUN_UNTIL(responder.state == ESTABLISHED && state_of(&sides[0]) == SCTP_ESTABLISHED && !under_way);
        REQUIRE(responder.association.local_tag == own && responder.cumulative_tsn == responder.association.peer_initial_tsn - 1);
        meddle = NULL;
        exchange_messages(20);
        end_association();
        usrsctp_close(sides[0].socket);
    }
    sides[0].socket = NULL;
}

/* Sections 3.2 and 3.2.1: what is done with an unknown type, by its two highest-order bits. */
static const struct unknown {
    uint8_t chunk;
    uint16_t parameter;
    bool is_reported, is_skipped;
} unknown[] = {
    {0x3e, 0x3ffe, false, false},
    {0x7e, 0x7ffe, true, false},
    {0xbe, 0xbffe, false, true},
    {0xfe, 0xfffe, true, true},
}, *added;
static bool is_added;
static const uint8_t unknown_value[] = {'a', 'b', 'c', 'd', 'e'}, next_parameter[] = {0xff, 0xfd, 0, 5, 'f'};

/* Adds an unknown parameter and another one to an INIT or INIT ACK, or puts an unknown chunk before DATA. */
static size_t add_unknown(const struct side *to, uint8_t *bytes, size_t length)
{
    static uint8_t copy[MOST];
    size_t size = PLAIN_HEADER;
    if (to != &sides[1] || is_added)
        return length;
    if (begins_with(bytes, length, PLAIN_INIT) || begins_with(bytes, length, PLAIN_INIT_ACK)) {
        memcpy(copy, bytes, size = length);
        REQUIRE(!dcsctp_add_parameter(TO_COPY, PLAIN_HEADER, added->parameter, unknown_value, sizeof unknown_value));
        REQUIRE(!dcsctp_add_parameter(TO_COPY, PLAIN_HEADER, 0xfffd, next_parameter + 4, 1));
    } else if (begins_with(bytes, length, PLAIN_DATA)) {
        memcpy(copy, bytes, size);
        REQUIRE(!dcsctp_add_chunk(TO_COPY, added->chunk, 0xa5, unknown_value, sizeof unknown_value));
        memcpy(copy + size, bytes + PLAIN_HEADER, length - PLAIN_HEADER);
        size += length - PLAIN_HEADER;
    } else {
        return length;
    }
    is_added = true;
    seal(copy, size);
    memcpy(bytes, copy, size);
    return size;
}

/* The last item of a type in the last answer's first chunk of a type, of those after `numbers` bytes: where it begins; 0 if there
   is none. */
static size_t place_in_answer(uint8_t chunk_type, size_t numbers, uint16_t type, const uint8_t *value, size_t value_size)
{
    struct plain_item chunk = {0}, item;
    size_t found = 0, at = PLAIN_HEADER;
    while (plain_chunk_at(answer_given, at, answer_size, &chunk) && chunk.type != chunk_type)
        at = chunk.next;
    if (at == answer_size)
        return 0;
    for (at = chunk.value + numbers; plain_item_at(answer_given, at, chunk.value + chunk.size, &item); at = item.next)
        if (item.type == type && item.size == value_size && !memcmp(answer_given + item.value, value, value_size))
            found = at;
    return found;
}

static void run_unknown(void)
{
    const struct unknown *end = unknown + sizeof unknown / sizeof *unknown;
    for (added = unknown; added < end; added++) {
        const uint8_t parameter[] = {(uint8_t)(added->parameter >> 8), 0xfe, 0, 9, 'a', 'b', 'c', 'd', 'e'};
        const uint8_t chunk[] = {added->chunk, 0xa5, 0, 9, 'a', 'b', 'c', 'd', 'e'};
        meddle = add_unknown;
        is_added = false;
        call();
        RUN_UNTIL(is_added);
        REQUIRE(answers((const char[]){PLAIN_INIT_ACK}, 1));
        REQUIRE((place_in_answer(PLAIN_INIT_ACK, 16, 8, parameter, sizeof parameter) > 0) == added->is_reported);
        REQUIRE((place_in_answer(PLAIN_INIT_ACK, 16, 8, next_parameter, sizeof next_parameter) > 0) == added->is_skipped);
        RUN_UNTIL(state_of(&sides[0]) == SCTP_ESTABLISHED && !under_way);
        const uint32_t tsn = responder.cumulative_tsn;
        is_added = false;
        plan_messages(&sides[0], 1);
        sides[0].messages[sides[0].planned - 1].size = 1; /* one packet */
        RUN_UNTIL(is_added);
        REQUIRE((responder.cumulative_tsn != tsn) == added->is_skipped);
        REQUIRE(answers((const char[]){PLAIN_ERROR, PLAIN_SACK} + !added->is_reported, added->is_reported + added->is_skipped));
        REQUIRE(!added->is_reported || place_in_answer(PLAIN_ERROR, 0, 6, chunk, sizeof chunk) > 0);
        exchange_messages(20);
        end_association();
        usrsctp_close(sides[0].socket);
    }
    sides[0].socket = NULL;
}

/* The responder calls usrsctp, whose INIT ACK has an unknown parameter and another one: an ERROR behind COOKIE ECHO reports what is
   to be reported (section 3.2.2). */
static void run_calls(void)
{
    const struct unknown *end = unknown + sizeof unknown / sizeof *unknown;
    sides[0].listener = open_socket(&sides[0]);
    REQUIRE(!usrsctp_listen(sides[0].listener, 1));
    for (added = unknown; added < end; added++) {
        const uint8_t parameter[] = {(uint8_t)(added->parameter >> 8), 0xfe, 0, 9, 'a', 'b', 'c', 'd', 'e'};
        const uint32_t own = responder.own.initiate_tag;
        meddle = add_unknown;
        is_added = false;
        call_back();
        RUN_UNTIL(is_added);
        REQUIRE(answers((const char[]){PLAIN_COOKIE_ECHO, PLAIN_ERROR}, 1u + (added->is_reported || added->is_skipped)));
        REQUIRE((place_in_answer(PLAIN_ERROR, 0, 8, parameter, sizeof parameter) > 0) == added->is_reported);
        REQUIRE((place_in_answer(PLAIN_ERROR, 0, 8, next_parameter, sizeof next_parameter) > 0) == added->is_skipped);
        meddle = NULL;
        RUN_UNTIL((sides[0].socket = usrsctp_accept(sides[0].listener, NULL, NULL)));
        REQUIRE(!usrsctp_set_non_blocking(sides[0].socket, 1));
        RUN_UNTIL(responder.state == ESTABLISHED && state_of(&sides[0]) == SCTP_ESTABLISHED && !under_way);
        REQUIRE(responder.association.local_tag == own);
        exchange_messages(20);
        end_association();
        usrsctp_close(sides[0].socket);
    }
    usrsctp_close(sides[0].listener);
    sides[0].socket = sides[0].listener = NULL;
}

/* Section 8.4: the responder forgets its association as a packet comes that begins with a chunk of some type. */
static const struct forgotten {
    uint8_t type;
    uint8_t answer; /* 0: none */
} kinds_forgotten[] = {
    {PLAIN_DATA, PLAIN_ABORT},
    {PLAIN_SACK, PLAIN_ABORT},
    {PLAIN_HEARTBEAT, PLAIN_ABORT},
    {PLAIN_HEARTBEAT_ACK, PLAIN_ABORT},
    {PLAIN_ABORT, 0},
    {PLAIN_SHUTDOWN, PLAIN_ABORT},
    {PLAIN_SHUTDOWN_ACK, PLAIN_SHUTDOWN_COMPLETE},
    {PLAIN_ERROR, PLAIN_ABORT},
    {PLAIN_SHUTDOWN_COMPLETE, 0},
    {PLAIN_RE_CONFIG, PLAIN_ABORT},
    {PLAIN_FORWARD_TSN, PLAIN_ABORT},
}, *forgotten;
static uint8_t blue[MOST];
static bool is_blue;

/* Whether the first chunk of a packet, but for AUTH, has this type. */
static bool is_about(const uint8_t *bytes, size_t length, uint8_t type)
{
    struct plain_item chunk;
    size_t at = PLAIN_HEADER;
    while (plain_chunk_at(bytes, at, length, &chunk) && chunk.type == DCSCTP_CHUNK_AUTH)
        at = chunk.next;
    return at < length && bytes[at] == type;
}

static size_t forget(const struct side *to, uint8_t *bytes, size_t length)
{
    if (to != &sides[1] || is_blue)
        return length;
    if (is_about(bytes, length, forgotten->type)) {
        memcpy(blue, bytes, length);
        is_blue = true;
        responder.state = CLOSED;
        write_word("forget");
    }
    return is_blue || !is_about(bytes, length, PLAIN_DATA) ? length : 0;
}

/* Makes usrsctp send such a packet. */
static void provoke(uint8_t type)
{
    const struct dcsctp_data data = {.tsn = responder.association.local_initial_tsn, .is_beginning = true};
    struct sctp_reset_streams request = {.srs_flags = SCTP_STREAM_RESET_OUTGOING};
    struct sctp_sndinfo info = {.snd_flags = SCTP_ABORT};
    begin_to(&sides[0]);
    switch (type) {
    case PLAIN_FORWARD_TSN: case PLAIN_DATA:
        plan_messages(&sides[0], 1);
        sides[0].messages[sides[0].planned - 1].may_be_lost = true;
        return;
    case PLAIN_SHUTDOWN: case PLAIN_SHUTDOWN_COMPLETE: REQUIRE(!usrsctp_shutdown(sides[0].socket, SHUT_WR)); return;
    case PLAIN_ABORT: usrsctp_sendv(sides[0].socket, "a", 1, NULL, 0, &info, sizeof info, SCTP_SENDV_SNDINFO, 0); return;
    case PLAIN_RE_CONFIG: set(sides[0].socket, SCTP_RESET_STREAMS, &request, sizeof request); return;
    case PLAIN_HEARTBEAT: return; /* it comes by itself */
    case PLAIN_SACK: REQUIRE(!dcsctp_add_data(TO_WRITTEN, &data, (const uint8_t *)"a", 1)); break;
    case PLAIN_HEARTBEAT_ACK: REQUIRE(!dcsctp_add_heartbeat(TO_WRITTEN, false, (const uint8_t *)"a", 1)); break;
    case PLAIN_SHUTDOWN_ACK: REQUIRE(!dcsctp_add_shutdown(TO_WRITTEN, responder.association.peer_initial_tsn - 1)); break;
    case PLAIN_ERROR: REQUIRE(!dcsctp_add_chunk(TO_WRITTEN, 0x7e, 0, NULL, 0)); break;
    }
    give_written(&sides[0]);
}

/* INIT ACK and COOKIE ACK: usrsctp is called in the name of the responder, which knows nothing of it. */
static void run_called(void)
{
    const struct dcsctp_init init = {5, 1 << 20, 1, 1, 1};
    struct plain_item chunk, item;
    forgotten = &(const struct forgotten){.type = PLAIN_INIT_ACK};
    is_blue = false;
    meddle = forget;
    sides[0].socket = open_socket(&sides[0]);
    REQUIRE(!usrsctp_listen(sides[0].socket, 1));
    REQUIRE(!dcsctp_begin(TO_WRITTEN, 5000, 5000, 0) && !dcsctp_add_init(TO_WRITTEN, &init));
    give_written(&sides[0]);
    RUN_UNTIL(is_blue);
    REQUIRE(answers_blue(blue, PLAIN_ABORT) && plain_chunk_at(blue, PLAIN_HEADER, sizeof blue, &chunk));
    for (size_t at = chunk.value + 16; plain_item_at(blue, at, chunk.value + chunk.size, &item) && item.type != 7; at = item.next)
        ;
    static uint8_t echo[MOST];
    size_t size;
    REQUIRE(!dcsctp_begin(echo, MOST, &size, 5000, 5000, plain_u32(blue + chunk.value)));
    REQUIRE(!dcsctp_add_cookie_echo(echo, MOST, &size, blue + item.value, item.size));
    seal(echo, size);
    forgotten = &(const struct forgotten){.type = PLAIN_COOKIE_ACK};
    is_blue = false;
    give(&sides[0], echo, size);
    RUN_UNTIL(is_blue);
    REQUIRE(answers("", 0));
    crash();
}

/* RFC 4895 section 6.3: AUTH is not taken into account. An ABORT that usrsctp wants authenticated doesn't end its association. */
static void run_forgotten(void)
{
    if (!scenario->is_authenticated)
        run_called();
    const struct forgotten *end = kinds_forgotten + sizeof kinds_forgotten / sizeof *kinds_forgotten;
    for (forgotten = kinds_forgotten; forgotten < end; forgotten++) {
        connect_sides();
        RUN_UNTIL(!under_way);
        is_blue = false;
        meddle = forget;
        provoke(forgotten->type);
        RUN_UNTIL(is_blue);
        REQUIRE(forgotten->answer ? answers_blue(blue, forgotten->answer) : answers("", 0));
        REQUIRE(responder.state == CLOSED);
        run_for(30); /* the answer is under way for 10 ms */
        REQUIRE(state_of(&sides[0]) < 0 || (scenario->is_authenticated && forgotten->answer == PLAIN_ABORT));
        crash();
    }
}

static void run_association(size_t messages)
{
    connect_sides();
    exchange_messages(messages);
    RUN_UNTIL(tally.kinds[PLAIN_HEARTBEAT_ACK] && !under_way); /* an idle association asks after half a minute */
    if (scenario->changes) {
        change_streams();
        exchange_messages((messages + 4) / 5);
    }
    end_association();
    check_kinds();
}

static void run_scenario(size_t messages, uint64_t seed)
{
    state = seed * 0x9e3779b97f4a7c15 | 1;
    now = 0;
    memset(&tally, 0, sizeof tally);
    usrsctp_init_nothreads(0, send_packet, NULL);
    usrsctp_sysctl_set_sctp_recvspace(1 << 20); /* I-DATA needs room for a part of a message on each stream */
    for (int i = 0; i < 2; i++) {
        sides[i] = (struct side){.streams = STREAMS, .messages = calloc(2 * messages + 200, sizeof *sides[i].messages)};
        REQUIRE(sides[i].messages);
        usrsctp_register_address(name_of(&sides[i]));
    }
    if (scenario->is_answered)
        begin_responder(2 * messages + 200);
    if (scenario->run)
        scenario->run();
    else
        run_association(messages);
    meddle = NULL;
    printf("interop: %s: %u packets (%u lost) of %u chunks; %u with a flipped bit dropped; %u passed as sent, %u of them with"
           " noise; the filter took %.0f ns for both; %zu and %zu messages of %zu each\n", scenario->name, tally.packets, tally.lost, tally.chunks,
           tally.packets, tally.packets, tally.noisy, tally.filtering / tally.packets, sides[1].received, sides[0].received,
           sides[0].planned);
    if (scenario->is_answered)
        end_responder();
    if (sides[1].listener)
        usrsctp_close(sides[1].listener);
    for (int i = 0; i < 2; i++) {
        if (sides[i].socket)
            usrsctp_close(sides[i].socket);
        usrsctp_deregister_address(name_of(&sides[i]));
        free(sides[i].messages);
    }
    RUN_UNTIL(!usrsctp_finish());
}

/* ---- the program */

static int give_up(void)
{
    fputs("usage: interop [SCENARIO ..] [--messages N] [--seed N] [--rows FILE]\nscenarios:", stderr);
    for (int i = 0; i < SCENARIOS; i++)
        fprintf(stderr, " %s%s", scenarios[i].name, scenarios[i].is_short ? "*" : "");
    fputs("\n1,000 messages go each way; where none is named, those with a star run, with 200 if both sides are usrsctp\n", stderr);
    return 2;
}

int main(int count, char **words)
{
    unsigned long messages = 0, seed = 1;
    unsigned chosen = 0; /* a bit for each scenario */
    for (int i = 1, found; i < count; i++) {
        for (found = 0; found < SCENARIOS && strcmp(words[i], scenarios[found].name); found++)
            ;
        if (found < SCENARIOS)
            chosen |= 1u << found;
        else if (!strcmp(words[i], "--messages") && i + 1 < count)
            messages = strtoul(words[++i], NULL, 10);
        else if (!strcmp(words[i], "--seed") && i + 1 < count)
            seed = strtoul(words[++i], NULL, 10);
        else if (!strcmp(words[i], "--rows") && i + 1 < count && !rows)
            REQUIRE((rows = fopen(words[++i], "w")));
        else
            return give_up();
    }
    check_authenticated();
    for (int i = 0; i < SCENARIOS; i++)
        if (chosen ? chosen >> i & 1 : scenarios[i].is_short) {
            scenario = &scenarios[i];
            run_scenario(messages ? messages : chosen || scenario->is_answered ? 1000 : 200, seed);
        }
    REQUIRE(!rows || !fclose(rows));
    return 0;
}
