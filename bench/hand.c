/* SPDX-License-Identifier: Apache-2.0 */
/* Reads packets by dcsctp.h, call by call, by the readers that are inlined and by rows, and by hand; bench/packages.py says what
   such a program does. With CALLS_ALONE defined it reads by calls and by hand alone, and verifies no CRC32c.

   usage: hand ROUNDS MILLIS FILE.. */
#define _GNU_SOURCE
#include <dcsctp_inline.h>
#ifndef CALLS_ALONE
#include <dcsctp_processor.h>
#endif
#include <math.h>
#include <stdio.h>
#include <stdlib.h>
#include <time.h>

/* ---- by dcsctp.h */

/* The checksum is compared by the two calls that say by what. */
static const struct dcsctp_policy any = {.any_checksum = true};

static uint64_t sum_of_value(const uint8_t *value, size_t size)
{
    return size ? size + value[0] : 0;
}

static uint64_t sum_of_payload(const uint8_t *bytes, const struct dcsctp_data *data)
{
    uint64_t bits = data->is_unordered + data->is_beginning + data->is_end + data->immediate_ack;
    return bits + sum_of_value(bytes + data->payload_offset, data->payload_size);
}

#define READ(call) dcsctp_##call
#define OF(name) name##_by_calls
#include "reads.h"

#ifndef CALLS_ALONE
#undef READ
#undef OF
#define READ(call) dcsctp_inline_##call
#define OF(name) name##_inline
#include "reads.h"

static uint64_t verified(const uint8_t *bytes, size_t length)
{
    return sum_under_by_calls(dcsctp_usual_policy(), dcsctp_word(bytes, length), bytes, length);
}

static uint64_t verified_by_processor(const uint8_t *bytes, size_t length)
{
    return sum_under_by_calls(dcsctp_usual_policy(), dcsctp_processor_word(bytes, length), bytes, length);
}

/* ---- by rows: the packet in one call, and each list in one */

/* As many as a packet has at most. */
enum { MOST_ITEMS = 16384 };

static uint64_t sum_of_all_items(const uint8_t *bytes, size_t length, const struct dcsctp_chunk *chunk)
{
    static struct dcsctp_parameter items[MOST_ITEMS];
    size_t count = dcsctp_parameters(bytes, length, chunk, items, MOST_ITEMS);
    uint64_t sum = 0;
    for (size_t i = 0; i < count; i++)
        sum += items[i].type + sum_of_value(bytes + items[i].value_offset, items[i].value_size);
    return sum;
}

static uint64_t sum_of_row(const uint8_t *bytes, size_t length, const struct dcsctp_row *row)
{
    static struct dcsctp_gap_ack_block blocks[MOST_ITEMS];
    static struct dcsctp_skipped_stream streams[MOST_ITEMS];
    static uint32_t tsns[MOST_ITEMS];
    uint64_t sum;
    switch (row->chunk.type) {
    case DCSCTP_CHUNK_DATA:
    case DCSCTP_CHUNK_I_DATA:
        sum = (uint64_t)row->tsn + row->mid + row->fsn + row->ppid + row->stream + row->ssn;
        sum += row->is_unordered + row->is_beginning + row->is_end + row->immediate_ack;
        return sum + sum_of_value(bytes + row->rest_offset, row->rest_size);
    case DCSCTP_CHUNK_INIT:
    case DCSCTP_CHUNK_INIT_ACK:
        sum = (uint64_t)row->initiate_tag + row->a_rwnd + row->outbound_streams + row->inbound_streams + row->tsn;
        return sum + sum_of_all_items(bytes, length, &row->chunk);
    case DCSCTP_CHUNK_SACK:
        sum = (uint64_t)row->tsn + row->a_rwnd;
        if (row->count > 0)
            dcsctp_gap_ack_blocks(bytes, length, &row->chunk, blocks, MOST_ITEMS);
        for (size_t i = 0; i < row->count; i++)
            sum += (uint32_t)blocks[i].start + blocks[i].end;
        if (row->duplicate_count > 0)
            dcsctp_duplicate_tsns(bytes, length, &row->chunk, tsns, MOST_ITEMS);
        for (size_t i = 0; i < row->duplicate_count; i++)
            sum += tsns[i];
        return sum;
    case DCSCTP_CHUNK_SHUTDOWN:
        return row->tsn;
    case DCSCTP_CHUNK_FORWARD_TSN:
    case DCSCTP_CHUNK_I_FORWARD_TSN:
        sum = row->tsn;
        if (row->count > 0)
            dcsctp_skipped_streams(bytes, length, &row->chunk, streams, MOST_ITEMS);
        for (size_t i = 0; i < row->count; i++)
            sum += (uint64_t)streams[i].stream + streams[i].ssn + streams[i].mid + streams[i].is_unordered;
        return sum;
    case DCSCTP_CHUNK_HEARTBEAT:
    case DCSCTP_CHUNK_HEARTBEAT_ACK:
    case DCSCTP_CHUNK_ABORT:
    case DCSCTP_CHUNK_ERROR:
    case DCSCTP_CHUNK_RE_CONFIG:
        return sum_of_all_items(bytes, length, &row->chunk);
    default:
        return sum_of_value(bytes + row->chunk.value_offset, row->chunk.value_size);
    }
}

static uint64_t by_rows(const uint8_t *bytes, size_t length)
{
    static struct dcsctp_row rows[MOST_ITEMS];
    struct dcsctp_packet packet;
    uint64_t sum = 1;
    if (dcsctp_read(bytes, length, 0, &any, rows, MOST_ITEMS, &packet) != DCSCTP_OK)
        return 0;
    for (size_t i = 0; i < packet.chunk_count; i++)
        sum += rows[i].chunk.type + sum_of_row(bytes, length, &rows[i]);
    return sum;
}

#endif

/* ---- by hand */

static uint32_t u16(const uint8_t *bytes)
{
    return (uint32_t)(bytes[0] << 8 | bytes[1]);
}

static uint32_t u32(const uint8_t *bytes)
{
    return u16(bytes) << 16 | u16(bytes + 2);
}

/* Returns how many of the bytes that are left a chunk, a parameter or an error cause takes, its padding included; 0 where
   its length is wrong (RFC 9260 sections 3.2 and 3.2.1). The last one may lack padding. */
static size_t step_of(const uint8_t *item, size_t left)
{
    if (left < 4)
        return 0;
    size_t length = u16(item + 2), padded = (length + 3) & ~(size_t)3;
    if (length < 4 || length > left)
        return 0;
    return padded < left ? padded : left;
}

/* RFC 3758 section 3.1, RFC 6525 section 4 and RFC 9653 section 4. */
static bool is_parameter(uint32_t type, const uint8_t *value, size_t size)
{
    switch (type) {
    case DCSCTP_PARAMETER_OUTGOING_SSN_RESET:
        return size >= 12 && size % 2 == 0;
    case DCSCTP_PARAMETER_INCOMING_SSN_RESET:
        return size >= 4 && size % 2 == 0;
    case DCSCTP_PARAMETER_RECONFIGURATION_RESPONSE:
        return (size == 8 || size == 16) && u32(value + 4) <= DCSCTP_RE_CONFIG_IN_PROGRESS;
    case DCSCTP_PARAMETER_ADD_OUTGOING_STREAMS:
    case DCSCTP_PARAMETER_ADD_INCOMING_STREAMS:
        return size == 8;
    case DCSCTP_PARAMETER_SSN_TSN_RESET:
    case DCSCTP_PARAMETER_ZERO_CHECKSUM_ACCEPTABLE:
        return size == 4;
    case DCSCTP_PARAMETER_FORWARD_TSN_SUPPORTED:
        return size == 0;
    default:
        return true;
    }
}

/* RFC 9260 section 3.3.10. */
static bool is_cause(uint32_t code, const uint8_t *value, size_t size)
{
    switch (code) {
    case DCSCTP_CAUSE_MISSING_MANDATORY_PARAMETER:
        return size >= 4 && size == 4 + 2 * (size_t)u32(value);
    case DCSCTP_CAUSE_NO_USER_DATA:
        return size == 4;
    case DCSCTP_CAUSE_COOKIE_RECEIVED_WHILE_SHUTTING_DOWN:
        return size == 0;
    default:
        return true;
    }
}

static bool are_items(const uint8_t *list, size_t left, bool (*is_item)(uint32_t, const uint8_t *, size_t))
{
    for (size_t step; left > 0; list += step, left -= step) {
        step = step_of(list, left);
        if (step == 0 || !is_item(u16(list), list + 4, u16(list + 2) - 4))
            return false;
    }
    return true;
}

/* RFC 3758 section 3.2, RFC 6525 section 3.1, RFC 8260 section 2 and RFC 9260 section 3.3. */
static bool is_chunk(uint8_t type, const uint8_t *value, size_t size)
{
    switch (type) {
    case DCSCTP_CHUNK_DATA:
        return size >= 12;
    case DCSCTP_CHUNK_I_DATA:
        return size >= 16;
    case DCSCTP_CHUNK_INIT:
    case DCSCTP_CHUNK_INIT_ACK:
        return size >= 16 && are_items(value + 16, size - 16, is_parameter);
    case DCSCTP_CHUNK_SACK:
        return size >= 12 && size == 12 + 4 * (size_t)(u16(value + 8) + u16(value + 10));
    case DCSCTP_CHUNK_HEARTBEAT:
    case DCSCTP_CHUNK_HEARTBEAT_ACK:
    case DCSCTP_CHUNK_RE_CONFIG:
        return are_items(value, size, is_parameter);
    case DCSCTP_CHUNK_ABORT:
    case DCSCTP_CHUNK_ERROR:
        return are_items(value, size, is_cause);
    case DCSCTP_CHUNK_SHUTDOWN:
        return size == 4;
    case DCSCTP_CHUNK_SHUTDOWN_ACK:
    case DCSCTP_CHUNK_COOKIE_ACK:
    case DCSCTP_CHUNK_SHUTDOWN_COMPLETE:
        return size == 0;
    case DCSCTP_CHUNK_COOKIE_ECHO:
        return size > 0;
    case DCSCTP_CHUNK_FORWARD_TSN:
        return size >= 4 && size % 4 == 0;
    case DCSCTP_CHUNK_I_FORWARD_TSN:
        return size >= 4 && size % 8 == 4;
    default:
        return true;
    }
}

static bool is_packet(const uint8_t *bytes, size_t length)
{
    if (length < 16 || length > 65535)
        return false;
    for (size_t at = 12, step; at < length; at += step) {
        step = step_of(bytes + at, length - at);
        if (step == 0 || !is_chunk(bytes[at], bytes + at + 4, u16(bytes + at + 2) - 4))
            return false;
    }
    return true;
}

static uint64_t sum_of_list(const uint8_t *list, size_t left)
{
    uint64_t sum = 0;
    for (size_t step; left > 0; list += step, left -= step) {
        step = step_of(list, left);
        sum += u16(list) + sum_of_value(list + 4, u16(list + 2) - 4);
    }
    return sum;
}

/* Returns the sum over a chunk that was checked. */
static uint64_t sum_of(uint8_t type, uint8_t flags, const uint8_t *value, size_t size)
{
    const uint8_t *at, *end = value + size;
    uint64_t sum, bits = (flags & 1) + (flags >> 1 & 1) + (flags >> 2 & 1) + (flags >> 3 & 1);
    switch (type) {
    case DCSCTP_CHUNK_DATA:
        sum = bits + u32(value) + u16(value + 4) + u16(value + 6) + u32(value + 8);
        return sum + sum_of_value(value + 12, size - 12);
    case DCSCTP_CHUNK_I_DATA:
        sum = bits + u32(value) + u16(value + 4) + u32(value + 8) + u32(value + 12);
        return sum + sum_of_value(value + 16, size - 16);
    case DCSCTP_CHUNK_INIT:
    case DCSCTP_CHUNK_INIT_ACK:
        sum = (uint64_t)u32(value) + u32(value + 4) + u16(value + 8) + u16(value + 10) + u32(value + 12);
        return sum + sum_of_list(value + 16, size - 16);
    case DCSCTP_CHUNK_SACK:
        sum = (uint64_t)u32(value) + u32(value + 4);
        for (at = value + 12; at < value + 12 + 4 * (size_t)u16(value + 8); at += 4)
            sum += u16(at) + u16(at + 2);
        for (; at < end; at += 4)
            sum += u32(at);
        return sum;
    case DCSCTP_CHUNK_HEARTBEAT:
    case DCSCTP_CHUNK_HEARTBEAT_ACK:
    case DCSCTP_CHUNK_RE_CONFIG:
    case DCSCTP_CHUNK_ABORT:
    case DCSCTP_CHUNK_ERROR:
        return sum_of_list(value, size);
    case DCSCTP_CHUNK_SHUTDOWN:
        return u32(value);
    case DCSCTP_CHUNK_FORWARD_TSN:
        for (sum = u32(value), at = value + 4; at < end; at += 4)
            sum += u16(at) + u16(at + 2);
        return sum;
    case DCSCTP_CHUNK_I_FORWARD_TSN:
        for (sum = u32(value), at = value + 4; at < end; at += 8)
            sum += (uint64_t)u16(at) + (at[3] & 1) + u32(at + 4);
        return sum;
    default:
        return sum_of_value(value, size);
    }
}

static uint64_t by_hand(const uint8_t *bytes, size_t length)
{
    uint64_t sum = 1;
    if (!is_packet(bytes, length))
        return 0;
    for (size_t at = 12; at < length; at += step_of(bytes + at, length - at))
        sum += bytes[at] + sum_of(bytes[at], bytes[at + 1], bytes + at + 4, u16(bytes + at + 2) - 4);
    return sum;
}

/* By hand too, each chunk as soon as it is checked. */
static uint64_t in_one_pass(const uint8_t *bytes, size_t length)
{
    uint64_t sum = 1;
    if (length < 16 || length > 65535)
        return 0;
    for (size_t at = 12, step; at < length; at += step) {
        step = step_of(bytes + at, length - at);
        if (step == 0 || !is_chunk(bytes[at], bytes + at + 4, u16(bytes + at + 2) - 4))
            return 0;
        sum += bytes[at] + sum_of(bytes[at], bytes[at + 1], bytes + at + 4, u16(bytes + at + 2) - 4);
    }
    return sum;
}

/* ---- the clock */

static const struct {
    const char *name;
    uint64_t (*call)(const uint8_t *bytes, size_t length);
} calls[] = {
    {"davgyuti", sum_by_calls},
#ifndef CALLS_ALONE
    {"davgyuti, inline", sum_inline},
    {"davgyuti, rows", by_rows},
    {"davgyuti, proved CRC32c", verified},
    {"davgyuti, processor's CRC32c", verified_by_processor},
#endif
    {"by hand", by_hand},
    {"by hand, one pass", in_one_pass},
};
enum { CALLS = sizeof calls / sizeof calls[0], MOST = 10000 };

static struct {
    uint8_t *bytes;
    size_t length;
} packets[MOST];
static size_t count;

static void load(const char *name)
{
    FILE *file = fopen(name, "rb");
    uint8_t size[4];
    for (count = 0; file && count < MOST && fread(size, 1, 4, file) == 4; count++) {
        size_t length = (size_t)u16(size) << 16 | u16(size + 2);
        packets[count].bytes = malloc(length + 1);
        packets[count].length = length;
        if (!packets[count].bytes || fread(packets[count].bytes, 1, length, file) != length)
            break;
    }
    if (!file || !feof(file) || count == 0) {
        fprintf(stderr, "hand: %s can't be read\n", name);
        exit(1);
    }
    fclose(file);
}

static double seconds(void)
{
    struct timespec now;
    clock_gettime(CLOCK_PROCESS_CPUTIME_ID, &now);
    return (double)now.tv_sec + (double)now.tv_nsec * 1e-9;
}

static uint64_t pass(int which)
{
    uint64_t sum = 0;
    for (size_t i = 0; i < count; i++)
        sum += calls[which].call(packets[i].bytes, packets[i].length);
    return sum;
}

/* Returns the seconds of a packet. */
static double timed(int which, double least, uint64_t sum)
{
    double begin = seconds(), took;
    size_t done = 0;
    do {
        if (pass(which) != sum) {
            fprintf(stderr, "hand: a sum changes\n");
            exit(1);
        }
        done += count;
        took = seconds() - begin;
    } while (took < least);
    return took / (double)done;
}

int main(int words_count, char **words)
{
    if (words_count < 4) {
        fprintf(stderr, "usage: hand ROUNDS MILLIS FILE..\n");
        return 2;
    }
    int rounds = atoi(words[1]);
    double least = atoi(words[2]) / 1000.0;
    for (int word = 3; word < words_count; word++) {
        uint64_t sums[CALLS];
        double best[CALLS];
        load(words[word]);
        for (int which = 0; which < CALLS; which++) {
            sums[which] = pass(which);
            best[which] = INFINITY;
        }
        for (int round = 0; round < rounds; round++)
            for (int which = 0; which < CALLS; which++) {
                double one = timed(which, least, sums[which]);
                best[which] = one < best[which] ? one : best[which];
            }
        for (int which = 0; which < CALLS; which++)
            printf("%s\t%s\t%llu\t%.2f\n", words[word], calls[which].name, (unsigned long long)sums[which], best[which] * 1e9);
        for (size_t i = 0; i < count; i++)
            free(packets[i].bytes);
    }
    return 0;
}
