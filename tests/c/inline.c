/* SPDX-License-Identifier: Apache-2.0 */
/* Compares each reader of dcsctp_inline.h with the call of dcsctp.h that it stands for, on packets that are changed at random: what
   it returns, and each field that it writes, or that it writes nothing; at every offset, at indices beyond a list's end, and for
   chunks and parameters that nobody read, whose offsets and sizes lie anywhere. C99, and C++11 too.

   usage: inline PACKETS SEED <FILE

   FILE holds packets in hexadecimal, one a line. The bytes lie in a block of exactly their size, for AddressSanitizer. */
#include <dcsctp_inline.h>
#include <stdio.h>
#include <stdlib.h>
#include <string.h>

static uint8_t *bytes; /* what is read */
static size_t length;
static int fill; /* what each byte of an output holds before */

/* How often each returned false, and true. */
enum {
    OF_header, OF_chunk_at, OF_item_at, OF_parameter_at, OF_number, OF_data, OF_init, OF_sack, OF_forward_tsn, OF_re_config,
    OF_shutdown, OF_gap_ack_block, OF_duplicate_tsn, OF_skipped_stream, OF_reset_stream, OF_missing_parameter, READERS
};
static unsigned long answers[READERS][2];

static void fail(int line)
{
    fprintf(stderr, "tests/c/inline.c:%d: another answer than the library's, of these bytes: ", line);
    for (size_t i = 0; i < length; i++)
        fprintf(stderr, "%02x", bytes[i]);
    fputc('\n', stderr);
    abort();
}

/* ---- random numbers: xorshift64* */

static uint64_t state;

static size_t below(size_t limit)
{
    state ^= state >> 12;
    state ^= state << 25;
    state ^= state >> 27;
    return (size_t)(state * 0x2545f4914f6cdd1d >> 32) % limit;
}

/* An offset, a size or an index: near the packet's, small, or as large as can be. */
static size_t somewhere(void)
{
    switch (below(8)) {
    case 0:
        return SIZE_MAX - below(32);
    case 1:
        return below(40);
    default:
        return below(length + 8);
    }
}

/* ---- each reader beside its call */

/* Calls both with outputs that hold the same, and compares what they return and these, by `same`; where nothing was read, they
   hold what they held. */
#define COMPARE(reader, type, same, ...) \
    do { \
        type a, b; \
        memset(&a, fill, sizeof a); \
        memset(&b, fill, sizeof b); \
        const bool was_read = dcsctp_##reader(__VA_ARGS__, &a); \
        if (dcsctp_inline_##reader(__VA_ARGS__, &b) != was_read || !(same)) \
            fail(__LINE__); \
        answers[OF_##reader][was_read]++; \
    } while (0)
#define IS(field) (a.field == b.field)
#define IS_PLACE (IS(type) && IS(value_offset) && IS(value_size) && IS(next))

static void try_item(const struct dcsctp_parameter *item)
{
    COMPARE(number, uint32_t, a == b, bytes, length, item);
    COMPARE(re_config, struct dcsctp_re_config,
            IS(type) && IS(request_number) && IS(response_number) && IS(last_tsn) && IS(result) && IS(has_next_tsns)
                && IS(sender_next_tsn) && IS(receiver_next_tsn) && IS(new_streams) && IS(stream_count),
            bytes, length, item);
    for (size_t i = 0; i < 12; i++) {
        const size_t index = i < 9 ? i : i < 11 ? item->value_size / 2 - i : somewhere();
        COMPARE(reset_stream, uint16_t, a == b, bytes, length, item, index);
        COMPARE(missing_parameter, uint16_t, a == b, bytes, length, item, index);
    }
}

static void try_chunk(const struct dcsctp_chunk *chunk)
{
    struct dcsctp_parameter item;
    COMPARE(data, struct dcsctp_data,
            IS(tsn) && IS(mid) && IS(fsn) && IS(ppid) && IS(stream) && IS(ssn) && IS(is_unordered) && IS(is_beginning) && IS(is_end)
                && IS(immediate_ack) && IS(payload_offset) && IS(payload_size),
            bytes, length, chunk);
    COMPARE(init, struct dcsctp_init,
            IS(initiate_tag) && IS(a_rwnd) && IS(outbound_streams) && IS(inbound_streams) && IS(initial_tsn), bytes, length, chunk);
    COMPARE(sack, struct dcsctp_sack, IS(cumulative_tsn_ack) && IS(a_rwnd) && IS(block_count) && IS(duplicate_count), bytes, length,
            chunk);
    COMPARE(forward_tsn, struct dcsctp_forward_tsn, IS(new_cumulative_tsn) && IS(stream_count), bytes, length, chunk);
    COMPARE(shutdown, uint32_t, a == b, bytes, length, chunk);
    for (size_t i = 0; i < 24; i++) {
        const size_t index = i < 20 ? i : i < 23 ? chunk->value_size / 4 - (i - 19) : somewhere();
        COMPARE(gap_ack_block, struct dcsctp_gap_ack_block, IS(start) && IS(end), bytes, length, chunk, index);
        COMPARE(duplicate_tsn, uint32_t, a == b, bytes, length, chunk, index);
        COMPARE(skipped_stream, struct dcsctp_skipped_stream, IS(stream) && IS(ssn) && IS(mid) && IS(is_unordered), bytes, length,
                chunk, index);
    }
    const size_t list = dcsctp_list_offset(chunk);
    if (dcsctp_inline_list_offset(chunk) != list)
        fail(__LINE__);
    for (size_t i = 0; i < 8; i++) {
        const size_t offset = i < 6 ? list - 2 + i : somewhere();
        COMPARE(parameter_at, struct dcsctp_parameter, IS_PLACE, bytes, length, chunk, offset);
    }
    size_t steps = 0;
    for (size_t at = list; dcsctp_inline_parameter_at(bytes, length, chunk, at, &item); at = item.next) {
        COMPARE(parameter_at, struct dcsctp_parameter, IS_PLACE, bytes, length, chunk, item.next);
        try_item(&item);
        if (++steps > length / 4)
            fail(__LINE__);
    }
}

/* Writes two small numbers, of which the first is 0 more often than not, so that a list as long as they say has room now and then.
   Returns their sum. */
static size_t put_counts(uint8_t *at)
{
    const uint8_t first = (uint8_t)(below(2) * below(4)), second = (uint8_t)below(6);
    at[0] = at[2] = 0;
    at[1] = first;
    at[3] = second;
    return (size_t)first + second;
}

/* Compares what each reads of these bytes, in a block of their size. */
static void try_bytes(const uint8_t *from, size_t size)
{
    static const uint8_t types[] = {0, 1, 2, 3, 4, 5, 6, 7, 9, 64, 130, 192, 194, 255};
    static const uint16_t items[] = {2, 9, 13, 14, 15, 16, 17, 18, 0x8001};
    struct dcsctp_chunk chunk;
    struct dcsctp_parameter item;
    length = size;
    fill = (int)below(2); /* (a bool holds no other) */
    bytes = (uint8_t *)malloc(size + !size);
    if (!bytes)
        abort();
    memcpy(bytes, from, size);
    COMPARE(header, struct dcsctp_header, IS(source_port) && IS(destination_port) && IS(verification_tag) && IS(checksum), bytes,
            length);
    for (size_t i = 0; i < length + 12; i++) {
        const size_t offset = i < length + 4 ? i : somewhere();
        COMPARE(chunk_at, struct dcsctp_chunk, IS_PLACE && IS(flags), bytes, length, offset);
        COMPARE(item_at, struct dcsctp_parameter, IS_PLACE, bytes, length, offset);
    }
    size_t steps = 0;
    for (size_t at = DCSCTP_FIRST_CHUNK; dcsctp_inline_chunk_at(bytes, length, at, &chunk); at = chunk.next) {
        try_chunk(&chunk);
        if (++steps > length / 4)
            fail(__LINE__);
    }
    for (size_t i = 0; i < 12; i++) {
        chunk.type = types[below(sizeof types)];
        chunk.flags = (uint8_t)below(256);
        chunk.value_offset = somewhere();
        chunk.value_size = somewhere();
        chunk.next = somewhere();
        if (chunk.type == DCSCTP_CHUNK_SACK && chunk.value_offset < length && length - chunk.value_offset >= 12 && below(4))
            chunk.value_size = 12 + 4 * put_counts(bytes + chunk.value_offset + 8) + below(8) / 6;
        try_chunk(&chunk);
        item.type = items[below(sizeof items / sizeof *items)];
        item.value_offset = somewhere();
        item.value_size = below(2) ? 4 * below(6) : somewhere();
        item.next = somewhere();
        if (item.type == DCSCTP_CAUSE_MISSING_MANDATORY_PARAMETER && item.value_offset < length && length - item.value_offset >= 4)
            item.value_size = 4 + 2 * put_counts(bytes + item.value_offset) + below(8) / 6;
        try_item(&item);
    }
    free(bytes);
}

/* ---- packets */

enum { LINES = 200, MOST = 4096 };
static uint8_t packets[LINES][MOST];
static size_t sizes[LINES];

static size_t read_packets(void)
{
    static char line[2 * MOST + 2];
    size_t count = 0;
    unsigned byte;
    while (count < LINES && fgets(line, sizeof line, stdin)) {
        size_t size = 0;
        while (size < MOST && sscanf(line + 2 * size, "%2x", &byte) == 1)
            packets[count][size++] = (uint8_t)byte;
        sizes[count] = size;
        count += size > 0;
    }
    return count;
}

/* Changes bytes at random; returns how many are left. */
static size_t changed(uint8_t *packet, size_t size)
{
    static const uint8_t values[] = {0, 1, 2, 3, 4, 5, 6, 7, 8, 12, 13, 14, 15, 16, 17, 18, 20, 24, 64, 128, 130, 192, 194, 255};
    for (size_t times = below(5); times > 0 && size > 0; times--) {
        const size_t at = below(size);
        switch (below(4)) {
        case 0:
            packet[at] ^= (uint8_t)(1 << below(8));
            break;
        case 1: /* of a header of four bytes, most likely */
            packet[at & ~(size_t)3] = values[below(sizeof values)];
            break;
        case 2:
            packet[at] = values[below(sizeof values)];
            break;
        default:
            size = below(4) ? size - below(size < 4 ? size : 4) : at;
        }
    }
    return size;
}

int main(int words_count, char **words)
{
    static uint8_t packet[MOST];
    const size_t lines = read_packets();
    if (words_count != 3 || lines == 0) {
        fprintf(stderr, "usage: inline PACKETS SEED <FILE\n");
        return 2;
    }
    const unsigned long count = strtoul(words[1], NULL, 10);
    state = strtoul(words[2], NULL, 10) + 1;
    for (size_t i = 0; i < count; i++) {
        const size_t line = i < lines ? i : below(lines);
        memcpy(packet, packets[line], sizes[line]);
        try_bytes(packet, i < lines ? sizes[line] : changed(packet, sizes[line]));
    }
    for (int i = 0; i < READERS; i++)
        if (answers[i][0] < count / 100 || answers[i][1] < count / 100) {
            fprintf(stderr, "inline: reader %d returned false %lu times, and true %lu times\n", i, answers[i][0], answers[i][1]);
            return 1;
        }
    printf("inline: %lu packets, each reader as the library\n", count);
    return 0;
}
