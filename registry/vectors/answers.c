/* SPDX-License-Identifier: Apache-2.0 */
/* Answers vectors.py by the proved calls: a line of words in, a line of JSON out. The first word is what is asked; the others
   are its arguments, as `name=value`: numbers, bytes in hexadecimal, lists with commas. */
#include <dcsctp_registered.h>
#include <stdio.h>
#include <stdlib.h>
#include <string.h>

enum { ROOM = 65536, MOST = ROOM / 2, TOO_MANY = ROOM };

/* ---- the request */

static char *words[TOO_MANY];
static size_t first, last;      /* the words that arguments are looked for in */
static void *made[TOO_MANY];    /* what is freed after the answer */
static size_t made_count;

/* Each list has a memory of its own, so that a sanitizer sees a read too far. */
static void *block(size_t size)
{
    if (made_count == TOO_MANY || (!(made[made_count] = malloc(size)) && size))
        abort();
    return made[made_count++];
}

static const char *argument(const char *name)
{
    size_t size = strlen(name);
    for (size_t at = first; at < last; at++)
        if (!strncmp(words[at], name, size) && words[at][size] == '=')
            return words[at] + size + 1;
    return NULL;
}

static uint32_t number(const char *name)
{
    const char *text = argument(name);
    return text ? (uint32_t)strtoul(text, NULL, 10) : 0;
}

struct bytes {
    uint8_t *at;
    size_t size;
};

static struct bytes bytes(const char *name)
{
    const char *text = argument(name);
    struct bytes it = {NULL, text ? strlen(text) / 2 : 0};
    it.at = block(it.size);
    for (size_t at = 0; at < it.size; at++) {
        const char digits[] = {text[2 * at], text[2 * at + 1], 0};
        it.at[at] = (uint8_t)strtoul(digits, NULL, 16);
    }
    return it;
}

/* A list of numbers, also as those of two bytes and of one. */
struct numbers {
    uint32_t *at;
    uint16_t *shorts;
    uint8_t *octets;
    size_t count;
};

static struct numbers numbers(const char *name)
{
    const char *text = argument(name), *end_of_one = text;
    struct numbers it = {NULL, NULL, NULL, 0};
    for (const char *at = text; at && *at; at++)
        it.count += at == text || *at == ',';
    it.at = block(it.count * sizeof *it.at);
    it.shorts = block(it.count * sizeof *it.shorts);
    it.octets = block(it.count);
    for (size_t at = 0; at < it.count; at++, text = end_of_one + 1) {
        it.at[at] = (uint32_t)strtoul(text, (char **)&end_of_one, 10);
        it.shorts[at] = (uint16_t)it.at[at];
        it.octets[at] = (uint8_t)it.at[at];
    }
    return it;
}

/* ---- the answer */

static const char *comma = "";

static void key(const char *name)
{
    printf(*name ? "%s\"%s\":" : "%s", comma, name);
    comma = ",";
}

static void begin(const char *name, char bracket)
{
    key(name);
    putchar(bracket);
    comma = "";
}

static void end(char bracket)
{
    putchar(bracket);
    comma = ",";
}

static void put(const char *name, uint64_t it)
{
    key(name);
    printf("%llu", (unsigned long long)it);
}

static void put_bytes(const char *name, const uint8_t *at, size_t size)
{
    key(name);
    putchar('"');
    while (size--)
        printf("%02x", *at++);
    putchar('"');
}

static void put_shorts(const char *name, const uint16_t *list, size_t count)
{
    begin(name, '[');
    while (count--)
        put("", *list++);
    end(']');
}

#define PUT(it, field) put(#field, (it).field)

static uint16_t shorts[MOST];
static struct dcsctp_parameter items[MOST];

/* ---- what is read */

static void read_item(struct bytes in, const struct dcsctp_parameter *item)
{
    struct dcsctp_re_config it;
    uint32_t alone;
    begin("", '{');
    PUT(*item, type);
    put_bytes("value", in.at + item->value_offset, item->value_size);
    if (dcsctp_number(in.at, in.size, item, &alone))
        put("number", alone);
    if (dcsctp_re_config(in.at, in.size, item, &it)) {
        PUT(it, request_number), PUT(it, response_number), PUT(it, last_tsn), PUT(it, result), PUT(it, new_streams);
        if (it.has_next_tsns) {
            begin("next_tsns", '{');
            put("sender", it.sender_next_tsn);
            put("receiver", it.receiver_next_tsn);
            end('}');
        }
        put_shorts("streams", shorts, dcsctp_reset_streams(in.at, in.size, item, shorts, MOST));
    }
    put_shorts("types", shorts, dcsctp_missing_parameters(in.at, in.size, item, shorts, MOST));
    end('}');
}

static void read_sack(struct bytes in, const struct dcsctp_chunk *chunk, const struct dcsctp_sack *it)
{
    static struct dcsctp_gap_ack_block blocks[MOST];
    static uint32_t duplicates[MOST];
    PUT(*it, cumulative_tsn_ack), PUT(*it, a_rwnd);
    begin("blocks", '[');
    size_t count = dcsctp_gap_ack_blocks(in.at, in.size, chunk, blocks, MOST);
    for (size_t at = 0; at < count; at++) {
        begin("", '{');
        PUT(blocks[at], start), PUT(blocks[at], end);
        end('}');
    }
    end(']');
    begin("duplicates", '[');
    count = dcsctp_duplicate_tsns(in.at, in.size, chunk, duplicates, MOST);
    for (size_t at = 0; at < count; at++)
        put("", duplicates[at]);
    end(']');
}

static void read_streams(struct bytes in, const struct dcsctp_chunk *chunk)
{
    static struct dcsctp_skipped_stream streams[MOST];
    begin("streams", '[');
    size_t count = dcsctp_skipped_streams(in.at, in.size, chunk, streams, MOST);
    for (size_t at = 0; at < count; at++) {
        begin("", '{');
        PUT(streams[at], stream), PUT(streams[at], ssn), PUT(streams[at], mid), PUT(streams[at], is_unordered);
        end('}');
    }
    end(']');
}

static void read_chunk(struct bytes in, const struct dcsctp_chunk *chunk)
{
    struct dcsctp_data data;
    struct dcsctp_sack sack;
    struct dcsctp_init init;
    struct dcsctp_forward_tsn forward_tsn;
    uint32_t tsn;
    begin("", '{');
    PUT(*chunk, type), PUT(*chunk, flags);
    put_bytes("value", in.at + chunk->value_offset, chunk->value_size);
    if (dcsctp_data(in.at, in.size, chunk, &data)) {
        PUT(data, tsn), PUT(data, mid), PUT(data, fsn), PUT(data, ppid), PUT(data, stream), PUT(data, ssn);
        PUT(data, is_unordered), PUT(data, is_beginning), PUT(data, is_end), PUT(data, immediate_ack);
        put_bytes("payload", in.at + data.payload_offset, data.payload_size);
    }
    if (dcsctp_sack(in.at, in.size, chunk, &sack))
        read_sack(in, chunk, &sack);
    if (dcsctp_init(in.at, in.size, chunk, &init)) {
        PUT(init, initiate_tag), PUT(init, a_rwnd), PUT(init, outbound_streams), PUT(init, inbound_streams);
        PUT(init, initial_tsn);
    }
    if (dcsctp_shutdown(in.at, in.size, chunk, &tsn))
        put("cumulative_tsn_ack", tsn);
    if (dcsctp_forward_tsn(in.at, in.size, chunk, &forward_tsn)) {
        PUT(forward_tsn, new_cumulative_tsn);
        read_streams(in, chunk);
    }
    put("tag_reflected", chunk->flags & DCSCTP_TAG_REFLECTED);
    begin("items", '[');
    size_t count = dcsctp_parameters(in.at, in.size, chunk, items, MOST);
    for (size_t at = 0; at < count; at++)
        read_item(in, &items[at]);
    end(']');
    end('}');
}

/* A packet: its fault, of either policy, and else its chunks. */
static void read_packet(void)
{
    struct bytes in = bytes("packet");
    struct dcsctp_packet packet;
    struct dcsctp_chunk chunk;
    for (int strict = 0; strict < 2; strict++) {
        const struct dcsctp_policy policy = {.any_checksum = true, .strict_padding = strict};
        if (dcsctp_read(in.at, in.size, 0, &policy, NULL, 0, &packet) != DCSCTP_OK) {
            begin(strict ? "strict" : "fault", '[');
            put("", packet.code);
            put("", packet.fault_offset);
            end(']');
        }
        if (!strict && packet.code != DCSCTP_OK)
            return;
    }
    begin("chunks", '[');
    for (size_t at = DCSCTP_FIRST_CHUNK; dcsctp_chunk_at(in.at, in.size, at, &chunk); at = chunk.next)
        read_chunk(in, &chunk);
    end(']');
}

/* ---- what is written */

static uint8_t output[ROOM];
static struct dcsctp_writer writer;

#define U16(field) .field = (uint16_t)number(#field)
#define U32(field) .field = number(#field)

static uint32_t add_data(bool is_i_data)
{
    const struct dcsctp_data data = {U32(tsn), U32(mid), U32(fsn), U32(ppid), U16(stream), U16(ssn), U32(is_unordered),
                                     U32(is_beginning), U32(is_end), U32(immediate_ack)};
    struct bytes payload = bytes("payload");
    return (is_i_data ? dcsctp_writer_add_i_data : dcsctp_writer_add_data)(&writer, &data, payload.at, payload.size);
}

static uint32_t add_init(bool is_ack)
{
    const struct dcsctp_init init = {U32(initiate_tag), U32(a_rwnd), U16(outbound_streams), U16(inbound_streams),
                                     U32(initial_tsn)};
    return (is_ack ? dcsctp_writer_add_init_ack : dcsctp_writer_add_init)(&writer, &init);
}

static uint32_t add_sack(void)
{
    struct numbers gaps = numbers("blocks"), duplicates = numbers("duplicates");
    struct dcsctp_gap_ack_block *blocks = block(gaps.count / 2 * sizeof *blocks);
    for (size_t at = 0; at < gaps.count / 2; at++)
        blocks[at] = (struct dcsctp_gap_ack_block){gaps.shorts[2 * at], gaps.shorts[2 * at + 1]};
    return dcsctp_writer_add_sack(&writer, number("cumulative_tsn_ack"), number("a_rwnd"), blocks, gaps.count / 2,
                           duplicates.at, duplicates.count);
}

/* A stream has two numbers, or three with the U bit. */
static uint32_t add_forward_tsn(bool is_i_forward)
{
    struct numbers in = numbers("streams");
    const size_t each = is_i_forward ? 3 : 2, count = in.count / each;
    const uint32_t tsn = number("new_cumulative_tsn"), *it = in.at;
    struct dcsctp_skipped_stream *streams = block(count * sizeof *streams);
    for (size_t at = 0; at < count; at++, it += each)
        streams[at] = is_i_forward ? (struct dcsctp_skipped_stream){(uint16_t)it[0], 0, it[2], it[1]}
                                   : (struct dcsctp_skipped_stream){(uint16_t)it[0], (uint16_t)it[1], 0, false};
    return is_i_forward ? dcsctp_writer_add_i_forward_tsn(&writer, tsn, streams, count)
                        : dcsctp_writer_add_forward_tsn(&writer, tsn, streams, count);
}

static uint32_t add_re_config(void)
{
    struct numbers streams = numbers("streams"), next = numbers("next_tsns");
    struct dcsctp_re_config it = {U16(type), U32(request_number), U32(response_number), U32(last_tsn), U32(result),
                                  .has_next_tsns = next.count == 2, U16(new_streams)};
    if (it.has_next_tsns)
        it.sender_next_tsn = next.at[0], it.receiver_next_tsn = next.at[1];
    return dcsctp_writer_add_re_config(&writer, &it, streams.shorts, streams.count);
}

static bool is(const char *one, const char *other)
{
    return !strcmp(one, other);
}

/* A chunk, or what is in the list of the last one. */
static uint32_t add_part(const char *what)
{
    struct bytes value = bytes("value"), cookie = bytes("cookie");
    struct numbers types = numbers("types");
    if (is(what, "re_config"))
        return add_re_config();
    if (is(what, "item"))
        return dcsctp_writer_add_parameter(&writer, (uint16_t)number("type"), value.at, value.size);
    if (is(what, "number"))
        return dcsctp_writer_add_number(&writer, (uint16_t)number("type"), number("number"));
    if (is(what, "missing"))
        return dcsctp_writer_add_missing_parameters(&writer, types.shorts, types.count);
    if (is(what, "data") || is(what, "i_data"))
        return add_data(is(what, "i_data"));
    if (is(what, "init") || is(what, "init_ack"))
        return add_init(is(what, "init_ack"));
    if (is(what, "sack"))
        return add_sack();
    if (is(what, "shutdown"))
        return dcsctp_writer_add_shutdown(&writer, number("cumulative_tsn_ack"));
    if (is(what, "shutdown_ack"))
        return dcsctp_writer_add_shutdown_ack(&writer);
    if (is(what, "shutdown_complete"))
        return dcsctp_writer_add_shutdown_complete(&writer, number("tag_reflected"));
    if (is(what, "cookie_echo"))
        return dcsctp_writer_add_cookie_echo(&writer, cookie.at, cookie.size);
    if (is(what, "cookie_ack"))
        return dcsctp_writer_add_cookie_ack(&writer);
    if (is(what, "forward_tsn") || is(what, "i_forward_tsn"))
        return add_forward_tsn(is(what, "i_forward_tsn"));
    return dcsctp_writer_add_chunk(&writer, (uint8_t)number("type"), (uint8_t)number("flags"), value.at, value.size);
}

static void begin_packet(void)
{
    if (dcsctp_writer_begin(&writer, output, ROOM, 5000, 5001, 0x01020304) != DCSCTP_OK)
        abort();
}

/* Parts, one after the other: a word without `=` begins one. */
static void write_packet(void)
{
    size_t end_of_all = last;
    uint32_t code = DCSCTP_OK;
    begin_packet();
    for (size_t at = first; at < end_of_all && code == DCSCTP_OK; at = last) {
        for (last = first = at + 1; last < end_of_all && strchr(words[last], '='); last++)
            ;
        code = add_part(words[at]);
    }
    put("code", code);
    put_bytes("bytes", output + DCSCTP_FIRST_CHUNK, writer.size - DCSCTP_FIRST_CHUNK);
}

/* ---- what is kept as bytes */

static void put_part(const char *name, struct bytes in, size_t offset, size_t size)
{
    put_bytes(name, in.at + offset, size);
}

static void put_numbers(const char *name, struct bytes in, size_t offset, size_t size)
{
    const struct dcsctp_parameter part = {0, offset, size, offset + size};
    put_shorts(name, shorts, dcsctp_short_numbers(in.at, in.size, &part, shorts, MOST));
}

static void put_items(const char *name, const char *number_name, struct bytes in, size_t offset, size_t size)
{
    begin(name, '[');
    for (size_t at = 0, count = dcsctp_items(in.at, offset + size, offset, items, MOST); at < count; at++) {
        begin("", '{');
        put(number_name, items[at].type);
        put_bytes("value", in.at + items[at].value_offset, items[at].value_size);
        end('}');
    }
    end(']');
}

static struct bytes joined(struct bytes address, struct bytes rest)
{
    struct bytes it = {block(address.size + rest.size), address.size + rest.size};
    memcpy(it.at, address.at, address.size);
    memcpy(it.at + address.size, rest.at, rest.size);
    return it;
}

static struct numbers three_numbers(const char *name)
{
    struct numbers it = numbers(name);
    if (it.count != 3)
        it.shorts = memset(block(3 * sizeof *it.shorts), 0, 3 * sizeof *it.shorts);
    return it;
}

#include "registered.h"

static void read_registered(void)
{
    struct bytes in = bytes("value");
    struct dcsctp_registered it;
    const struct dcsctp_chunk chunk = {(uint8_t)number("type"), 0xa5, 0, in.size, in.size};
    const struct dcsctp_parameter item = {(uint16_t)number("type"), 0, in.size, in.size};
    const char *level = argument("level");
    if (!(is(level, "chunk") ? dcsctp_registered_chunk(in.at, in.size, &chunk, &it)
          : is(level, "parameter") ? dcsctp_registered_parameter(in.at, in.size, &item, &it)
                                   : dcsctp_registered_cause(in.at, in.size, &item, &it)))
        return;
    begin("fields", '{');
    if (is(level, "chunk"))
        put_chunk(in, &chunk);
    else
        (is(level, "parameter") ? put_parameter : put_cause)(in, &item);
    end('}');
}

static void write_registered(void)
{
    const char *level = argument("level");
    const uint16_t type = (uint16_t)number("type");
    size_t start = DCSCTP_FIRST_CHUNK;
    begin_packet();
    uint32_t code;
    if (is(level, "chunk")) {
        code = add_chunk(type);
    } else {
        if (dcsctp_writer_add_chunk(&writer, DCSCTP_CHUNK_ERROR, 0, NULL, 0) != DCSCTP_OK)
            abort();
        code = (is(level, "parameter") ? add_parameter : add_cause)(type);
        start += 4;
    }
    put("code", code);
    if (code == DCSCTP_OK)
        put_bytes("value", output + start + 4, output[start + 2] * 256u + output[start + 3] - 4);
}

/* ---- what is asked of whoever receives a packet */

static void call(void)
{
    const char *name = argument("call");
    struct bytes in = bytes("packet"), known = bytes("known");
    struct numbers types = numbers("types");
    const struct dcsctp_association association = {U32(own_tag), U32(peer_tag), .has_peer_tag = argument("peer_tag") != NULL,
                                                   U32(awaits_cookie)};
    const struct dcsctp_header header = {U16(source_port), U16(destination_port), U32(verification_tag)};
    const struct dcsctp_known of = {U32(refuses_zero), U32(has_data), U32(has_i_data)};
    struct dcsctp_chunk chunk = {0};
    uint32_t code = DCSCTP_OK;
    size_t stop = SIZE_MAX, length = in.size;
    const uint8_t *list = in.at;
    if (dcsctp_chunk_at(in.at, in.size, DCSCTP_FIRST_CHUNK, &chunk)) {
        list += dcsctp_list_offset(&chunk);
        length = chunk.value_offset + chunk.value_size - dcsctp_list_offset(&chunk);
    }
    begin_packet();
    if (is(name, "unrecognized_chunk"))
        put("returns", dcsctp_unrecognized_chunk((uint8_t)number("type")));
    else if (is(name, "unrecognized_parameter"))
        put("returns", dcsctp_unrecognized_parameter((uint16_t)number("type")));
    else if (is(name, "verify_tag"))
        put("returns", dcsctp_verify_tag(in.at, in.size, &association));
    else if (is(name, "out_of_the_blue"))
        put("returns", dcsctp_out_of_the_blue(in.at, in.size, number("is_unicast")));
    else if (is(name, "init_fault"))
        put("returns", dcsctp_init_fault(in.at, in.size, number("is_ack")));
    else if (is(name, "init_refusal"))
        put("returns", dcsctp_init_refusal(number("fault"), number("is_ack"), number("in_cookie_wait")));
    else if (is(name, "broken_rules"))
        put("returns", dcsctp_broken_rules(in.at, in.size, &of));
    else if (is(name, "adds_addresses"))
        put("returns", dcsctp_adds_addresses(list, length, known.at, known.size));
    if (is(name, "reply") || is(name, "init_abort")) {
        code = is(name, "reply") ? dcsctp_reply(output, ROOM, &writer.size, &header, number("answer"))
                                 : dcsctp_init_abort(output, ROOM, &writer.size, &header, number("initiate_tag"), number("fault"));
        if (code == DCSCTP_OK && dcsctp_writer_seal(&writer) == DCSCTP_OK)
            put_bytes("returns", output, writer.size);
    }
    if (strncmp(name, "add_", 4))
        return;
    if (is(name, "add_new_addresses")) {
        code = dcsctp_writer_add_chunk(&writer, DCSCTP_CHUNK_ABORT, 0, NULL, 0);
        code += dcsctp_writer_add_new_addresses(&writer, list, length, known.at, known.size);
    } else if (is(name, "add_unrecognized_parameters")) {
        code = dcsctp_writer_add_init_ack(&writer, &(struct dcsctp_init){0});
        code += dcsctp_writer_add_unrecognized_parameters(&writer, list, length, types.shorts, types.count,
                                                   &stop);
    } else if (is(name, "add_unrecognized_parameters_error")) {
        code = dcsctp_writer_add_unrecognized_parameters_error(&writer, list, length, types.shorts, types.count, &stop);
    } else if (is(name, "add_unrecognized_chunks")) {
        length = in.size;
        code = dcsctp_writer_add_unrecognized_chunks(&writer, in.at, in.size, types.octets, types.count, &stop);
    }
    if (code != DCSCTP_OK)
        return;
    put_bytes("returns", output + DCSCTP_FIRST_CHUNK, writer.size - DCSCTP_FIRST_CHUNK);
    if (stop < length)
        put("end", stop);
}

int main(void)
{
    static char line[8 * ROOM];
    while (fgets(line, sizeof line, stdin)) {
        for (last = 0, words[0] = strtok(line, " \n"); words[last]; words[last] = strtok(NULL, " \n"))
            if (++last == TOO_MANY)
                abort();
        if (!last)
            continue;
        first = 1;
        comma = "";
        begin("", '{');
        if (is(words[0], "read"))
            read_packet();
        else if (is(words[0], "write"))
            write_packet();
        else if (is(words[0], "read_registered"))
            read_registered();
        else if (is(words[0], "write_registered"))
            write_registered();
        else if (is(words[0], "call"))
            call();
        printf("}\n");
        while (made_count)
            free(made[--made_count]);
    }
    return 0;
}
