/* SPDX-License-Identifier: Apache-2.0 */
/* dcsctp_msan: tells MemorySanitizer (clang -fsanitize=memory) what the library writes. dcsctp.h includes this file where it
   is on, and no other build sees it.

   MemorySanitizer doesn't see what the library does: it would take all that it writes for uninitialized, and all that it
   reads for unused. So each function that writes is wrapped: its name calls the wrapper, which calls the library. What is
   written counts as initialized, and nothing else. What is read has to be initialized, or is found: a whole packet, a policy,
   and what is put into a packet, but for the fields of a skipped stream and of a RE-CONFIG, of which each kind has others. */
#ifndef DCSCTP_MSAN_H
#define DCSCTP_MSAN_H

#include <sanitizer/msan_interface.h>

/* `before` and `after` run before and after the call, the second with its result as `returned`. */
#define DCSCTP_MSAN(type, name, declared, passed, before, after)                                                          \
    type name##_library declared __asm__(#name);                                                                         \
    type name declared __asm__(#name "_msan");                                                                           \
    __attribute__((weak, visibility("hidden"))) type name declared                                                       \
    {                                                                                                                    \
        before;                                                                                                          \
        type returned = name##_library passed;                                                                           \
        after;                                                                                                           \
        return returned;                                                                                                 \
    }

#define DCSCTP_MSAN_NOTHING (void)0
#define DCSCTP_MSAN_READS(items, count) ((count) > 0 ? __msan_check_mem_is_initialized(items, (count) * sizeof *(items)) : (void)0)
#define DCSCTP_MSAN_WRITES(is_so, items, count) ((is_so) ? __msan_unpoison(items, (count) * sizeof *(items)) : (void)0)

/* (`^` keeps what is uninitialized of each number) */
#define DCSCTP_MSAN_READS_NUMBERS(mixed) const size_t numbers = (size_t)(mixed); DCSCTP_MSAN_READS(&numbers, 1)
#define DCSCTP_MSAN_READS_FIELDS(it, first, last) \
    __msan_check_mem_is_initialized(&(it)->first, (size_t)((const char *)(&(it)->last + 1) - (const char *)&(it)->first))

/* A packet, but for the checksum field, as dcsctp_word reads it. */
#define DCSCTP_MSAN_READS_PACKET(bytes, length)                                                                          \
    DCSCTP_MSAN_READS(bytes, (length) < 8 ? (length) : 8);                                                               \
    DCSCTP_MSAN_READS((bytes) + 12, (length) < 12 ? 0 : (length) - 12)

/* Those that read a whole packet, and those that write what is in it. */
#define DCSCTP_MSAN_READS_WHOLE DCSCTP_MSAN_READS(bytes, length), DCSCTP_MSAN_READS(policy, 1)
#define DCSCTP_MSAN_WHOLE(name)                                                                                          \
    DCSCTP_MSAN(uint32_t, name,                                                                                          \
                (const uint8_t *bytes, size_t length, uint32_t word, const struct dcsctp_policy *policy, uint8_t *output, \
                 size_t room, size_t *size),                                                                             \
                (bytes, length, word, policy, output, room, size), DCSCTP_MSAN_READS_WHOLE,                              \
                DCSCTP_MSAN_WRITES(returned == DCSCTP_OK || returned == DCSCTP_NO_ROOM, size, 1);                        \
                DCSCTP_MSAN_WRITES(returned == DCSCTP_OK, output, *size))

/* Those that read a part: `owner` is a chunk or a parameter. */
#define DCSCTP_MSAN_PART(name, owner, part)                                                                              \
    DCSCTP_MSAN(bool, name, (const uint8_t *bytes, size_t length, const struct owner *of, part *it),                     \
                (bytes, length, of, it), DCSCTP_MSAN_NOTHING, DCSCTP_MSAN_WRITES(returned, it, 1))
#define DCSCTP_MSAN_ITEM(name, owner, item)                                                                              \
    DCSCTP_MSAN(bool, name, (const uint8_t *bytes, size_t length, const struct owner *of, size_t at, item *it),          \
                (bytes, length, of, at, it), DCSCTP_MSAN_NOTHING, DCSCTP_MSAN_WRITES(returned, it, 1))
#define DCSCTP_MSAN_LIST(name, owner, item)                                                                              \
    DCSCTP_MSAN(size_t, name, (const uint8_t *bytes, size_t length, const struct owner *of, item *list, size_t room),    \
                (bytes, length, of, list, room), DCSCTP_MSAN_NOTHING,                                                    \
                DCSCTP_MSAN_WRITES(true, list, returned < room ? returned : room))

/* Those that add to a packet: what is new is initialized. */
#define DCSCTP_MSAN_TO uint8_t *packet, size_t room, size_t *size
#define DCSCTP_MSAN_ADD(name, declared, passed, before)                                                                  \
    DCSCTP_MSAN(uint32_t, name, declared, passed, before; DCSCTP_MSAN_READS(&room, 1); const size_t old = *size,          \
                DCSCTP_MSAN_WRITES(returned == DCSCTP_OK, packet + old, *size - old))

/* A packet of those that dcsctp_read_many reads: before the call, and after it. */
static inline void dcsctp_msan_reads_placed(const uint8_t *bytes, size_t length, const struct dcsctp_placed_packet *it)
{
    DCSCTP_MSAN_READS_FIELDS(it, offset, size);
    if (it->offset <= length && it->size <= length - it->offset)
        DCSCTP_MSAN_READS(bytes + it->offset, it->size);
}

static inline void dcsctp_msan_writes_placed(const struct dcsctp_placed_packet *it)
{
    DCSCTP_MSAN_WRITES(true, &it->first_row, 1);
    DCSCTP_MSAN_WRITES(true, &it->packet.code, 1);
    DCSCTP_MSAN_WRITES(true, &it->packet.chunk_count, 1);
    DCSCTP_MSAN_WRITES(true, &it->packet.fault_offset, 1);
    DCSCTP_MSAN_WRITES(it->packet.code == DCSCTP_OK, &it->packet.header, 1);
}

#ifdef __cplusplus
extern "C" {
#endif

DCSCTP_MSAN(uint32_t, dcsctp_check,
            (const uint8_t *bytes, size_t length, uint32_t word, const struct dcsctp_policy *policy),
            (bytes, length, word, policy), DCSCTP_MSAN_READS_WHOLE, DCSCTP_MSAN_NOTHING)
DCSCTP_MSAN(uint32_t, dcsctp_first_fault,
            (const uint8_t *bytes, size_t length, uint32_t word, const struct dcsctp_policy *policy, size_t *offset),
            (bytes, length, word, policy, offset), DCSCTP_MSAN_READS_WHOLE, DCSCTP_MSAN_WRITES(true, offset, 1))
DCSCTP_MSAN(uint32_t, dcsctp_read,
            (const uint8_t *bytes, size_t length, uint32_t word, const struct dcsctp_policy *policy, struct dcsctp_row *rows,
             size_t row_count, struct dcsctp_packet *packet),
            (bytes, length, word, policy, rows, row_count, packet), DCSCTP_MSAN_READS_WHOLE,
            DCSCTP_MSAN_WRITES(returned == DCSCTP_OK, &packet->header, 1); DCSCTP_MSAN_WRITES(true, &packet->code, 1);
            DCSCTP_MSAN_WRITES(true, &packet->chunk_count, 1); DCSCTP_MSAN_WRITES(true, &packet->fault_offset, 1);
            DCSCTP_MSAN_WRITES(true, rows, packet->chunk_count < row_count ? packet->chunk_count : row_count))
DCSCTP_MSAN(size_t, dcsctp_read_many,
            (const uint8_t *bytes, size_t length, const struct dcsctp_policy *policy, struct dcsctp_placed_packet *packets,
             size_t packet_count, struct dcsctp_row *rows, size_t row_count),
            (bytes, length, policy, packets, packet_count, rows, row_count),
            DCSCTP_MSAN_READS(policy, 1); for (size_t i = 0; i < packet_count; i++) dcsctp_msan_reads_placed(bytes, length, &packets[i]),
            for (size_t i = 0; i < packet_count; i++) dcsctp_msan_writes_placed(&packets[i]);
            DCSCTP_MSAN_WRITES(true, rows, returned))
DCSCTP_MSAN_WHOLE(dcsctp_canonical)
DCSCTP_MSAN_WHOLE(dcsctp_print)
DCSCTP_MSAN_WHOLE(dcsctp_report)
DCSCTP_MSAN(uint32_t, dcsctp_word, (const uint8_t *bytes, size_t length), (bytes, length),
            DCSCTP_MSAN_READS_PACKET(bytes, length), DCSCTP_MSAN_NOTHING)

DCSCTP_MSAN(bool, dcsctp_header, (const uint8_t *bytes, size_t length, struct dcsctp_header *header),
            (bytes, length, header), DCSCTP_MSAN_NOTHING, DCSCTP_MSAN_WRITES(returned, header, 1))
DCSCTP_MSAN(bool, dcsctp_chunk_at, (const uint8_t *bytes, size_t length, size_t offset, struct dcsctp_chunk *chunk),
            (bytes, length, offset, chunk), DCSCTP_MSAN_NOTHING, DCSCTP_MSAN_WRITES(returned, chunk, 1))
DCSCTP_MSAN_PART(dcsctp_data, dcsctp_chunk, struct dcsctp_data)
DCSCTP_MSAN_PART(dcsctp_sack, dcsctp_chunk, struct dcsctp_sack)
DCSCTP_MSAN_ITEM(dcsctp_gap_ack_block, dcsctp_chunk, struct dcsctp_gap_ack_block)
DCSCTP_MSAN_ITEM(dcsctp_duplicate_tsn, dcsctp_chunk, uint32_t)
DCSCTP_MSAN_PART(dcsctp_init, dcsctp_chunk, struct dcsctp_init)
DCSCTP_MSAN_PART(dcsctp_shutdown, dcsctp_chunk, uint32_t)
DCSCTP_MSAN_PART(dcsctp_forward_tsn, dcsctp_chunk, struct dcsctp_forward_tsn)
DCSCTP_MSAN_ITEM(dcsctp_skipped_stream, dcsctp_chunk, struct dcsctp_skipped_stream)
DCSCTP_MSAN_ITEM(dcsctp_parameter_at, dcsctp_chunk, struct dcsctp_parameter)
DCSCTP_MSAN(bool, dcsctp_item_at, (const uint8_t *bytes, size_t length, size_t offset, struct dcsctp_parameter *item),
            (bytes, length, offset, item), DCSCTP_MSAN_NOTHING, DCSCTP_MSAN_WRITES(returned, item, 1))
DCSCTP_MSAN_PART(dcsctp_number, dcsctp_parameter, uint32_t)
DCSCTP_MSAN_PART(dcsctp_re_config, dcsctp_parameter, struct dcsctp_re_config)
DCSCTP_MSAN_ITEM(dcsctp_reset_stream, dcsctp_parameter, uint16_t)
DCSCTP_MSAN_PART(dcsctp_registered_chunk, dcsctp_chunk, struct dcsctp_registered)
DCSCTP_MSAN_PART(dcsctp_registered_parameter, dcsctp_parameter, struct dcsctp_registered)
DCSCTP_MSAN_PART(dcsctp_registered_cause, dcsctp_parameter, struct dcsctp_registered)
DCSCTP_MSAN_ITEM(dcsctp_missing_parameter, dcsctp_parameter, uint16_t)
DCSCTP_MSAN_LIST(dcsctp_gap_ack_blocks, dcsctp_chunk, struct dcsctp_gap_ack_block)
DCSCTP_MSAN_LIST(dcsctp_duplicate_tsns, dcsctp_chunk, uint32_t)
DCSCTP_MSAN_LIST(dcsctp_skipped_streams, dcsctp_chunk, struct dcsctp_skipped_stream)
DCSCTP_MSAN_LIST(dcsctp_parameters, dcsctp_chunk, struct dcsctp_parameter)
DCSCTP_MSAN(size_t, dcsctp_items,
            (const uint8_t *bytes, size_t length, size_t offset, struct dcsctp_parameter *items, size_t item_count),
            (bytes, length, offset, items, item_count), DCSCTP_MSAN_NOTHING,
            DCSCTP_MSAN_WRITES(true, items, returned < item_count ? returned : item_count))
DCSCTP_MSAN_LIST(dcsctp_reset_streams, dcsctp_parameter, uint16_t)
DCSCTP_MSAN_LIST(dcsctp_missing_parameters, dcsctp_parameter, uint16_t)
DCSCTP_MSAN_LIST(dcsctp_short_numbers, dcsctp_parameter, uint16_t)

DCSCTP_MSAN(uint32_t, dcsctp_seal, (uint8_t *packet, size_t length), (packet, length),
            DCSCTP_MSAN_READS_PACKET(packet, length), DCSCTP_MSAN_WRITES(returned == DCSCTP_OK, packet + 8, 4))
DCSCTP_MSAN(uint32_t, dcsctp_set_tag, (uint8_t *packet, size_t length, uint32_t verification_tag),
            (packet, length, verification_tag), DCSCTP_MSAN_READS_NUMBERS(verification_tag),
            DCSCTP_MSAN_WRITES(returned == DCSCTP_OK, packet + 4, 4))

DCSCTP_MSAN(uint32_t, dcsctp_begin,
            (DCSCTP_MSAN_TO, uint16_t source_port, uint16_t destination_port, uint32_t verification_tag),
            (packet, room, size, source_port, destination_port, verification_tag), DCSCTP_MSAN_READS_NUMBERS(source_port ^ destination_port ^ verification_tag),
            DCSCTP_MSAN_WRITES(returned == DCSCTP_OK, size, 1); DCSCTP_MSAN_WRITES(returned == DCSCTP_OK, packet, 12))
DCSCTP_MSAN_ADD(dcsctp_add_chunk, (DCSCTP_MSAN_TO, uint8_t type, uint8_t flags, const uint8_t *value, size_t value_size),
                (packet, room, size, type, flags, value, value_size), DCSCTP_MSAN_READS_NUMBERS(type ^ flags);
                DCSCTP_MSAN_READS(value, value_size))
DCSCTP_MSAN_ADD(dcsctp_add_data,
                (DCSCTP_MSAN_TO, const struct dcsctp_data *data, const uint8_t *payload, size_t payload_size),
                (packet, room, size, data, payload, payload_size), DCSCTP_MSAN_READS(payload, payload_size);
                DCSCTP_MSAN_READS_FIELDS(data, tsn, tsn); DCSCTP_MSAN_READS_FIELDS(data, ppid, immediate_ack))
DCSCTP_MSAN_ADD(dcsctp_add_i_data,
                (DCSCTP_MSAN_TO, const struct dcsctp_data *data, const uint8_t *payload, size_t payload_size),
                (packet, room, size, data, payload, payload_size), DCSCTP_MSAN_READS(payload, payload_size);
                DCSCTP_MSAN_READS_FIELDS(data, tsn, mid); DCSCTP_MSAN_READS_FIELDS(data, stream, stream);
                DCSCTP_MSAN_READS_FIELDS(data, is_unordered, immediate_ack);
                if (data->is_beginning) DCSCTP_MSAN_READS_FIELDS(data, ppid, ppid);
                else DCSCTP_MSAN_READS_FIELDS(data, fsn, fsn))
DCSCTP_MSAN_ADD(dcsctp_add_sack,
                (DCSCTP_MSAN_TO, uint32_t cumulative_tsn_ack, uint32_t a_rwnd, const struct dcsctp_gap_ack_block *blocks,
                 size_t block_count, const uint32_t *duplicates, size_t duplicate_count),
                (packet, room, size, cumulative_tsn_ack, a_rwnd, blocks, block_count, duplicates, duplicate_count),
                DCSCTP_MSAN_READS_NUMBERS(cumulative_tsn_ack ^ a_rwnd);
                DCSCTP_MSAN_READS(blocks, block_count); DCSCTP_MSAN_READS(duplicates, duplicate_count))
DCSCTP_MSAN_ADD(dcsctp_add_init, (DCSCTP_MSAN_TO, const struct dcsctp_init *init), (packet, room, size, init),
                DCSCTP_MSAN_READS(init, 1))
DCSCTP_MSAN_ADD(dcsctp_add_init_ack, (DCSCTP_MSAN_TO, const struct dcsctp_init *init), (packet, room, size, init),
                DCSCTP_MSAN_READS(init, 1))
DCSCTP_MSAN_ADD(dcsctp_add_cookie_echo, (DCSCTP_MSAN_TO, const uint8_t *cookie, size_t cookie_size),
                (packet, room, size, cookie, cookie_size), DCSCTP_MSAN_READS(cookie, cookie_size))
DCSCTP_MSAN_ADD(dcsctp_add_cookie_ack, (DCSCTP_MSAN_TO), (packet, room, size), DCSCTP_MSAN_NOTHING)
DCSCTP_MSAN_ADD(dcsctp_add_heartbeat, (DCSCTP_MSAN_TO, bool is_ack, const uint8_t *info, size_t info_size),
                (packet, room, size, is_ack, info, info_size), DCSCTP_MSAN_READS_NUMBERS(is_ack);
                DCSCTP_MSAN_READS(info, info_size))
DCSCTP_MSAN_ADD(dcsctp_add_abort, (DCSCTP_MSAN_TO, bool tag_reflected, const uint8_t *reason, size_t reason_size),
                (packet, room, size, tag_reflected, reason, reason_size), DCSCTP_MSAN_READS_NUMBERS(tag_reflected);
                DCSCTP_MSAN_READS(reason, reason_size))
DCSCTP_MSAN_ADD(dcsctp_add_shutdown, (DCSCTP_MSAN_TO, uint32_t cumulative_tsn_ack),
                (packet, room, size, cumulative_tsn_ack), DCSCTP_MSAN_READS_NUMBERS(cumulative_tsn_ack))
DCSCTP_MSAN_ADD(dcsctp_add_shutdown_ack, (DCSCTP_MSAN_TO), (packet, room, size), DCSCTP_MSAN_NOTHING)
DCSCTP_MSAN_ADD(dcsctp_add_shutdown_complete, (DCSCTP_MSAN_TO, bool tag_reflected), (packet, room, size, tag_reflected),
                DCSCTP_MSAN_READS_NUMBERS(tag_reflected))
DCSCTP_MSAN_ADD(dcsctp_add_forward_tsn,
                (DCSCTP_MSAN_TO, uint32_t tsn, const struct dcsctp_skipped_stream *streams, size_t stream_count),
                (packet, room, size, tsn, streams, stream_count), DCSCTP_MSAN_READS_NUMBERS(tsn))
DCSCTP_MSAN_ADD(dcsctp_add_i_forward_tsn,
                (DCSCTP_MSAN_TO, uint32_t tsn, const struct dcsctp_skipped_stream *streams, size_t stream_count),
                (packet, room, size, tsn, streams, stream_count), DCSCTP_MSAN_READS_NUMBERS(tsn))
DCSCTP_MSAN_ADD(dcsctp_add_parameter,
                (DCSCTP_MSAN_TO, size_t start, uint16_t type, const uint8_t *value, size_t value_size),
                (packet, room, size, start, type, value, value_size), DCSCTP_MSAN_READS_NUMBERS(start ^ type);
                DCSCTP_MSAN_READS(value, value_size))
DCSCTP_MSAN_ADD(dcsctp_add_number, (DCSCTP_MSAN_TO, size_t start, uint16_t type, uint32_t number),
                (packet, room, size, start, type, number), DCSCTP_MSAN_READS_NUMBERS(start ^ type ^ number))
DCSCTP_MSAN_ADD(dcsctp_add_re_config,
                (DCSCTP_MSAN_TO, size_t start, const struct dcsctp_re_config *re_config, const uint16_t *streams,
                 size_t stream_count),
                (packet, room, size, start, re_config, streams, stream_count), DCSCTP_MSAN_READS_NUMBERS(start);
                DCSCTP_MSAN_READS(streams, stream_count))
DCSCTP_MSAN_ADD(dcsctp_add_missing_parameters, (DCSCTP_MSAN_TO, size_t start, const uint16_t *types, size_t type_count),
                (packet, room, size, start, types, type_count), DCSCTP_MSAN_READS_NUMBERS(start);
                DCSCTP_MSAN_READS(types, type_count))
DCSCTP_MSAN_ADD(dcsctp_add_new_addresses,
                (DCSCTP_MSAN_TO, size_t start, const uint8_t *list, size_t list_size, const uint8_t *known, size_t known_size),
                (packet, room, size, start, list, list_size, known, known_size), DCSCTP_MSAN_READS_NUMBERS(start);
                DCSCTP_MSAN_READS(list, list_size); DCSCTP_MSAN_READS(known, known_size))

/* (the struct has padding, which nobody writes; of the bytes, those in which its parts lie) */
#define DCSCTP_MSAN_READS_PART(offset, size)                                                                             \
    DCSCTP_MSAN_READS(bytes + ((offset) < length ? (offset) : 0),                                                        \
                      (offset) <= length && (size) <= length - (offset) ? (size) : 0)
#define DCSCTP_MSAN_READS_REGISTERED                                                                                     \
    DCSCTP_MSAN_READS_FIELDS(registered, number, flags);                                                                 \
    DCSCTP_MSAN_READS_FIELDS(registered, address_offset, rest_size);                                                     \
    DCSCTP_MSAN_READS_PART(registered->address_offset, registered->address_size);                                        \
    DCSCTP_MSAN_READS_PART(registered->rest_offset, registered->rest_size)
DCSCTP_MSAN_ADD(dcsctp_add_registered_chunk,
                (DCSCTP_MSAN_TO, uint8_t type, const struct dcsctp_registered *registered, const uint8_t *bytes, size_t length),
                (packet, room, size, type, registered, bytes, length), DCSCTP_MSAN_READS_NUMBERS(type);
                DCSCTP_MSAN_READS_REGISTERED)
DCSCTP_MSAN_ADD(dcsctp_add_registered_parameter,
                (DCSCTP_MSAN_TO, size_t start, uint16_t type, const struct dcsctp_registered *registered, const uint8_t *bytes,
                 size_t length),
                (packet, room, size, start, type, registered, bytes, length), DCSCTP_MSAN_READS_NUMBERS(start ^ type);
                DCSCTP_MSAN_READS_REGISTERED)
DCSCTP_MSAN_ADD(dcsctp_add_registered_cause,
                (DCSCTP_MSAN_TO, size_t start, uint16_t code, const struct dcsctp_registered *registered, const uint8_t *bytes,
                 size_t length),
                (packet, room, size, start, code, registered, bytes, length), DCSCTP_MSAN_READS_NUMBERS(start ^ code);
                DCSCTP_MSAN_READS_REGISTERED)

DCSCTP_MSAN(uint32_t, dcsctp_unrecognized_chunk, (uint8_t type), (type), DCSCTP_MSAN_READS_NUMBERS(type), DCSCTP_MSAN_NOTHING)
DCSCTP_MSAN(uint32_t, dcsctp_unrecognized_parameter, (uint16_t type), (type), DCSCTP_MSAN_READS_NUMBERS(type),
            DCSCTP_MSAN_NOTHING)
/* Those that report what isn't recognized. */
#define DCSCTP_MSAN_REPORT(name, declared, passed, before)                                                               \
    DCSCTP_MSAN(uint32_t, name, declared, passed, before; DCSCTP_MSAN_READS(&room, 1); const size_t old = *size,          \
                DCSCTP_MSAN_WRITES(returned == DCSCTP_OK, packet + old, *size - old);                                    \
                DCSCTP_MSAN_WRITES(returned == DCSCTP_OK, end, 1))
DCSCTP_MSAN_REPORT(dcsctp_add_unrecognized_parameters,
                   (DCSCTP_MSAN_TO, size_t start, const uint8_t *list, size_t list_size, const uint16_t *known,
                    size_t known_count, size_t *end),
                   (packet, room, size, start, list, list_size, known, known_count, end), DCSCTP_MSAN_READS_NUMBERS(start);
                   DCSCTP_MSAN_READS(list, list_size); DCSCTP_MSAN_READS(known, known_count))
DCSCTP_MSAN_REPORT(dcsctp_add_unrecognized_chunks,
                   (DCSCTP_MSAN_TO, const uint8_t *bytes, size_t length, const uint8_t *known, size_t known_count, size_t *end),
                   (packet, room, size, bytes, length, known, known_count, end), DCSCTP_MSAN_READS_PACKET(bytes, length);
                   DCSCTP_MSAN_READS(known, known_count))
DCSCTP_MSAN_REPORT(dcsctp_add_unrecognized_parameters_error,
                   (DCSCTP_MSAN_TO, const uint8_t *list, size_t list_size, const uint16_t *known, size_t known_count, size_t *end),
                   (packet, room, size, list, list_size, known, known_count, end), DCSCTP_MSAN_READS(list, list_size);
                   DCSCTP_MSAN_READS(known, known_count))
DCSCTP_MSAN(bool, dcsctp_adds_addresses, (const uint8_t *list, size_t list_size, const uint8_t *known, size_t known_size),
            (list, list_size, known, known_size), DCSCTP_MSAN_READS(list, list_size); DCSCTP_MSAN_READS(known, known_size),
            DCSCTP_MSAN_NOTHING)

DCSCTP_MSAN(uint32_t, dcsctp_verify_tag,
            (const uint8_t *packet, size_t length, const struct dcsctp_association *association), (packet, length, association),
            DCSCTP_MSAN_READS_PACKET(packet, length); DCSCTP_MSAN_READS_FIELDS(association, own_tag, own_tag);
            DCSCTP_MSAN_READS_FIELDS(association, has_peer_tag, awaits_cookie);
            if (association->has_peer_tag) DCSCTP_MSAN_READS_FIELDS(association, peer_tag, peer_tag), DCSCTP_MSAN_NOTHING)
DCSCTP_MSAN(uint32_t, dcsctp_out_of_the_blue, (const uint8_t *packet, size_t length, bool is_unicast),
            (packet, length, is_unicast), DCSCTP_MSAN_READS_PACKET(packet, length); DCSCTP_MSAN_READS_NUMBERS(is_unicast),
            DCSCTP_MSAN_NOTHING)
DCSCTP_MSAN(uint32_t, dcsctp_init_fault, (const uint8_t *packet, size_t length, bool is_ack), (packet, length, is_ack),
            DCSCTP_MSAN_READS_PACKET(packet, length); DCSCTP_MSAN_READS_NUMBERS(is_ack), DCSCTP_MSAN_NOTHING)
DCSCTP_MSAN(uint32_t, dcsctp_init_refusal, (uint32_t fault, bool is_ack, bool in_cookie_wait), (fault, is_ack, in_cookie_wait),
            DCSCTP_MSAN_READS_NUMBERS(fault ^ is_ack ^ in_cookie_wait), DCSCTP_MSAN_NOTHING)
DCSCTP_MSAN(uint32_t, dcsctp_broken_rules, (const uint8_t *packet, size_t length, const struct dcsctp_known *known),
            (packet, length, known), DCSCTP_MSAN_READS(packet, length); DCSCTP_MSAN_READS(known, 1), DCSCTP_MSAN_NOTHING)
DCSCTP_MSAN(bool, dcsctp_is_listed, (const uint8_t *list, size_t list_size, uint8_t type), (list, list_size, type),
            DCSCTP_MSAN_READS(list, list_size); DCSCTP_MSAN_READS_NUMBERS(type), DCSCTP_MSAN_NOTHING)
DCSCTP_MSAN(bool, dcsctp_verify_auth, (const uint8_t *key, size_t key_size, const uint8_t *bytes, size_t length),
            (key, key_size, bytes, length), DCSCTP_MSAN_READS(key, key_size); DCSCTP_MSAN_READS(bytes, length),
            DCSCTP_MSAN_NOTHING)
DCSCTP_MSAN(uint32_t, dcsctp_reply, (DCSCTP_MSAN_TO, const struct dcsctp_header *header, uint32_t answer),
            (packet, room, size, header, answer), DCSCTP_MSAN_READS_NUMBERS(answer);
            DCSCTP_MSAN_READS_FIELDS(header, source_port, verification_tag),
            DCSCTP_MSAN_WRITES(returned == DCSCTP_OK, size, 1); DCSCTP_MSAN_WRITES(returned == DCSCTP_OK, packet, 16))

DCSCTP_MSAN(uint32_t, dcsctp_init_abort,
            (DCSCTP_MSAN_TO, const struct dcsctp_header *header, uint32_t initiate_tag, uint32_t fault),
            (packet, room, size, header, initiate_tag, fault), DCSCTP_MSAN_READS_NUMBERS(initiate_tag ^ fault);
            DCSCTP_MSAN_READS_FIELDS(header, source_port, verification_tag),
            DCSCTP_MSAN_WRITES(returned == DCSCTP_OK, size, 1); DCSCTP_MSAN_WRITES(returned == DCSCTP_OK, packet, *size))

DCSCTP_MSAN(uint32_t, dcsctp_shared_key,
            (uint8_t *output, size_t room, size_t *size, const uint8_t *pair_key, size_t pair_key_size, const uint8_t *one,
             size_t one_size, const uint8_t *other, size_t other_size),
            (output, room, size, pair_key, pair_key_size, one, one_size, other, other_size),
            DCSCTP_MSAN_READS(pair_key, pair_key_size); DCSCTP_MSAN_READS(one, one_size); DCSCTP_MSAN_READS(other, other_size),
            DCSCTP_MSAN_WRITES(returned == DCSCTP_OK, size, 1); DCSCTP_MSAN_WRITES(returned == DCSCTP_OK, output, *size))
DCSCTP_MSAN(bool, dcsctp_sign_auth, (const uint8_t *key, size_t key_size, uint8_t *bytes, size_t length),
            (key, key_size, bytes, length), DCSCTP_MSAN_READS(key, key_size); DCSCTP_MSAN_READS(bytes, length < 8 ? length : 8),
            DCSCTP_MSAN_WRITES(returned, bytes + 8, (size_t)(bytes[2] * 256 + bytes[3] - 8)))
DCSCTP_MSAN(uint32_t, dcsctp_seal_cookie,
            (uint8_t *output, size_t room, size_t *size, const uint8_t *key, size_t key_size, const struct dcsctp_cookie *cookie,
             const uint8_t *extra, size_t extra_size),
            (output, room, size, key, key_size, cookie, extra, extra_size),
            DCSCTP_MSAN_READS(key, key_size); DCSCTP_MSAN_READS(extra, extra_size);
            DCSCTP_MSAN_READS_FIELDS(cookie, created, inbound_streams),
            DCSCTP_MSAN_WRITES(returned == DCSCTP_OK, size, 1); DCSCTP_MSAN_WRITES(returned == DCSCTP_OK, output, *size))
DCSCTP_MSAN(uint32_t, dcsctp_open_cookie,
            (const uint8_t *key, size_t key_size, const uint8_t *bytes, size_t length, uint64_t now, struct dcsctp_cookie *cookie,
             uint64_t *staleness),
            (key, key_size, bytes, length, now, cookie, staleness), DCSCTP_MSAN_READS(key, key_size);
            DCSCTP_MSAN_READS(bytes, length); DCSCTP_MSAN_READS(&now, 1),
            DCSCTP_MSAN_WRITES(returned != DCSCTP_COOKIE_INVALID, cookie, 1);
            DCSCTP_MSAN_WRITES(returned != DCSCTP_COOKIE_INVALID, staleness, 1))

DCSCTP_MSAN(size_t, dcsctp_clean_blocks, (struct dcsctp_gap_ack_block *blocks, size_t block_count),
            (blocks, block_count), DCSCTP_MSAN_READS(blocks, block_count), DCSCTP_MSAN_NOTHING)

#ifdef __cplusplus
}
#endif

#endif
