/* SPDX-License-Identifier: Apache-2.0 */
/* Reads packets by dcsctp.h, call by call: hand.c includes this file for the calls, and for the readers of dcsctp_inline.h. READ(data)
   is what reads DATA, and OF(sum) a function here. A kind has its own numbers, as by hand: the others are 0. */

static uint64_t OF(sum_of_items)(const uint8_t *bytes, size_t end, size_t at)
{
    struct dcsctp_parameter item;
    uint64_t sum = 0;
    for (; READ(item_at)(bytes, end, at, &item); at = item.next)
        sum += item.type + sum_of_value(bytes + item.value_offset, item.value_size);
    return sum;
}

static uint64_t OF(sum_of_chunk)(const uint8_t *bytes, size_t length, const struct dcsctp_chunk *chunk)
{
    struct dcsctp_data data;
    struct dcsctp_init init;
    struct dcsctp_sack sack;
    struct dcsctp_gap_ack_block block;
    struct dcsctp_forward_tsn forward;
    struct dcsctp_skipped_stream stream;
    uint64_t sum;
    uint32_t tsn = 0;
    switch (chunk->type) {
    case DCSCTP_CHUNK_DATA:
        if (!READ(data)(bytes, length, chunk, &data))
            return 0;
        sum = (uint64_t)data.tsn + data.stream + data.ssn + data.ppid;
        return sum + sum_of_payload(bytes, &data);
    case DCSCTP_CHUNK_I_DATA:
        if (!READ(data)(bytes, length, chunk, &data))
            return 0;
        sum = (uint64_t)data.tsn + data.stream + data.mid + data.fsn + data.ppid;
        return sum + sum_of_payload(bytes, &data);
    case DCSCTP_CHUNK_INIT:
    case DCSCTP_CHUNK_INIT_ACK:
        if (!READ(init)(bytes, length, chunk, &init))
            return 0;
        sum = (uint64_t)init.initiate_tag + init.a_rwnd + init.outbound_streams + init.inbound_streams + init.initial_tsn;
        return sum + OF(sum_of_items)(bytes, chunk->value_offset + chunk->value_size, READ(list_offset)(chunk));
    case DCSCTP_CHUNK_SACK:
        if (!READ(sack)(bytes, length, chunk, &sack))
            return 0;
        sum = (uint64_t)sack.cumulative_tsn_ack + sack.a_rwnd;
        for (size_t i = 0; i < sack.block_count && READ(gap_ack_block)(bytes, length, chunk, i, &block); i++)
            sum += (uint32_t)block.start + block.end;
        for (size_t i = 0; i < sack.duplicate_count && READ(duplicate_tsn)(bytes, length, chunk, i, &tsn); i++)
            sum += tsn;
        return sum;
    case DCSCTP_CHUNK_SHUTDOWN:
        return READ(shutdown)(bytes, length, chunk, &tsn) ? tsn : 0;
    case DCSCTP_CHUNK_FORWARD_TSN:
        if (!READ(forward_tsn)(bytes, length, chunk, &forward))
            return 0;
        sum = forward.new_cumulative_tsn;
        for (size_t i = 0; i < forward.stream_count && READ(skipped_stream)(bytes, length, chunk, i, &stream); i++)
            sum += (uint64_t)stream.stream + stream.ssn;
        return sum;
    case DCSCTP_CHUNK_I_FORWARD_TSN:
        if (!READ(forward_tsn)(bytes, length, chunk, &forward))
            return 0;
        sum = forward.new_cumulative_tsn;
        for (size_t i = 0; i < forward.stream_count && READ(skipped_stream)(bytes, length, chunk, i, &stream); i++)
            sum += (uint64_t)stream.stream + stream.mid + stream.is_unordered;
        return sum;
    case DCSCTP_CHUNK_HEARTBEAT:
    case DCSCTP_CHUNK_HEARTBEAT_ACK:
    case DCSCTP_CHUNK_ABORT:
    case DCSCTP_CHUNK_ERROR:
    case DCSCTP_CHUNK_RE_CONFIG:
        return OF(sum_of_items)(bytes, chunk->value_offset + chunk->value_size, READ(list_offset)(chunk));
    default:
        return sum_of_value(bytes + chunk->value_offset, chunk->value_size);
    }
}

static inline uint64_t OF(sum_under)(const struct dcsctp_policy *policy, uint32_t word, const uint8_t *bytes, size_t length)
{
    struct dcsctp_chunk chunk;
    uint64_t sum = 1;
    if (dcsctp_check(bytes, length, word, policy) != DCSCTP_OK)
        return 0;
    for (size_t at = DCSCTP_FIRST_CHUNK; READ(chunk_at)(bytes, length, at, &chunk); at = chunk.next)
        sum += chunk.type + OF(sum_of_chunk)(bytes, length, &chunk);
    return sum;
}

static uint64_t OF(sum)(const uint8_t *bytes, size_t length)
{
    return OF(sum_under)(&any, 0, bytes, length);
}
