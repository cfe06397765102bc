/* SPDX-License-Identifier: Apache-2.0 */
/* A filter to put in front of a stack: what is no packet is dropped, and what is left arrives canonical, whatever stood in its
   padding, in reserved bits and in fields that a receiver ignores; but for a packet with AUTH, which arrives as it came. Any
   sender can add one: where AUTH was not negotiated, drop such packets. It keeps no state. */
#include <dcsctp.h>
#include <string.h>

/* Whether an HMAC covers bytes of the packet (RFC 4895): they have to arrive as they came. */
static bool is_authenticated(const uint8_t *bytes, size_t length)
{
    struct dcsctp_chunk chunk;
    for (size_t at = DCSCTP_FIRST_CHUNK; dcsctp_chunk_at(bytes, length, at, &chunk); at = chunk.next)
        if (chunk.type == DCSCTP_CHUNK_AUTH)
            return true;
    return false;
}

/* Writes what the stack gets, and returns its size, or 0 where it gets nothing: for bytes that are no packet, for a packet whose
   canonical form would have more than 65,532 bytes, and for want of room or memory. A canonical packet is longer than what came
   only where padding was missing at its end, or a text was not UTF-8. */
static size_t filter(const uint8_t *bytes, size_t length, const struct dcsctp_policy *policy, uint8_t *output, size_t room)
{
    const uint32_t word = dcsctp_word(bytes, length);
    size_t size;
    if (dcsctp_check(bytes, length, word, policy) != DCSCTP_OK)
        return 0;
    if (is_authenticated(bytes, length)) {
        if (length > room)
            return 0;
        memcpy(output, bytes, length);
        return length;
    }
    if (dcsctp_canonical(bytes, length, word, policy, output, room, &size) != DCSCTP_OK
        || dcsctp_seal(output, size) != DCSCTP_OK)
        return 0;
    return size;
}
