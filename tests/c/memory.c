/* SPDX-License-Identifier: Apache-2.0 */
/* usage: memory N. With 0 writes one of each into memory that is not initialized, and reads all of it. With N, from 1 on, uses in
   a way of its own what is not initialized; ends with 3 where there is no such way. Built by clang -fsanitize=memory, the first
   ends with 0, and each of the others has to be found (dist/test.sh). */
#include <dcsctp.h>
#include <stdlib.h>
#include <string.h>

#define ROOM 1000
#define TO packet, ROOM, &size

static int write_all(uint8_t *packet)
{
    const struct dcsctp_init init = {1, 2, 3, 4, 5};
    const struct dcsctp_data data = {0};
    const struct dcsctp_gap_ack_block block = {2, 3};
    const struct dcsctp_skipped_stream stream = {0};
    const struct dcsctp_re_config request = {.type = DCSCTP_PARAMETER_OUTGOING_SSN_RESET};
    const uint8_t bytes[] = {'a', 'b', 'c'};
    const uint16_t types[] = {7};
    const uint32_t tsn = 1;
    const struct dcsctp_policy policy = {0};
    struct dcsctp_header header;
    unsigned sum = 0;
    size_t size, offset;
    if (dcsctp_begin(TO, 1, 2, 3) || dcsctp_add_init(TO, &init) || dcsctp_add_init_ack(TO, &init)
        || dcsctp_add_data(TO, &data, bytes, 3) || dcsctp_add_i_data(TO, &data, bytes, 3)
        || dcsctp_add_sack(TO, 1, 2, &block, 1, &tsn, 1) || dcsctp_add_cookie_echo(TO, bytes, 3) || dcsctp_add_cookie_ack(TO)
        || dcsctp_add_heartbeat(TO, true, bytes, 3) || dcsctp_add_abort(TO, true, bytes, 3) || dcsctp_add_shutdown(TO, 1)
        || dcsctp_add_shutdown_ack(TO) || dcsctp_add_shutdown_complete(TO, true)
        || dcsctp_add_forward_tsn(TO, 1, &stream, 1) || dcsctp_add_i_forward_tsn(TO, 1, &stream, 1))
        return 1;
    const size_t start = size;
    if (dcsctp_add_chunk(TO, DCSCTP_CHUNK_ERROR, 0, bytes, 3) || dcsctp_add_parameter(TO, start, 1, bytes, 3)
        || dcsctp_add_number(TO, start, 9, 1) || dcsctp_add_re_config(TO, start, &request, types, 1)
        || dcsctp_add_missing_parameters(TO, start, types, 1) || dcsctp_set_tag(packet, size, 1) || dcsctp_seal(packet, size)
        || !dcsctp_header(packet, size, &header) || header.source_port != 1
        || !dcsctp_first_fault(packet, 11, 0, &policy, &offset) || offset != 11)
        return 1;
    for (size_t i = 0; i < size; i++)
        sum += packet[i];
    return sum == 0;
}

int main(int count, char **words)
{
    const struct dcsctp_policy policy = {0};
    struct dcsctp_policy unknown_policy;
    struct dcsctp_sack sack;
    struct dcsctp_data data;
    struct dcsctp_chunk chunk;
    uint8_t *packet = malloc(ROOM), *unknown = malloc(ROOM);
    uint32_t unknown_number;
    size_t size;
    memset(&unknown_policy, 0, offsetof(struct dcsctp_policy, reserved));
    if (count != 2 || dcsctp_begin(TO, 1, 2, 3) || dcsctp_add_shutdown(TO, 4)
        || !dcsctp_chunk_at(packet, size, DCSCTP_FIRST_CHUNK, &chunk))
        return 2;
    switch (atoi(words[1])) {
    case 0:
        return write_all(unknown);
    case 1: /* a call that returned false wrote nothing */
        return !dcsctp_sack(packet, size, &chunk, &sack) && sack.a_rwnd;
    case 2: /* a buffer behind its packet */
        return packet[size];
    case 3: /* a packet that isn't accepted has no text */
        return dcsctp_print(packet, size, 1, &policy, unknown, ROOM, &size) && unknown[0];
    case 4: /* what is put into a packet */
        return (int)dcsctp_add_cookie_echo(TO, unknown, 1);
    case 5:
        return (int)dcsctp_add_data(TO, &data, NULL, 0);
    case 6:
        return (int)dcsctp_add_shutdown(TO, unknown_number);
    case 7: /* what is read */
        return (int)dcsctp_check(unknown, 16, 0, &policy);
    case 8:
        return (int)dcsctp_word(packet, size + 1);
    case 9:
        return (int)dcsctp_check(packet, size, dcsctp_word(packet, size), &unknown_policy);
    default:
        return 3;
    }
}
