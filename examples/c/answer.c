/* SPDX-License-Identifier: Apache-2.0 */
/* Reads a packet in hexadecimal. If it is an INIT, prints the INIT ACK that answers it. */
#include <dcsctp.h>
#include <stdio.h>

int main(void)
{
    static uint8_t bytes[65536];
    size_t length = 0;
    while (length < sizeof bytes && scanf("%2hhx", &bytes[length]) == 1)
        length++;

    /* Is it a packet, and is its checksum its CRC32c? */
    const struct dcsctp_policy policy = {.any_checksum = false, .zero_checksum = false, .strict_padding = false};
    size_t offset;
    uint32_t fault = dcsctp_first_fault(bytes, length, dcsctp_word(bytes, length), &policy, &offset);
    if (fault != DCSCTP_OK) {
        fprintf(stderr, "%s at byte %zu\n", dcsctp_result_text(fault), offset);
        return 1;
    }

    /* Is it an INIT that can be processed, and nothing else? */
    struct dcsctp_header header;
    struct dcsctp_chunk chunk;
    struct dcsctp_init init;
    if (dcsctp_init_fault(bytes, length, false) != DCSCTP_INIT_NO_FAULT || !dcsctp_header(bytes, length, &header)
        || !dcsctp_chunk_at(bytes, length, DCSCTP_FIRST_CHUNK, &chunk) || !dcsctp_init(bytes, length, &chunk, &init)
        || header.verification_tag != 0 || header.source_port == 0 || header.destination_port == 0)
        return 1;

    /* The answer goes back under the tag that the INIT asks for. */
    const struct dcsctp_init own = {.initiate_tag = 0x0da73798, .a_rwnd = 0x20000, .outbound_streams = 4,
                                    .inbound_streams = 4, .initial_tsn = 0x66e387ab};
    const uint8_t cookie[] = {'a', 'b', 'c', 'd'};
    uint8_t packet[1200];
    size_t size;
    if (dcsctp_begin(packet, sizeof packet, &size, header.destination_port, header.source_port, init.initiate_tag)
        || dcsctp_add_init_ack(packet, sizeof packet, &size, &own)
        || dcsctp_add_parameter(packet, sizeof packet, &size, DCSCTP_FIRST_CHUNK, DCSCTP_PARAMETER_STATE_COOKIE, cookie,
                                sizeof cookie)
        || dcsctp_seal(packet, size))
        return 1;
    for (size_t i = 0; i < size; i++)
        printf("%02x", packet[i]);
    putchar('\n');
    return 0;
}
