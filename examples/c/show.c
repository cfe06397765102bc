/* SPDX-License-Identifier: Apache-2.0 */
/* usage: show FILE. Reads packets, one a line, in hexadecimal without blanks, and prints the chunks of each, its text,
   and the packet that answers it. */
#include <dcsctp.h>
#include <stdio.h>
#include <string.h>
static const struct dcsctp_policy policy = {0};
/* This side of the one association, and the tag of the other side, which its INIT asks for (RFC 9260 section 8.5). */
static const struct dcsctp_init own = {0x0da73798, 0x20000, 4, 4, 0x66e387ab};
static const uint8_t cookie[] = {'a', 'b', 'c', 'd'};
static uint32_t peer_tag;

static void print_hex(const char *before, const uint8_t *bytes, size_t size)
{
    fputs(before, stdout);
    for (size_t i = 0; i < size; i++)
        printf("%02x", bytes[i]);
    putchar('\n');
}

static void print_chunk(const uint8_t *bytes, size_t length, const struct dcsctp_chunk *chunk)
{
    struct dcsctp_data data;
    struct dcsctp_sack sack;
    struct dcsctp_parameter item;
    printf("  chunk %u, flags %u, %zu bytes\n", chunk->type, chunk->flags, chunk->value_size);
    if (dcsctp_data(bytes, length, chunk, &data)) {
        printf("    tsn %u, stream %u, ssn %u, mid %u", data.tsn, data.stream, data.ssn, data.mid);
        printf(", fsn %u, ppid %u, U %d, B %d", data.fsn, data.ppid, data.is_unordered, data.is_beginning);
        printf(", E %d, I %d\n", data.is_end, data.immediate_ack);
        print_hex("    payload ", bytes + data.payload_offset, data.payload_size);
    }
    if (dcsctp_sack(bytes, length, chunk, &sack)) {
        struct dcsctp_gap_ack_block block;
        uint32_t tsn;
        printf("    cumulative tsn %u, a_rwnd %u\n    blocks", sack.cumulative_tsn_ack, sack.a_rwnd);
        for (size_t i = 0; dcsctp_gap_ack_block(bytes, length, chunk, i, &block); i++)
            printf(" %u-%u", block.start, block.end);
        fputs("\n    duplicates", stdout);
        for (size_t i = 0; dcsctp_duplicate_tsn(bytes, length, chunk, i, &tsn); i++)
            printf(" %u", tsn);
        putchar('\n');
    }
    for (size_t at = dcsctp_list_offset(chunk); dcsctp_parameter_at(bytes, length, chunk, at, &item); at = item.next)
        printf("    item %u, %zu bytes\n", item.type, item.value_size);
}

/* Writes the answer to a packet: INIT ACK to an INIT, a SACK to DATA. Returns its size, or 0 if there is none. */
static size_t answer(const uint8_t *bytes, size_t length, uint8_t *packet, size_t room)
{
    struct dcsctp_header header;
    struct dcsctp_chunk chunk;
    struct dcsctp_init init;
    struct dcsctp_data data;
    size_t size;
    if (!dcsctp_header(bytes, length, &header) || !dcsctp_chunk_at(bytes, length, DCSCTP_FIRST_CHUNK, &chunk))
        return 0;
    bool is_init = chunk.type == DCSCTP_CHUNK_INIT && chunk.next == length && header.verification_tag == 0
        && dcsctp_init(bytes, length, &chunk, &init) && init.initiate_tag != 0;
    peer_tag = is_init ? init.initiate_tag : peer_tag;
    bool is_data = header.verification_tag == own.initiate_tag && dcsctp_data(bytes, length, &chunk, &data);
    uint32_t code = dcsctp_begin(packet, room, &size, header.destination_port, header.source_port, peer_tag);
    if (code == DCSCTP_OK && is_init)
        code = dcsctp_add_init_ack(packet, room, &size, &own);
    if (code == DCSCTP_OK && is_init) /* to the last chunk, which is also the first */
        code = dcsctp_add_parameter(packet, room, &size, DCSCTP_FIRST_CHUNK, DCSCTP_PARAMETER_STATE_COOKIE, cookie, sizeof cookie);
    if (code == DCSCTP_OK && is_data)
        code = dcsctp_add_sack(packet, room, &size, data.tsn, own.a_rwnd, NULL, 0, NULL, 0);
    return (is_init || is_data) && code == DCSCTP_OK && dcsctp_seal(packet, size) == DCSCTP_OK ? size : 0;
}

static void show(const uint8_t *bytes, size_t length)
{
    static uint8_t text[1 << 20], reply[1200];
    uint32_t word = dcsctp_word(bytes, length);
    struct dcsctp_chunk chunk;
    size_t offset, size;
    uint32_t fault = dcsctp_first_fault(bytes, length, word, &policy, &offset);
    printf("packet of %zu bytes\n", length);
    if (fault != DCSCTP_OK) {
        printf("  fault %u at byte %zu\n", fault, offset);
        return;
    }
    for (size_t at = DCSCTP_FIRST_CHUNK; dcsctp_chunk_at(bytes, length, at, &chunk); at = chunk.next)
        print_chunk(bytes, length, &chunk);
    if (dcsctp_print(bytes, length, word, &policy, text, sizeof text, &size) == DCSCTP_OK)
        printf("%.*s\n", (int)size, (const char *)text);
    if ((size = answer(bytes, length, reply, sizeof reply)) > 0)
        print_hex("  answer ", reply, size);
}

int main(int count, char **words)
{
    static char line[140000];
    static uint8_t bytes[sizeof line / 2];
    if (count != 2 || !freopen(words[1], "r", stdin))
        return fputs("usage: show FILE\n", stderr), 2;
    while (fgets(line, sizeof line, stdin)) {
        size_t size = strcspn(line, "\n");
        if (size == 0 || line[0] == '#')
            continue;
        if (strspn(line, "0123456789abcdefABCDEF") != size || size % 2 != 0)
            return fputs("show: a line isn't at most 69,999 bytes in hexadecimal\n", stderr), 2;
        for (size_t i = 0; i < size; i += 2)
            sscanf(line + i, "%2hhx", &bytes[i / 2]);
        show(bytes, size / 2);
    }
    return 0;
}
