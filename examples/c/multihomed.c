/* SPDX-License-Identifier: Apache-2.0 */
/* An endpoint with several addresses, whose peers have several too. Reads packets in hexadecimal, one a line, and prints for each
   the packet that answers it, or an empty line: to an INIT an INIT ACK with its own addresses, to an ASCONF an ASCONF ACK
   (RFC 5061). No byte is written by hand.

   !!! Left out, for shortness: the State Cookie, which examples/c/responder.c has; the addresses that packets come from; and AUTH
   (RFC 4895): drop an ASCONF unless an AUTH comes before it, whose HMAC is right (RFC 5061 section 5.2). */
#include <ctype.h>
#include <dcsctp.h>
#include <stdio.h>
#include <string.h>

enum { OWN_TAG = 0x0da73798, OWN_TSN = 0x66e387ab, MOST_ADDRESSES = 4, MOST = 1200 };

struct address {
    size_t size; /* 4 or 16 */
    uint8_t octets[16];
};
static const struct address own[] = {
    {4, {192, 0, 2, 1}},
    {4, {198, 51, 100, 1}},
    {16, {0x20, 0x01, 0x0d, 0xb8, [15] = 1}},
};
enum { OWN = sizeof own / sizeof *own };

/* The association with the peer of the last INIT. */
static struct {
    struct dcsctp_header header; /* of its INIT */
    uint32_t tag, next_serial;
    struct address addresses[MOST_ADDRESSES];
    size_t count, answer_size;
    uint8_t answer[MOST]; /* to its last ASCONF */
} peer;

/* A packet that came, and the one that answers. */
static uint8_t bytes[65536], packet[MOST];
static size_t length, size;
static struct dcsctp_chunk chunk;
#define CHUNK bytes, length, &chunk
#define TO packet, sizeof packet, &size

/* The address that a parameter has. */
static struct address address_of(const struct dcsctp_registered *it)
{
    struct address address = {.size = it->address_size};
    memcpy(address.octets, bytes + it->address_offset, it->address_size);
    return address;
}

/* The place of an address among the peer's; their number, if it isn't there. */
static size_t place_of(const struct address *address)
{
    size_t at = 0;
    while (at < peer.count && memcmp(&peer.addresses[at], address, sizeof *address) != 0)
        at++;
    return at;
}

/* The parameter at an offset of what came, as what ends a value: all of it, but for its padding. */
static struct dcsctp_registered whole(size_t at, const struct dcsctp_parameter *item)
{
    return (struct dcsctp_registered){.rest_offset = at, .rest_size = item->value_offset + item->value_size - at};
}

/* Adds an address to the peer's. Returns whether there was room. */
static bool add_address(const struct address *address)
{
    if (place_of(address) == peer.count) {
        if (peer.count == MOST_ADDRESSES)
            return false;
        peer.addresses[peer.count++] = *address;
    }
    return true;
}

/* Adds the own addresses of a type, which may be another one, to the INIT ACK. */
static bool add_own_addresses(uint16_t type)
{
    const size_t wanted = type == DCSCTP_PARAMETER_IPV4_ADDRESS ? 4 : type == DCSCTP_PARAMETER_IPV6_ADDRESS ? 16 : 0;
    for (size_t i = 0; i < OWN; i++) {
        const struct dcsctp_registered it = {.address_size = wanted};
        if (own[i].size == wanted
            && dcsctp_add_registered_parameter(TO, DCSCTP_FIRST_CHUNK, type, &it, own[i].octets, wanted))
            return false;
    }
    return true;
}

/* Answers an INIT, which has to be alone and under tag 0. */
static bool answer_init(const struct dcsctp_header *header)
{
    const uint8_t extensions[] = {DCSCTP_CHUNK_ASCONF, DCSCTP_CHUNK_ASCONF_ACK}, cookie[] = {'a', 'b', 'c', 'd'};
    const struct dcsctp_init numbers = {OWN_TAG, 0x20000, 4, 4, OWN_TSN};
    const uint16_t known[] = {DCSCTP_PARAMETER_IPV4_ADDRESS, DCSCTP_PARAMETER_IPV6_ADDRESS, DCSCTP_PARAMETER_COOKIE_PRESERVATIVE,
                              DCSCTP_PARAMETER_HOST_NAME_ADDRESS, DCSCTP_PARAMETER_SUPPORTED_ADDRESS_TYPES,
                              DCSCTP_PARAMETER_SUPPORTED_EXTENSIONS};
    const size_t list = dcsctp_list_offset(&chunk);
    const uint32_t fault = dcsctp_init_fault(bytes, length, false);
    uint16_t types[8] = {DCSCTP_PARAMETER_IPV4_ADDRESS, DCSCTP_PARAMETER_IPV6_ADDRESS};
    size_t type_count = 2, at, end;
    struct dcsctp_init init;
    struct dcsctp_parameter item;
    /* (a Host Name Address is answered below, with a cause) */
    if (header->verification_tag != 0 || (fault != DCSCTP_INIT_NO_FAULT && fault != DCSCTP_INIT_HOST_NAME_ADDRESS)
        || !dcsctp_init(CHUNK, &init))
        return false;
    memset(&peer, 0, sizeof peer);
    peer.header = *header;
    peer.tag = init.initiate_tag;
    peer.next_serial = init.initial_tsn; /* RFC 5061 section 5.1 */
    if (dcsctp_begin(TO, header->destination_port, header->source_port, peer.tag) || dcsctp_add_init_ack(TO, &numbers)
        || dcsctp_add_parameter(TO, DCSCTP_FIRST_CHUNK, DCSCTP_PARAMETER_STATE_COOKIE, cookie, sizeof cookie)
        || dcsctp_add_parameter(TO, DCSCTP_FIRST_CHUNK, DCSCTP_PARAMETER_SUPPORTED_EXTENSIONS, extensions,
                                sizeof extensions)
        || dcsctp_add_unrecognized_parameters(TO, DCSCTP_FIRST_CHUNK, bytes + list, chunk.value_offset + chunk.value_size - list,
                                              known, sizeof known / sizeof *known, &end))
        return false;
    /* up to the one at which processing stops (section 3.2.1); what is unknown has been reported */
    for (at = list; at < list + end && dcsctp_parameter_at(CHUNK, at, &item); at = item.next) {
        struct dcsctp_registered it = whole(at, &item);
        switch (item.type) {
        case DCSCTP_PARAMETER_IPV4_ADDRESS: case DCSCTP_PARAMETER_IPV6_ADDRESS:
            if (!dcsctp_registered_parameter(bytes, length, &item, &it))
                return false;
            const struct address address = address_of(&it);
            add_address(&address); /* what has no room is as if it weren't there */
            break;
        case DCSCTP_PARAMETER_SUPPORTED_ADDRESS_TYPES:
            type_count = dcsctp_short_numbers(bytes, length, &item, types, 8);
            break;
        case DCSCTP_PARAMETER_HOST_NAME_ADDRESS: /* no sender may use it (RFC 9260 section 3.3.2.1.4) */
            return !dcsctp_begin(TO, header->destination_port, header->source_port, peer.tag)
                && !dcsctp_add_chunk(TO, DCSCTP_CHUNK_ABORT, 0, NULL, 0)
                && !dcsctp_add_registered_cause(TO, DCSCTP_FIRST_CHUNK, DCSCTP_CAUSE_UNRESOLVABLE_ADDRESS, &it, bytes, length);
        }
    }
    for (size_t i = 0; i < type_count && i < 8; i++)
        if (!add_own_addresses(types[i]))
            return false;
    return true;
}

/* Does what a request of ASCONF asks. Returns 0, or the code of the cause why not. */
static uint16_t refusal(uint16_t type, const struct address *address)
{
    static const struct address any[] = {{4, {0}}, {16, {0}}}; /* that which the packet came from: it isn't known here */
    const size_t at = place_of(address);
    if (memcmp(address, &any[address->size == 16], sizeof *address) == 0)
        return DCSCTP_CAUSE_REQUEST_REFUSED;
    switch (type) {
    case DCSCTP_PARAMETER_ADD_IP_ADDRESS:
        return add_address(address) ? 0 : DCSCTP_CAUSE_OPERATION_REFUSED;
    case DCSCTP_PARAMETER_DELETE_IP_ADDRESS:
        if (at == peer.count)
            return 0;
        if (peer.count == 1)
            return DCSCTP_CAUSE_DELETE_LAST_REMAINING_IP_ADDRESS;
        peer.addresses[at] = peer.addresses[--peer.count];
        return 0;
    case DCSCTP_PARAMETER_SET_PRIMARY_ADDRESS: /* advice, which needn't be taken (RFC 5061 section 5.4) */
        return 0;
    default:
        return DCSCTP_CAUSE_UNRECOGNIZED_PARAMETERS;
    }
}

/* Adds the response to a request, which lies at an offset of what came, to the ASCONF ACK. */
static bool add_response(size_t at, const struct dcsctp_parameter *item, uint32_t id, uint16_t code)
{
    struct dcsctp_registered response = {.number = id};
    if (code == 0)
        return !dcsctp_add_registered_parameter(TO, DCSCTP_FIRST_CHUNK, DCSCTP_PARAMETER_SUCCESS_INDICATION, &response,
                                                NULL, 0);
    /* The causes of an Error Cause Indication are written as those of a chunk. */
    uint8_t causes[MOST];
    size_t causes_size;
    struct dcsctp_chunk error;
    const struct dcsctp_registered request = whole(at, item);
    if (dcsctp_begin(causes, sizeof causes, &causes_size, 0, 0, 0)
        || dcsctp_add_chunk(causes, sizeof causes, &causes_size, DCSCTP_CHUNK_ERROR, 0, NULL, 0)
        || dcsctp_add_registered_cause(causes, sizeof causes, &causes_size, DCSCTP_FIRST_CHUNK, code, &request, bytes,
                                       length)
        || !dcsctp_chunk_at(causes, causes_size, DCSCTP_FIRST_CHUNK, &error))
        return false;
    response.rest_offset = error.value_offset;
    response.rest_size = error.value_size;
    return !dcsctp_add_registered_parameter(TO, DCSCTP_FIRST_CHUNK, DCSCTP_PARAMETER_ERROR_CAUSE_INDICATION, &response,
                                            causes, causes_size);
}

/* Answers an ASCONF of the association: the next one, or the last one again (RFC 5061 section 5.2). */
static bool answer_asconf(const struct dcsctp_header *header)
{
    struct dcsctp_registered asconf, request;
    struct dcsctp_parameter item;
    if (header->verification_tag != OWN_TAG || header->source_port != peer.header.source_port
        || header->destination_port != peer.header.destination_port || !dcsctp_registered_chunk(CHUNK, &asconf))
        return false;
    if (asconf.number + 1 == peer.next_serial && peer.answer_size != 0) {
        memcpy(packet, peer.answer, size = peer.answer_size);
        return true;
    }
    const struct dcsctp_registered ack = {.number = asconf.number};
    if (asconf.number != peer.next_serial || dcsctp_begin(TO, header->destination_port, header->source_port, peer.tag)
        || dcsctp_add_registered_chunk(TO, DCSCTP_CHUNK_ASCONF_ACK, &ack, NULL, 0))
        return false;
    const size_t end = asconf.rest_offset + asconf.rest_size;
    for (size_t at = asconf.rest_offset; dcsctp_item_at(bytes, end, at, &item); at = item.next) {
        uint16_t code = DCSCTP_CAUSE_UNRECOGNIZED_PARAMETERS;
        if (!dcsctp_registered_parameter(bytes, length, &item, &request))
            request = (struct dcsctp_registered){0};
        if (request.address_size != 0) {
            const struct address address = address_of(&request);
            code = refusal(item.type, &address);
        }
        const bool is_unknown = code == DCSCTP_CAUSE_UNRECOGNIZED_PARAMETERS;
        const uint32_t action = dcsctp_unrecognized_parameter(item.type);
        if ((!is_unknown || dcsctp_action_reports(action)) && !add_response(at, &item, request.number, code))
            return false;
        if (is_unknown && !dcsctp_action_skips(action))
            break;
    }
    peer.next_serial++;
    memcpy(peer.answer, packet, peer.answer_size = size);
    return true;
}

/* Answers the packet that came. */
static bool answer(void)
{
    const struct dcsctp_policy policy = {.any_checksum = false, .zero_checksum = false, .strict_padding = false};
    struct dcsctp_header header;
    if (dcsctp_check(bytes, length, dcsctp_word(bytes, length), &policy) || !dcsctp_header(bytes, length, &header)
        || header.source_port == 0 || header.destination_port == 0
        || !dcsctp_chunk_at(bytes, length, DCSCTP_FIRST_CHUNK, &chunk))
        return false;
    if (chunk.type == DCSCTP_CHUNK_INIT)
        return answer_init(&header) && !dcsctp_seal(packet, size);
    while (chunk.type != DCSCTP_CHUNK_ASCONF)
        if (!dcsctp_chunk_at(bytes, length, chunk.next, &chunk))
            return false;
    return answer_asconf(&header) && !dcsctp_seal(packet, size);
}

int main(void)
{
    int c, digits = 0;
    do {
        c = getchar();
        if (isxdigit(c) && length < sizeof bytes) {
            const int digit = isdigit(c) ? c - '0' : tolower(c) - 'a' + 10;
            bytes[length] = (uint8_t)(bytes[length] << 4 | digit);
            length += digits++ % 2;
        } else if (c == '\n' || (c == EOF && length > 0)) {
            if (answer())
                for (size_t i = 0; i < size; i++)
                    printf("%02x", packet[i]);
            putchar('\n');
            length = 0, digits = 0;
        }
    } while (c != EOF);
    return 0;
}
