/* SPDX-License-Identifier: Apache-2.0 */
/* A responder to start from: an end of an association (RFC 9260) that is called, or calls, and takes user data. No byte is written
   by hand, and there is no I/O and no clock: packets and the time go in, and packets come out. Left out: user data that is
   sent, and timers; messages put together, and streams in order; paths. There is one association at a time. */
#include <dcsctp.h>
#include <string.h>

enum { COOKIE_LIFE = 60000000, MOST_BLOCKS = 64, MOST_DUPLICATES = 16, MOST_KEPT = 1024, SHA_1 = 1, SHA_256 = 3 };

/* Bytes of the caller's. */
struct bytes {
    const uint8_t *at;
    size_t size;
};

struct responder {
    /* What the user sets; all else is 0 at first. The tag, not 0, the TSN, `random` and `tie_tags` are of the next association:
       they are drawn anew once `association` has the tag. */
    struct dcsctp_init own;
    uint8_t random[32], tie_tags[8];
    uint8_t key[32]; /* drawn once: who knows it can forge cookies */
    struct bytes listed; /* types of chunks that count after AUTH alone (RFC 4895); if empty, there is no AUTH */
    struct bytes pair_key; /* the endpoint pair shared key, of 0 to 64 bytes, and its identifier */
    uint16_t pair_key_identifier;
    void *user;
    void (*take_data)(void *user, const struct dcsctp_data *data, const uint8_t *payload); /* each TSN once, as it comes */
    enum { CLOSED, COOKIE_WAIT, COOKIE_ECHOED, ESTABLISHED, SHUTDOWN_ACK_SENT } state;
    struct dcsctp_cookie association; /* what the State Cookie said: until it comes back, nothing is kept of an INIT */
    uint8_t association_tie_tags[8];
    uint8_t addresses[MOST_KEPT]; /* of the peer: the parameters in which it named them */
    size_t addresses_size;
    uint32_t cumulative_tsn, next_request, last_result;
    struct dcsctp_gap_ack_block blocks[MOST_BLOCKS];
    uint32_t duplicates[MOST_DUPLICATES]; /* since the last SACK */
    size_t block_count, duplicate_count;
    uint8_t shared_key[MOST_KEPT + 64], peer_listed[256]; /* of AUTH; no bytes where one of the ends has none */
    size_t shared_key_size, peer_listed_size;
    uint16_t hmac; /* that the peer asks for */
};

/* A packet that came, its chunk that is looked at, and the packet that answers. What has no room there is as if lost. */
struct exchange {
    const uint8_t *bytes;
    uint8_t *packet;
    size_t length, room, size, cookie; /* cookie: where the COOKIE ECHO begins that is answered, if there is one */
    struct dcsctp_header header;
    struct dcsctp_chunk chunk;
    bool is_sack_due, is_authenticated;
};
#define CHUNK(x) (x)->bytes, (x)->length, &(x)->chunk
#define TO(x) (x)->packet, (x)->room, &(x)->size

/* Whether a packet has the ports of the association. */
static bool has_its_ports(const struct responder *r, const struct exchange *x)
{
    return x->header.source_port == r->association.peer_port && x->header.destination_port == r->association.local_port;
}

/* Adds this end's parameters of AUTH to the first chunk, in the order of a key vector (RFC 4895 section 6.1). */
static bool add_own_auth(const struct responder *r, struct exchange *x)
{
    const uint8_t hmacs[] = {0, SHA_256, 0, SHA_1}; /* the first is preferred */
    return !dcsctp_add_parameter(TO(x), DCSCTP_FIRST_CHUNK, DCSCTP_PARAMETER_RANDOM, r->random, sizeof r->random)
        && !dcsctp_add_parameter(TO(x), DCSCTP_FIRST_CHUNK, DCSCTP_PARAMETER_CHUNK_LIST, r->listed.at, r->listed.size)
        && !dcsctp_add_parameter(TO(x), DCSCTP_FIRST_CHUNK, DCSCTP_PARAMETER_REQUESTED_HMAC_ALGORITHM, hmacs, sizeof hmacs);
}

/* Adds the parameters of an INIT or INIT ACK that have one of these types. */
static bool add_parameters(const struct exchange *init, const uint16_t *types, size_t count, struct exchange *x)
{
    struct dcsctp_parameter it;
    for (size_t i = 0; i < count; i++)
        for (size_t at = dcsctp_list_offset(&init->chunk); dcsctp_parameter_at(CHUNK(init), at, &it); at = it.next)
            if (it.type == types[i] && dcsctp_add_parameter(TO(x), DCSCTP_FIRST_CHUNK, it.type, init->bytes + it.value_offset,
                                                            it.value_size))
                return false;
    return true;
}

/* Whether a parameter is an address. */
static bool is_address(uint16_t type)
{
    return type == DCSCTP_PARAMETER_IPV4_ADDRESS || type == DCSCTP_PARAMETER_IPV6_ADDRESS;
}

/* Writes what the cookie for an INIT holds after its numbers, as the parameters of a chunk: the Tie-Tags, if there is an
   association, in the place of its tags, which nobody else may learn; the parameters of AUTH of both ends; and addresses. */
static bool write_kept(const struct responder *r, const struct exchange *init, struct exchange *x)
{
    const uint16_t of_auth[] = {DCSCTP_PARAMETER_RANDOM, DCSCTP_PARAMETER_CHUNK_LIST, DCSCTP_PARAMETER_REQUESTED_HMAC_ALGORITHM},
                   of_addresses[] = {DCSCTP_PARAMETER_IPV4_ADDRESS, DCSCTP_PARAMETER_IPV6_ADDRESS};
    return !dcsctp_begin(TO(x), 0, 0, 0) && !dcsctp_add_chunk(TO(x), DCSCTP_CHUNK_HEARTBEAT, 0, NULL, 0)
        && (r->state < COOKIE_ECHOED || !dcsctp_add_parameter(TO(x), DCSCTP_FIRST_CHUNK, DCSCTP_PARAMETER_HEARTBEAT_INFO,
                                                              r->association_tie_tags, sizeof r->association_tie_tags))
        && (r->listed.size == 0 || (add_own_auth(r, x) && add_parameters(init, of_auth, 3, x)))
        && add_parameters(init, of_addresses, 2, x) && dcsctp_chunk_at(x->packet, x->size, DCSCTP_FIRST_CHUNK, &x->chunk);
}

/* Adds what this end says of itself to its INIT or INIT ACK. */
static bool add_own(const struct responder *r, const uint8_t *cookie, size_t cookie_size, struct exchange *x)
{
    const uint8_t extensions[] = {DCSCTP_CHUNK_RE_CONFIG, DCSCTP_CHUNK_I_DATA, DCSCTP_CHUNK_FORWARD_TSN,
                                  DCSCTP_CHUNK_I_FORWARD_TSN, DCSCTP_CHUNK_AUTH};
    const bool has_auth = r->listed.size > 0;
    return (!has_auth || add_own_auth(r, x))
        && (!cookie || !dcsctp_add_parameter(TO(x), DCSCTP_FIRST_CHUNK, DCSCTP_PARAMETER_STATE_COOKIE, cookie, cookie_size))
        && !dcsctp_add_parameter(TO(x), DCSCTP_FIRST_CHUNK, DCSCTP_PARAMETER_SUPPORTED_EXTENSIONS, extensions,
                                 sizeof extensions - !has_auth)
        && !dcsctp_add_parameter(TO(x), DCSCTP_FIRST_CHUNK, DCSCTP_PARAMETER_FORWARD_TSN_SUPPORTED, NULL, 0);
}

/* The types of parameters of INIT and INIT ACK that are known here, though perhaps ignored. */
static const uint16_t known[] = {
    DCSCTP_PARAMETER_IPV4_ADDRESS, DCSCTP_PARAMETER_IPV6_ADDRESS, DCSCTP_PARAMETER_STATE_COOKIE,
    DCSCTP_PARAMETER_COOKIE_PRESERVATIVE, DCSCTP_PARAMETER_HOST_NAME_ADDRESS, DCSCTP_PARAMETER_SUPPORTED_ADDRESS_TYPES,
    DCSCTP_PARAMETER_FORWARD_TSN_SUPPORTED};

/* Whether an INIT has a Random that doesn't have 32 bytes. */
static bool has_wrong_random(const struct exchange *x)
{
    struct dcsctp_parameter it;
    for (size_t at = dcsctp_list_offset(&x->chunk); dcsctp_parameter_at(CHUNK(x), at, &it); at = it.next)
        if (it.type == DCSCTP_PARAMETER_RANDOM && it.value_size != 32)
            return true;
    return false;
}

/* Returns how long the cookie is good that answers an INIT: longer, if that asks for it (section 3.3.2.1.3), but not too long. */
static uint64_t lifespan(const struct exchange *x)
{
    struct dcsctp_parameter it;
    uint32_t increment; /* in milliseconds */
    for (size_t at = dcsctp_list_offset(&x->chunk); dcsctp_parameter_at(CHUNK(x), at, &it); at = it.next)
        if (it.type == DCSCTP_PARAMETER_COOKIE_PRESERVATIVE && dcsctp_number(x->bytes, x->length, &it, &increment))
            return COOKIE_LIFE + (increment < COOKIE_LIFE / 1000 ? increment * UINT64_C(1000) : COOKIE_LIFE);
    return COOKIE_LIFE;
}

/* Answers what comes anew while the association shuts down: the peer hasn't got the SHUTDOWN ACK's answer through, or has begun
   anew (sections 9.2 and 5.2.4). */
static bool answer_shutting_down(const struct responder *r, struct exchange *x)
{
    const bool has_cookie = x->chunk.type == DCSCTP_CHUNK_COOKIE_ECHO;
    if (dcsctp_begin(TO(x), r->association.local_port, r->association.peer_port, r->association.peer_tag)
        || dcsctp_add_shutdown_ack(TO(x)))
        return false;
    const size_t start = x->size;
    return !has_cookie || (!dcsctp_add_chunk(TO(x), DCSCTP_CHUNK_ERROR, 0, NULL, 0)
        && !dcsctp_add_parameter(TO(x), start, DCSCTP_CAUSE_COOKIE_RECEIVED_WHILE_SHUTTING_DOWN, NULL, 0));
}

/* Answers an INIT by INIT ACK, also of a peer that begins anew; or by the ABORT that says what is wrong with it, where it asks
   for one. */
static bool answer_init(const struct responder *r, uint64_t now, struct exchange *x)
{
    const size_t at = dcsctp_list_offset(&x->chunk); /* 0 in a chunk that is too short */
    const struct bytes list = {x->bytes + at, at ? x->chunk.value_offset + x->chunk.value_size - at : 0};
    const uint32_t fault = dcsctp_init_fault(x->bytes, x->length, false);
    struct dcsctp_init peer;
    uint8_t kept_bytes[MOST_KEPT], sealed[80 + MOST_KEPT];
    struct exchange kept = {.packet = kept_bytes, .room = sizeof kept_bytes};
    size_t sealed_size, end;
    if (!dcsctp_init(CHUNK(x), &peer) || (r->state != CLOSED && (!has_its_ports(r, x)
                                                                 || r->own.initiate_tag == r->association.local_tag)))
        return false;
    if (fault != DCSCTP_INIT_NO_FAULT)
        return dcsctp_init_refusal(fault, false, false) == DCSCTP_REFUSAL_ABORT
            && !dcsctp_init_abort(TO(x), &x->header, peer.initiate_tag, fault);
    if (r->state == SHUTDOWN_ACK_SENT)
        return answer_shutting_down(r, x);
    /* sections 5.2.1 and 5.2.2 */
    if (r->state >= COOKIE_ECHOED && dcsctp_adds_addresses(list.at, list.size, r->addresses, r->addresses_size))
        return !dcsctp_begin(TO(x), x->header.destination_port, x->header.source_port, peer.initiate_tag)
            && !dcsctp_add_chunk(TO(x), DCSCTP_CHUNK_ABORT, 0, NULL, 0)
            && !dcsctp_add_new_addresses(TO(x), DCSCTP_FIRST_CHUNK, list.at, list.size, r->addresses, r->addresses_size);
    if (r->listed.size > 0 && has_wrong_random(x)) /* RFC 4895 section 6.1 */
        return !dcsctp_begin(TO(x), x->header.destination_port, x->header.source_port, peer.initiate_tag)
            && !dcsctp_add_chunk(TO(x), DCSCTP_CHUNK_ABORT, 0, NULL, 0)
            && !dcsctp_add_parameter(TO(x), DCSCTP_FIRST_CHUNK, DCSCTP_CAUSE_PROTOCOL_VIOLATION, NULL, 0);
    const struct dcsctp_cookie cookie = {
        .created = now, .lifespan = lifespan(x), .local_tag = r->own.initiate_tag, .peer_tag = peer.initiate_tag,
        .local_initial_tsn = r->own.initial_tsn, .peer_initial_tsn = peer.initial_tsn, .local_port = x->header.destination_port,
        .peer_port = x->header.source_port, .outbound_streams = r->own.outbound_streams,
        .inbound_streams = peer.outbound_streams};
    if (!write_kept(r, x, &kept)
        || dcsctp_seal_cookie(sealed, sizeof sealed, &sealed_size, r->key, sizeof r->key, &cookie,
                              kept.packet + kept.chunk.value_offset, kept.chunk.value_size)
        || dcsctp_begin(TO(x), cookie.local_port, cookie.peer_port, cookie.peer_tag) || dcsctp_add_init_ack(TO(x), &r->own)
        || !add_own(r, sealed, sealed_size, x))
        return false;
    /* what isn't known is reported, if there is room (section 3.2.2) */
    dcsctp_add_unrecognized_parameters(TO(x), DCSCTP_FIRST_CHUNK, list.at, list.size, known, sizeof known / sizeof *known, &end);
    return true;
}

/* Answers a COOKIE ECHO that is too late by an ERROR with the cause Stale Cookie (section 5.1.5). */
static bool answer_stale(const struct dcsctp_cookie *cookie, uint64_t staleness, struct exchange *x)
{
    const struct dcsctp_registered cause = {.number = staleness > UINT32_MAX ? UINT32_MAX : (uint32_t)staleness};
    return !dcsctp_begin(TO(x), cookie->local_port, cookie->peer_port, cookie->peer_tag)
        && !dcsctp_add_chunk(TO(x), DCSCTP_CHUNK_ERROR, 0, NULL, 0)
        && !dcsctp_add_registered_cause(TO(x), DCSCTP_FIRST_CHUNK, DCSCTP_CAUSE_STALE_COOKIE, &cause, NULL, 0);
}

/* Takes the parameters of AUTH from what a cookie holds after its numbers, first the three of this end: they are the key vectors,
   without padding. */
static void open_auth(struct responder *r, const uint8_t *kept, size_t size)
{
    uint8_t vectors[2][MOST_KEPT];
    size_t sizes[2] = {0, 0}, count = 0;
    uint16_t hmacs[8];
    struct dcsctp_parameter it;
    bool has_random = false;
    r->shared_key_size = r->peer_listed_size = r->hmac = 0;
    for (size_t at = 0; size <= MOST_KEPT && dcsctp_item_at(kept, size, at, &it); at = it.next) {
        const size_t whole = it.value_offset + it.value_size - at, i = count >= 3;
        if (it.type == DCSCTP_PARAMETER_HEARTBEAT_INFO || is_address(it.type)) /* the Tie-Tags */
            continue;
        memcpy(vectors[i] + sizes[i], kept + at, whole);
        sizes[i] += whole;
        count++;
        has_random = has_random || (i == 1 && it.type == DCSCTP_PARAMETER_RANDOM);
        if (i == 1 && it.type == DCSCTP_PARAMETER_CHUNK_LIST && it.value_size <= sizeof r->peer_listed)
            memcpy(r->peer_listed, kept + it.value_offset, r->peer_listed_size = it.value_size);
        if (i == 1 && it.type == DCSCTP_PARAMETER_REQUESTED_HMAC_ALGORITHM)
            for (size_t k = dcsctp_short_numbers(kept, size, &it, hmacs, 8); k-- > 0;)
                r->hmac = hmacs[k] == SHA_1 || hmacs[k] == SHA_256 ? hmacs[k] : r->hmac; /* the first of these */
    }
    if (has_random && r->hmac != 0)
        dcsctp_shared_key(r->shared_key, sizeof r->shared_key, &r->shared_key_size, r->pair_key.at, r->pair_key.size, vectors[0],
                          sizes[0], vectors[1], sizes[1]);
}

/* Takes what `association` says of the peer, and what a cookie holds after its numbers. */
static void begin_receiving(struct responder *r, const uint8_t *kept, size_t size)
{
    struct dcsctp_parameter it;
    r->cumulative_tsn = r->association.peer_initial_tsn - 1;
    r->next_request = r->association.peer_initial_tsn; /* RFC 6525 section 5.1.1 */
    r->last_result = DCSCTP_RE_CONFIG_NOTHING_TO_DO;
    r->block_count = r->duplicate_count = r->addresses_size = 0;
    for (size_t at = 0; size <= MOST_KEPT && dcsctp_item_at(kept, size, at, &it); at = it.next)
        if (is_address(it.type)) {
            memcpy(r->addresses + r->addresses_size, kept + at, it.next - at);
            r->addresses_size += it.next - at;
        }
    open_auth(r, kept, size);
}

/* Opens the association of a COOKIE ECHO, also if the peer begins anew; one that is open stays. Returns whether it is open; if
   not, what answers is written where there is an answer. */
static bool open_association(struct responder *r, uint64_t now, struct exchange *x)
{
    const uint8_t *kept = x->bytes + x->chunk.value_offset;
    struct dcsctp_cookie cookie;
    struct dcsctp_parameter it;
    uint64_t staleness;
    bool is_tied = false;
    const uint32_t state = dcsctp_open_cookie(r->key, sizeof r->key, kept, x->chunk.value_size, now, &cookie, &staleness);
    if (state == DCSCTP_COOKIE_INVALID || x->header.verification_tag != cookie.local_tag
        || x->header.destination_port != cookie.local_port || x->header.source_port != cookie.peer_port)
        return false;
    kept += cookie.extra_offset;
    for (size_t at = 0; dcsctp_item_at(kept, cookie.extra_size, at, &it); at = it.next)
        is_tied = is_tied || (it.type == DCSCTP_PARAMETER_HEARTBEAT_INFO && it.value_size == sizeof r->association_tie_tags
                              && !memcmp(kept + it.value_offset, r->association_tie_tags, it.value_size));
    const bool is_there = r->state >= ESTABLISHED, is_next = cookie.local_tag == r->own.initiate_tag;
    const bool is_local = is_there && cookie.local_tag == r->association.local_tag;
    const bool is_peers = is_there && cookie.peer_tag == r->association.peer_tag;
    if (is_local && is_peers) /* however old the cookie is (section 5.2.4, action D) */
        return true;
    if (state == DCSCTP_COOKIE_STALE) {
        if (!answer_stale(&cookie, staleness, x))
            x->size = 0;
        return false;
    }
    if (!is_local && (!is_next || (is_there && (is_peers || !is_tied)))) /* neither action A nor B, and none of a new one */
        return false;
    if (r->state == SHUTDOWN_ACK_SENT) {
        if (!answer_shutting_down(r, x))
            x->size = 0;
        return false;
    }
    r->state = ESTABLISHED;
    r->association = cookie;
    if (is_next)
        memcpy(r->association_tie_tags, r->tie_tags, sizeof r->tie_tags);
    begin_receiving(r, kept, cookie.extra_size);
    return true;
}

/* Answers the INIT ACK that this end's INIT has brought: by COOKIE ECHO, and an ERROR where it has unknown parameters that are
   reported; or by the ABORT that says what is wrong with it. Without either the packet is empty. */
static void answer_init_ack(struct responder *r, struct exchange *x)
{
    const uint32_t fault = dcsctp_init_fault(x->bytes, x->length, true), refusal = dcsctp_init_refusal(fault, true, true);
    const size_t list = dcsctp_list_offset(&x->chunk);
    uint8_t kept_bytes[MOST_KEPT];
    struct exchange kept = {.packet = kept_bytes, .room = sizeof kept_bytes};
    struct dcsctp_init peer;
    struct dcsctp_parameter it;
    size_t end;
    if (!dcsctp_init(CHUNK(x), &peer))
        return;
    if (refusal == DCSCTP_REFUSAL_DESTROY_AND_ABORT)
        r->state = CLOSED;
    if (fault != DCSCTP_INIT_NO_FAULT) {
        if (refusal != DCSCTP_REFUSAL_DISCARD)
            dcsctp_init_abort(TO(x), &x->header, peer.initiate_tag, fault);
        return;
    }
    for (size_t at = list; dcsctp_parameter_at(CHUNK(x), at, &it) && it.type != DCSCTP_PARAMETER_STATE_COOKIE;)
        at = it.next;
    if (!write_kept(r, x, &kept) || dcsctp_begin(TO(x), r->association.local_port, r->association.peer_port, peer.initiate_tag)
        || dcsctp_add_cookie_echo(TO(x), x->bytes + it.value_offset, it.value_size))
        return;
    dcsctp_add_unrecognized_parameters_error(TO(x), x->bytes + list, x->chunk.value_offset + x->chunk.value_size - list, known,
                                             sizeof known / sizeof *known, &end);
    r->association.peer_tag = peer.initiate_tag;
    r->association.peer_initial_tsn = peer.initial_tsn;
    r->association.inbound_streams = peer.outbound_streams;
    r->state = COOKIE_ECHOED;
    memcpy(r->association_tie_tags, r->tie_tags, sizeof r->tie_tags);
    begin_receiving(r, kept.packet + kept.chunk.value_offset, kept.chunk.value_size);
}

/* Takes a chunk while this end calls (sections 5.1 and 5.2.6). Returns whether those after it are looked at. */
static bool take_call(struct responder *r, struct exchange *x)
{
    struct dcsctp_parameter it;
    if (x->chunk.type == DCSCTP_CHUNK_INIT_ACK && r->state == COOKIE_WAIT)
        answer_init_ack(r, x);
    if (x->chunk.type == DCSCTP_CHUNK_COOKIE_ACK && r->state == COOKIE_ECHOED) {
        r->state = ESTABLISHED;
        r->association.local_tag = r->own.initiate_tag;
    }
    if (x->chunk.type == DCSCTP_CHUNK_ERROR)
        for (size_t at = dcsctp_list_offset(&x->chunk); dcsctp_parameter_at(CHUNK(x), at, &it); at = it.next)
            if (it.type == DCSCTP_CAUSE_STALE_COOKIE)
                r->state = CLOSED;
    if (x->chunk.type == DCSCTP_CHUNK_ABORT)
        r->state = CLOSED;
    return r->state == ESTABLISHED;
}

/* Whether a TSN is the cumulative one, or comes before it. */
static bool is_past(const struct responder *r, uint32_t tsn)
{
    return tsn - r->cumulative_tsn - 1 >= INT32_MAX;
}

/* Takes the offsets from `first` to `last`; the cumulative TSN moves over those that have come without a gap. */
static void take_offsets(struct responder *r, uint32_t first, uint32_t last)
{
    r->blocks[r->block_count++] = (struct dcsctp_gap_ack_block){(uint16_t)first, (uint16_t)last};
    r->block_count = dcsctp_clean_blocks(r->blocks, r->block_count);
    const struct dcsctp_gap_ack_block front = r->blocks[0];
    if (front.start != 1)
        return;
    r->cumulative_tsn += front.end;
    r->block_count--;
    memmove(r->blocks, r->blocks + 1, r->block_count * sizeof front);
    for (size_t i = 0; i < r->block_count; i++)
        r->blocks[i].start -= front.end, r->blocks[i].end -= front.end;
}

/* Takes DATA or I-DATA. What is too far away, or would make too many gaps, is as if lost. Returns false after an ABORT. */
static bool take_data(struct responder *r, struct exchange *x)
{
    struct dcsctp_data data;
    const size_t start = x->size;
    if (!dcsctp_data(CHUNK(x), &data))
        return true;
    if (data.payload_size == 0) { /* section 6.2 */
        if (!dcsctp_add_chunk(TO(x), DCSCTP_CHUNK_ABORT, 0, NULL, 0))
            dcsctp_add_number(TO(x), start, DCSCTP_CAUSE_NO_USER_DATA, data.tsn);
        r->state = CLOSED;
        return false;
    }
    const uint32_t offset = data.tsn - r->cumulative_tsn;
    bool has_come = is_past(r, data.tsn);
    for (size_t i = 0; i < r->block_count; i++)
        has_come = has_come || (r->blocks[i].start <= offset && offset <= r->blocks[i].end);
    if (has_come && r->duplicate_count < MOST_DUPLICATES)
        r->duplicates[r->duplicate_count++] = data.tsn;
    if (!has_come && offset <= UINT16_MAX && (offset == 1 || r->block_count + 1 < MOST_BLOCKS)) {
        take_offsets(r, offset, offset);
        r->take_data(r->user, &data, x->bytes + data.payload_offset);
    }
    return x->is_sack_due = true;
}

/* Takes FORWARD-TSN or I-FORWARD-TSN (RFC 3758 section 3.6). Who puts streams in order calls dcsctp_skipped_stream here. */
static bool skip(struct responder *r, struct exchange *x)
{
    struct dcsctp_forward_tsn forward;
    if (!dcsctp_forward_tsn(CHUNK(x), &forward) || is_past(r, forward.new_cumulative_tsn))
        return x->is_sack_due = true;
    if (forward.new_cumulative_tsn - r->cumulative_tsn <= UINT16_MAX)
        take_offsets(r, 1, forward.new_cumulative_tsn - r->cumulative_tsn);
    else
        r->cumulative_tsn = forward.new_cumulative_tsn, r->block_count = 0;
    return x->is_sack_due = true;
}

/* Answers the requests of a RE-CONFIG (RFC 6525 sections 4.4 and 5.2); the last one, once more, as before. Its own streams
   carry nothing, and stay. Who puts streams in order calls dcsctp_reset_stream here. */
static bool answer_requests(struct responder *r, struct exchange *x)
{
    enum { PERFORMED = 1, DENIED = 2, BAD_SEQUENCE_NUMBER = 5, IN_PROGRESS = 6 };
    const size_t start = x->size;
    struct dcsctp_parameter it;
    struct dcsctp_re_config request, response = {.type = DCSCTP_PARAMETER_RECONFIGURATION_RESPONSE};
    for (size_t at = dcsctp_list_offset(&x->chunk); dcsctp_parameter_at(CHUNK(x), at, &it); at = it.next) {
        if (!dcsctp_re_config(x->bytes, x->length, &it, &request) || request.type == response.type)
            continue;
        const bool is_next = request.request_number == r->next_request;
        if (is_next && request.type == DCSCTP_PARAMETER_OUTGOING_SSN_RESET)
            r->last_result = is_past(r, request.last_tsn) ? PERFORMED : IN_PROGRESS;
        else if (is_next)
            r->last_result = request.type == DCSCTP_PARAMETER_ADD_OUTGOING_STREAMS ? PERFORMED : DENIED;
        response.result = is_next || request.request_number + 1 == r->next_request ? r->last_result : BAD_SEQUENCE_NUMBER;
        response.response_number = request.request_number;
        r->next_request += is_next && r->last_result != IN_PROGRESS;
        if (x->size > start || !dcsctp_add_chunk(TO(x), DCSCTP_CHUNK_RE_CONFIG, 0, NULL, 0))
            dcsctp_add_re_config(TO(x), start, &response, NULL, 0);
    }
    return true;
}

/* Answers a chunk of the association, which begins at an offset. Returns whether those after it are looked at too. */
static bool answer_chunk(struct responder *r, struct exchange *x, size_t at)
{
    const size_t start = x->size;
    struct dcsctp_parameter info;
    if (r->state < ESTABLISHED)
        return take_call(r, x);
    switch (x->chunk.type) {
    case DCSCTP_CHUNK_COOKIE_ECHO: return at == x->cookie && !dcsctp_add_cookie_ack(TO(x));
    case DCSCTP_CHUNK_DATA: case DCSCTP_CHUNK_I_DATA: return take_data(r, x);
    case DCSCTP_CHUNK_FORWARD_TSN: case DCSCTP_CHUNK_I_FORWARD_TSN: return skip(r, x);
    case DCSCTP_CHUNK_RE_CONFIG: return answer_requests(r, x);
    case DCSCTP_CHUNK_HEARTBEAT:
        if (dcsctp_parameter_at(CHUNK(x), dcsctp_list_offset(&x->chunk), &info) && info.type == DCSCTP_PARAMETER_HEARTBEAT_INFO)
            dcsctp_add_heartbeat(TO(x), true, x->bytes + info.value_offset, info.value_size);
        return true;
    case DCSCTP_CHUNK_SHUTDOWN: r->state = SHUTDOWN_ACK_SENT; return !dcsctp_add_shutdown_ack(TO(x));
    case DCSCTP_CHUNK_SHUTDOWN_ACK: r->state = CLOSED; dcsctp_add_shutdown_complete(TO(x), false); return false;
    case DCSCTP_CHUNK_SHUTDOWN_COMPLETE: case DCSCTP_CHUNK_ABORT: r->state = CLOSED; return false;
    case DCSCTP_CHUNK_INIT: case DCSCTP_CHUNK_INIT_ACK: case DCSCTP_CHUNK_COOKIE_ACK: case DCSCTP_CHUNK_SACK:
    case DCSCTP_CHUNK_HEARTBEAT_ACK: case DCSCTP_CHUNK_ERROR:
        return true;
    default: /* unknown: reported, and perhaps the last that is looked at (section 3.2) */
        if (dcsctp_action_reports(dcsctp_unrecognized_chunk(x->chunk.type)) && !dcsctp_add_chunk(TO(x), DCSCTP_CHUNK_ERROR, 0, NULL, 0)
            && dcsctp_add_parameter(TO(x), start, DCSCTP_CAUSE_UNRECOGNIZED_CHUNK, x->bytes + at,
                                    x->chunk.value_offset + x->chunk.value_size - at))
            x->size = start; /* no ERROR without a cause */
        return dcsctp_action_skips(dcsctp_unrecognized_chunk(x->chunk.type));
    }
}

/* Takes an AUTH, which begins at an offset. Returns whether those after it are looked at (RFC 4895 section 6.3). */
static bool take_auth(struct responder *r, struct exchange *x, size_t at)
{
    struct dcsctp_registered auth;
    const size_t start = x->size;
    if (x->is_authenticated || !dcsctp_registered_chunk(CHUNK(x), &auth))
        return false;
    const struct dcsctp_registered cause = {.short_number = auth.second_short_number};
    if (cause.short_number != SHA_1 && cause.short_number != SHA_256) {
        if (!dcsctp_add_chunk(TO(x), DCSCTP_CHUNK_ERROR, 0, NULL, 0)
            && dcsctp_add_registered_cause(TO(x), start, DCSCTP_CAUSE_UNSUPPORTED_HMAC_IDENTIFIER, &cause, NULL, 0))
            x->size = start;
        return false;
    }
    return x->is_authenticated = auth.short_number == r->pair_key_identifier && r->shared_key_size > 0
        && dcsctp_verify_auth(r->shared_key, r->shared_key_size, x->bytes + at, x->length - at);
}

/* The same of any chunk: one that counts after AUTH alone is discarded elsewhere. */
static bool take_chunk(struct responder *r, struct exchange *x, size_t at)
{
    if (r->listed.size > 0 && x->chunk.type == DCSCTP_CHUNK_AUTH)
        return take_auth(r, x, at);
    return (!x->is_authenticated && dcsctp_is_listed(r->listed.at, r->listed.size, x->chunk.type)) || answer_chunk(r, x, at);
}

/* Puts an AUTH before the first chunk of the answer that has to come after one (RFC 4895 section 6.2). Returns false where it
   has no room. */
static bool sign(const struct responder *r, struct exchange *x)
{
    const uint8_t zeros[32] = {0};
    const struct dcsctp_registered numbers = {.short_number = r->pair_key_identifier, .second_short_number = r->hmac,
                                              .rest_size = r->hmac == SHA_1 ? 20 : 32};
    const size_t end = x->size;
    uint8_t auth[40];
    size_t at = DCSCTP_FIRST_CHUNK;
    struct dcsctp_chunk chunk;
    for (; dcsctp_chunk_at(x->packet, end, at, &chunk); at = chunk.next)
        if (dcsctp_is_listed(r->peer_listed, r->peer_listed_size, chunk.type))
            break;
    if (at == end)
        return true;
    if (dcsctp_add_registered_chunk(TO(x), DCSCTP_CHUNK_AUTH, &numbers, zeros, sizeof zeros))
        return false;
    const size_t auth_size = x->size - end; /* it is added at the end, and goes to its place */
    memcpy(auth, x->packet + end, auth_size);
    memmove(x->packet + at + auth_size, x->packet + at, end - at);
    memcpy(x->packet + at, auth, auth_size);
    return dcsctp_sign_auth(r->shared_key, r->shared_key_size, x->packet + at, x->size - at);
}

/* Says what is done with a packet, by its ports and its tag. */
static uint32_t verdict_of(const struct responder *r, const struct exchange *x)
{
    const bool calls = r->state < ESTABLISHED;
    const struct dcsctp_association association = {calls ? r->own.initiate_tag : r->association.local_tag, r->association.peer_tag,
                                                   r->state != COOKIE_WAIT, calls};
    return r->state == CLOSED || !has_its_ports(r, x) ? DCSCTP_TAG_OUT_OF_THE_BLUE
                                                      : dcsctp_verify_tag(x->bytes, x->length, &association);
}

/* Answers the chunks of a packet of the association, from an offset on. */
static bool answer_chunks(struct responder *r, struct exchange *x, size_t at)
{
    if (dcsctp_begin(TO(x), r->association.local_port, r->association.peer_port, r->association.peer_tag)
        || !dcsctp_chunk_at(x->bytes, x->length, at, &x->chunk))
        return false;
    for (size_t next; take_chunk(r, x, at) && (next = x->chunk.next, dcsctp_chunk_at(x->bytes, x->length, next, &x->chunk));)
        at = next;
    if (x->is_sack_due && r->state >= ESTABLISHED && !dcsctp_add_sack(TO(x), r->cumulative_tsn, r->own.a_rwnd, r->blocks,
                                                                 r->block_count, r->duplicates, r->duplicate_count))
        r->duplicate_count = 0;
    return x->size > DCSCTP_FIRST_CHUNK && (r->shared_key_size == 0 || sign(r, x));
}

/* Answers a packet with COOKIE ECHO, which may come after an AUTH, and has to where it is listed. Without an association the keys
   are those of the cookie (RFC 4895 section 6.3). An AUTH that isn't right changes nothing. */
static bool answer_cookie(struct responder *r, uint64_t now, struct exchange *x)
{
    const struct responder before = *r;
    const struct dcsctp_chunk first = x->chunk;
    const bool has_auth = first.type == DCSCTP_CHUNK_AUTH, has_key = r->state >= COOKIE_ECHOED;
    if (has_auth && has_key && !take_auth(r, x, DCSCTP_FIRST_CHUNK))
        return false;
    if (has_auth && !dcsctp_chunk_at(x->bytes, x->length, first.next, &x->chunk))
        return false;
    if (x->chunk.type != DCSCTP_CHUNK_COOKIE_ECHO
        || (!has_auth && dcsctp_is_listed(r->listed.at, r->listed.size, DCSCTP_CHUNK_COOKIE_ECHO)))
        return false;
    if (!open_association(r, now, x))
        return x->size > 0;
    x->cookie = has_auth ? first.next : DCSCTP_FIRST_CHUNK;
    if (has_auth && !has_key) {
        x->chunk = first;
        if (!take_auth(r, x, DCSCTP_FIRST_CHUNK)) {
            *r = before;
            return false;
        }
    }
    return answer_chunks(r, x, x->cookie);
}

/* Answers a packet: one that belongs to no association as section 8.4 says. Returns whether there is an answer. */
static bool answer(struct responder *r, uint64_t now, struct exchange *x)
{
    uint32_t blue;
    switch (verdict_of(r, x)) {
    case DCSCTP_TAG_ACCEPT: return answer_chunks(r, x, DCSCTP_FIRST_CHUNK);
    case DCSCTP_TAG_DISCARD: return false;
    case DCSCTP_TAG_OUT_OF_THE_BLUE:
        blue = dcsctp_out_of_the_blue(x->bytes, x->length, true);
        if (blue != DCSCTP_ANSWER_INIT && blue != DCSCTP_ANSWER_COOKIE_ECHO)
            return !dcsctp_reply(TO(x), &x->header, blue);
    }
    if (x->chunk.type == DCSCTP_CHUNK_INIT)
        return answer_init(r, now, x);
    return answer_cookie(r, now, x);
}

/* Calls a peer: writes the INIT, and returns its size, or 0 if it has no room. There is no timer: who calls sends it again, and
   then what answers the INIT ACK, while the state stays (section 5.1). */
size_t responder_call(struct responder *r, uint16_t local_port, uint16_t peer_port, uint8_t *packet, size_t room)
{
    struct exchange x = {.packet = packet, .room = room};
    r->association = (struct dcsctp_cookie){.local_initial_tsn = r->own.initial_tsn, .local_port = local_port,
                                            .peer_port = peer_port, .outbound_streams = r->own.outbound_streams};
    r->shared_key_size = r->peer_listed_size = 0;
    r->state = COOKIE_WAIT;
    return !dcsctp_begin(TO(&x), local_port, peer_port, 0) && !dcsctp_add_init(TO(&x), &r->own) && add_own(r, NULL, 0, &x)
        && !dcsctp_seal(packet, x.size) ? x.size : 0;
}

/* Takes bytes that came, at a time in microseconds, and writes the packet that answers. Returns its size, or 0 if there is
   none. */
size_t responder_receive(struct responder *r, uint64_t now, const uint8_t *bytes, size_t length, uint8_t *packet, size_t room)
{
    const struct dcsctp_policy policy = {0};
    struct exchange x = {.bytes = bytes, .length = length, .packet = packet, .room = room};
    if (dcsctp_check(bytes, length, dcsctp_word(bytes, length), &policy) || !dcsctp_header(bytes, length, &x.header)
        || !dcsctp_chunk_at(bytes, length, DCSCTP_FIRST_CHUNK, &x.chunk) || x.header.source_port == 0
        || x.header.destination_port == 0)
        return 0;
    return answer(r, now, &x) && !dcsctp_seal(packet, x.size) ? x.size : 0;
}
