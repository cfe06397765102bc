/* SPDX-License-Identifier: Apache-2.0 */
/* Writes what two sockets of usrsctp, a real stack of SCTP, send to each other in one process.

   usage: cc -O2 -o stacks tests/dump/stacks.c -lusrsctp && ./stacks FILE [IPV4 IPV6]

   FILE is a capture (pcap) of link type 248: packets of SCTP without addresses. One association follows another, each with an
   extension of its own. Those with ASCONF, and with lists of addresses, are over UDP on this machine, which has these addresses
   beside 127.0.0.1 and ::1 (`ip addr add 192.0.2.2/32 dev lo`, `ip addr add 2001:db8::2/128 dev lo`). In the last ones the
   network spoils packets, and what is written is what was sent. usrsctp asks this program for the time and for random numbers,
   so that each run writes the same. Needed is Debian's libusrsctp-dev; data/usrsctp.pcap is what
   `stacks FILE 192.0.2.2 2001:db8::2` wrote with its version 0.9.5.0. */
#define _GNU_SOURCE
#include <arpa/inet.h>
#include <errno.h>
#include <stdbool.h>
#include <stdint.h>
#include <stdio.h>
#include <stdlib.h>
#include <string.h>
#include <sys/syscall.h>
#include <sys/time.h>
#include <sys/wait.h>
#include <unistd.h>
#include <usrsctp.h>

enum { STREAMS = 4, STEP = 5 /* of the clock, in milliseconds */, LARGEST = 1500, START = 1700000000 /* in seconds */ };
enum { INTERLEAVING_SUPPORTED = 0x1206 }; /* usrsctp's SCTP_INTERLEAVING_SUPPORTED, which its header leaves out */
enum { UDP_PORT = 9899, COOKIE_LIFE = 1000 /* of a stale one, in milliseconds */ };
enum { DATA = 0, INIT = 1, COOKIE_ECHO = 10, ASCONF_ACK = 128 };

/* ---- what each association is to have */

static const struct scenario {
    const char *name;
    bool is_interleaved;   /* I-DATA in place of DATA (RFC 8260) */
    bool is_authenticated; /* AUTH before DATA and SACK (RFC 4895) */
    bool is_refused;       /* AUTH before COOKIE ECHO, which usrsctp itself doesn't take */
    bool abandons;         /* messages are given up (RFC 3758) */
    bool has_nr_sack;      /* NR-SACK in place of SACK */
    bool changes;          /* streams are reset and added (RFC 6525) */
    bool idles;            /* the sides ask whether the other is there: HEARTBEAT */
    bool aborts;           /* the end is ABORT in place of SHUTDOWN */
    bool is_spoiled;       /* see `spoil` */
    bool is_stale;         /* COOKIE ECHO comes when its cookie is no longer good */
    unsigned messages;     /* of each side, at first */
    unsigned lost;         /* packets of a hundred */
} scenarios[] = {
    {.name = "plain", .messages = 8, .lost = 10, .idles = true},
    {.name = "authenticated", .messages = 6, .is_authenticated = true, .lost = 5},
    {.name = "refused", .is_authenticated = true, .is_refused = true},
    {.name = "partial", .messages = 6, .abandons = true, .lost = 20},
    {.name = "nr-sack", .messages = 6, .has_nr_sack = true, .lost = 10},
    {.name = "i-data", .messages = 6, .is_interleaved = true, .changes = true},
    {.name = "i-partial", .messages = 6, .is_interleaved = true, .abandons = true, .lost = 45},
    {.name = "aborted", .messages = 6, .changes = true, .aborts = true},
    {0},
}, later_scenarios[] = {
    {.name = "spoiled", .messages = 3, .is_spoiled = true},
    {.name = "stale", .messages = 1, .is_stale = true},
    {.name = "nr-sack, of both kinds", .messages = 20, .has_nr_sack = true, .lost = 30},
    {0},
}, *scenario;

static uint64_t now; /* in milliseconds */
static FILE *capture;
static const char *addresses[2]; /* of this machine: one of each version */

#define REQUIRE(condition) ((condition) ? (void)0 : fail(#condition, __LINE__))

_Noreturn static void fail(const char *condition, int line)
{
    fprintf(stderr, "tests/dump/stacks.c:%d: %s: fails at %llu ms: %s\n", line, scenario ? scenario->name : "asconf",
            (unsigned long long)now, condition);
    exit(1);
}

/* ---- what usrsctp asks for: the time, and random numbers (xorshift64*) */

static uint64_t state = 0x9e3779b97f4a7c15;

static uint64_t draw(void)
{
    state ^= state >> 12;
    state ^= state << 25;
    state ^= state >> 27;
    return state * 0x2545f4914f6cdd1d >> 32;
}

int gettimeofday(struct timeval *restrict time, void *restrict zone)
{
    (void)zone;
    *time = (struct timeval){.tv_sec = (time_t)(START + now / 1000), .tv_usec = (suseconds_t)(now % 1000 * 1000)};
    return 0;
}

void read_random(void *buffer, size_t size);

void read_random(void *buffer, size_t size)
{
    for (uint8_t *byte = buffer; size > 0; size--)
        *byte++ = (uint8_t)draw();
}

/* ---- the capture */

static void write_numbers(const uint32_t *numbers, size_t count)
{
    REQUIRE(fwrite(numbers, sizeof *numbers, count, capture) == count);
}

static void write_record(const void *bytes, size_t size)
{
    const uint32_t header[] = {(uint32_t)(START + now / 1000), (uint32_t)(now % 1000 * 1000), (uint32_t)size, (uint32_t)size};
    write_numbers(header, 4);
    REQUIRE(fwrite(bytes, 1, size, capture) == size);
}

/* ---- two sides, and the packets under way */

static struct side {
    struct socket *listener, *socket;
    size_t sent, received; /* messages */
    unsigned changes;      /* how often it heard that streams changed */
} sides[2];

/* What usrsctp knows a side by: it is in its cookies, so it has to be the same in each run. */
static void *name_of(const struct side *side)
{
    return (void *)(uintptr_t)(1 + (side - sides));
}

static struct packet {
    struct packet *next;
    uint64_t due;
    struct side *to;
    size_t size;
    uint8_t bytes[];
} *under_way; /* in the order in which they were sent */

static void put(uint8_t *place, const uint8_t *bytes, size_t size)
{
    memcpy(place, bytes, size);
}

/* Spoils a packet on its way, once for each of these, and gives it the checksum of what it is now: INIT has a parameter and a
   packet a chunk of a type that usrsctp doesn't know, DATA is of a stream that isn't there, and DATA has no user data. */
static size_t spoil(uint8_t *packet, size_t size)
{
    static const uint8_t parameter[] = {0xc0, 0xde, 0, 8, 1, 2, 3, 4}, chunk[] = {0xfe, 0, 0, 8, 5, 6, 7, 8};
    static const uint8_t empty[] = {DATA, 3, 0, 16}, stream[] = {0, 77};
    static unsigned step;
    uint8_t *head = packet + 12;
    if (head[0] == INIT && step == 0) {
        uint16_t length = htons((uint16_t)(size - 12 + sizeof parameter));
        put(packet + size, parameter, sizeof parameter);
        put(head + 2, (uint8_t *)&length, sizeof length);
        size += sizeof parameter;
    } else if (head[0] == DATA && step == 1) {
        put(head + 8, stream, sizeof stream);
    } else if (head[0] == DATA && step == 2) {
        put(packet + size, chunk, sizeof chunk);
        size += sizeof chunk;
    } else if (head[0] == DATA && step == 3) {
        put(head, empty, sizeof empty);
        size = 12 + 16;
    } else {
        return size;
    }
    step++;
    memset(packet + 8, 0, 4);
    uint32_t checksum = usrsctp_crc32c(packet, size);
    put(packet + 8, (uint8_t *)&checksum, sizeof checksum);
    return size;
}

/* usrsctp calls this with locks held: so the packet waits until the clock goes on. */
static int send_packet(void *from, void *bytes, size_t size, uint8_t tos, uint8_t set_df)
{
    static uint64_t good_until; /* where a cookie is to be stale */
    struct packet **place = &under_way, *packet = malloc(sizeof *packet + size + 8);
    const uint8_t type = ((uint8_t *)bytes)[12];
    (void)tos, (void)set_df;
    REQUIRE(packet);
    write_record(bytes, size);
    if (type == INIT)
        good_until = good_until ? good_until : now + 2 * COOKIE_LIFE;
    if (draw() % 100 < scenario->lost || (scenario->is_stale && type == COOKIE_ECHO && now < good_until)) {
        free(packet);
        return 0;
    }
    *packet = (struct packet){.due = now + 20, .to = &sides[from == name_of(&sides[0])], .size = size};
    memcpy(packet->bytes, bytes, size);
    if (scenario->is_spoiled)
        packet->size = spoil(packet->bytes, size);
    while (*place)
        place = &(*place)->next;
    *place = packet;
    return 0;
}

/* usrsctp's call: with a message, with an event of streams that changed, or with no data at the end. */
static int receive(struct socket *socket, union sctp_sockstore from, void *data, size_t size, struct sctp_rcvinfo info, int flags,
                   void *to)
{
    struct side *side = to;
    (void)socket, (void)from, (void)size, (void)info;
    if (data && flags & MSG_NOTIFICATION)
        side->changes++;
    else if (data)
        side->received++;
    free(data);
    return 1;
}

/* Half an hour of the clock is enough for anything. */
#define RUN_UNTIL(condition) \
    for (uint64_t last = now + 1800000; !(condition); step()) \
        REQUIRE(now < last && #condition)

static void step(void)
{
    now += STEP;
    while (under_way && under_way->due <= now) {
        struct packet *packet = under_way;
        under_way = packet->next;
        usrsctp_conninput(name_of(packet->to), packet->bytes, packet->size, 0);
        free(packet);
    }
    usrsctp_handle_timers(STEP);
}

static void run_for(uint64_t time)
{
    for (uint64_t end = now + time; now < end;)
        step();
}

/* ---- an association */

static struct sockaddr_conn address_of(struct side *side)
{
    return (struct sockaddr_conn){.sconn_family = AF_CONN, .sconn_port = htons(5000), .sconn_addr = name_of(side)};
}

static void set(struct socket *socket, int option, const void *value, size_t size)
{
    REQUIRE(!usrsctp_setsockopt(socket, IPPROTO_SCTP, option, value, (socklen_t)size));
}

/* Asks for AUTH before chunks of some types. */
static void authenticate(struct socket *socket)
{
    const uint8_t types[] = {0 /* DATA */, 3 /* SACK */, 10 /* COOKIE ECHO */};
    for (size_t i = 0; i < sizeof types - !scenario->is_refused; i++) {
        struct sctp_authchunk chunk = {.sauth_chunk = types[i]};
        set(socket, SCTP_AUTH_CHUNK, &chunk, sizeof chunk);
    }
}

static struct socket *open_socket(struct side *side)
{
    const int level = 2;
    const uint16_t types[] = {SCTP_STREAM_RESET_EVENT, SCTP_STREAM_CHANGE_EVENT};
    struct sctp_initmsg init = {.sinit_num_ostreams = STREAMS, .sinit_max_instreams = 4 * STREAMS};
    struct sctp_assoc_value on = {.assoc_value = 1};
    struct sctp_assoc_value changes = {.assoc_value = SCTP_ENABLE_RESET_STREAM_REQ | SCTP_ENABLE_CHANGE_ASSOC_REQ};
    struct sockaddr_conn address = address_of(side);
    struct socket *socket = usrsctp_socket(AF_CONN, SOCK_STREAM, IPPROTO_SCTP, receive, NULL, 0, side);
    REQUIRE(socket && !usrsctp_set_non_blocking(socket, 1));
    set(socket, SCTP_INITMSG, &init, sizeof init);
    set(socket, SCTP_ENABLE_STREAM_RESET, &changes, sizeof changes);
    for (int i = 0; i < 2; i++) {
        struct sctp_event event = {.se_type = types[i], .se_on = 1};
        set(socket, SCTP_EVENT, &event, sizeof event);
    }
    if (scenario->is_interleaved) {
        set(socket, SCTP_FRAGMENT_INTERLEAVE, &level, sizeof level);
        set(socket, INTERLEAVING_SUPPORTED, &on, sizeof on);
    }
    if (scenario->has_nr_sack)
        set(socket, SCTP_NRSACK_SUPPORTED, &on, sizeof on);
    if (scenario->is_authenticated)
        authenticate(socket);
    if (scenario->is_stale) {
        struct sctp_assocparams life = {.sasoc_cookie_life = COOKIE_LIFE};
        set(socket, SCTP_ASSOCINFO, &life, sizeof life);
    }
    REQUIRE(!usrsctp_bind(socket, (struct sockaddr *)&address, sizeof address));
    return socket;
}

/* The state of a side's association; -1 where there is none. */
static int32_t state_of(const struct side *side)
{
    struct sctp_status status = {0};
    socklen_t size = sizeof status;
    return usrsctp_getsockopt(side->socket, IPPROTO_SCTP, SCTP_STATUS, &status, &size) ? -1 : status.sstat_state;
}

static void connect_sides(void)
{
    struct sockaddr_conn to = address_of(&sides[0]);
    sides[1].listener = open_socket(&sides[1]);
    REQUIRE(!usrsctp_listen(sides[1].listener, 1));
    sides[0].socket = open_socket(&sides[0]);
    REQUIRE(usrsctp_connect(sides[0].socket, (struct sockaddr *)&to, sizeof to) < 0 && errno == EINPROGRESS);
    if (scenario->is_refused)
        return;
    RUN_UNTIL((sides[1].socket = usrsctp_accept(sides[1].listener, NULL, NULL)));
    RUN_UNTIL(state_of(&sides[0]) == SCTP_ESTABLISHED);
}

/* Sends messages, of which one in four is large, and one in three unordered; of those that may be given up, the last is not. */
static void send_messages(struct side *side, size_t count)
{
    static uint8_t bytes[LARGEST];
    for (size_t i = 0; i < count; i++) {
        struct sctp_sendv_spa how = {.sendv_flags = SCTP_SEND_SNDINFO_VALID | SCTP_SEND_PRINFO_VALID};
        how.sendv_sndinfo.snd_sid = (uint16_t)(i % STREAMS);
        how.sendv_sndinfo.snd_ppid = htonl(51);
        how.sendv_sndinfo.snd_flags = i % 3 == 2 ? SCTP_UNORDERED : 0;
        how.sendv_prinfo.pr_policy = scenario->abandons && i + 1 < count ? SCTP_PR_SCTP_RTX : SCTP_PR_SCTP_NONE;
        memset(bytes, 'a' + (int)(i % 26), sizeof bytes);
        size_t size = i % 4 == 3 && !scenario->abandons ? LARGEST : 20 + i;
        REQUIRE(usrsctp_sendv(side->socket, bytes, size, NULL, 0, &how, sizeof how, SCTP_SENDV_SPA, 0) == (ssize_t)size);
        side->sent++;
        run_for(4 * STEP);
    }
}

static void exchange_messages(size_t count)
{
    size_t before[2] = {sides[0].received, sides[1].received};
    send_messages(&sides[0], count);
    send_messages(&sides[1], count);
    for (int i = 0; i < 2; i++)
        RUN_UNTIL(scenario->abandons ? sides[i].received > before[i] : sides[i].received == before[i] + count);
    run_for(scenario->idles ? 40000 : 1000);
}

static void change(struct side *side, int option, const void *request, size_t size)
{
    unsigned before = side->changes;
    RUN_UNTIL(!usrsctp_setsockopt(side->socket, IPPROTO_SCTP, option, request, (socklen_t)size));
    RUN_UNTIL(side->changes > before && !under_way);
}

/* Resets all streams of one direction, two of the other, and adds some. */
static void change_streams(void)
{
    const struct sctp_add_streams add = {.sas_outstrms = 2};
    uint16_t words[16] = {0};
    struct sctp_reset_streams *request = (struct sctp_reset_streams *)(void *)words;
    request->srs_flags = SCTP_STREAM_RESET_OUTGOING;
    change(&sides[0], SCTP_RESET_STREAMS, request, sizeof *request);
    request->srs_flags = SCTP_STREAM_RESET_INCOMING;
    request->srs_number_streams = 2;
    request->srs_stream_list[0] = 1;
    request->srs_stream_list[1] = 3;
    change(&sides[1], SCTP_RESET_STREAMS, request, sizeof *request + 2 * sizeof(uint16_t));
    change(&sides[0], SCTP_ADD_STREAMS, &add, sizeof add);
}

/* Where it aborts, the other side's last message comes out of the blue. */
static void end_association(void)
{
    struct sctp_sndinfo info = {.snd_flags = SCTP_ABORT};
    if (scenario->aborts) {
        usrsctp_sendv(sides[1].socket, "late", 4, NULL, 0, NULL, 0, SCTP_SENDV_NOINFO, 0);
        usrsctp_sendv(sides[0].socket, "enough", 6, NULL, 0, &info, sizeof info, SCTP_SENDV_SNDINFO, 0);
    } else {
        REQUIRE(!usrsctp_shutdown(sides[0].socket, SHUT_WR));
    }
    RUN_UNTIL(state_of(&sides[0]) < 0 && state_of(&sides[1]) < 0 && !under_way);
}

static void run_association(void)
{
    connect_sides();
    if (scenario->is_refused) {
        run_for(8000);
        return;
    }
    if (scenario->is_spoiled) {
        send_messages(&sides[0], scenario->messages);
        run_for(1000);
        return;
    }
    exchange_messages(scenario->messages);
    RUN_UNTIL(!under_way);
    if (scenario->changes) {
        change_streams();
        exchange_messages(4);
    }
    end_association();
}

static void run_scenario(void)
{
    usrsctp_init_nothreads(0, send_packet, NULL);
    usrsctp_sysctl_set_sctp_recvspace(1 << 20); /* I-DATA needs room for a part of a message on each stream */
    for (int i = 0; i < 2; i++) {
        sides[i] = (struct side){0};
        usrsctp_register_address(name_of(&sides[i]));
    }
    run_association();
    printf("%s: %zu and %zu messages sent, %zu and %zu received\n", scenario->name, sides[0].sent, sides[1].sent,
           sides[1].received, sides[0].received);
    usrsctp_close(sides[1].listener);
    for (int i = 0; i < 2; i++) {
        if (sides[i].socket)
            usrsctp_close(sides[i].socket);
        usrsctp_deregister_address(name_of(&sides[i]));
    }
    RUN_UNTIL(!usrsctp_finish());
}

/* ---- ASCONF (RFC 5061), of which usrsctp knows none without IP: over UDP on this machine */

/* The type of the chunk whose packets the network loses; -1 for none. */
static int lost_type = -1;

static bool has_chunk(const uint8_t *packet, size_t size, int type)
{
    for (size_t at = 12; at + 4 <= size; at += (((size_t)packet[at + 2] << 8 | packet[at + 3]) + 3) & ~(size_t)3) {
        if (packet[at] == type)
            return true;
    }
    return false;
}

/* In the place of the C library's: what usrsctp sends by UDP is a packet of SCTP. The clock stands still while it waits. */
ssize_t sendmsg(int file, const struct msghdr *message, int flags)
{
    static uint8_t bytes[65536];
    size_t size = 0;
    flockfile(capture);
    for (size_t i = 0; i < message->msg_iovlen; i++) {
        memcpy(bytes + size, message->msg_iov[i].iov_base, message->msg_iov[i].iov_len);
        size += message->msg_iov[i].iov_len;
    }
    write_record(bytes, size);
    funlockfile(capture);
    if (has_chunk(bytes, size, lost_type))
        return (ssize_t)size;
    return syscall(SYS_sendmsg, file, message, flags);
}

static void wait_for(unsigned time)
{
    usleep(1000 * time);
    now += time;
}

static struct sockaddr_in ip_address(const char *address, uint16_t port)
{
    return (struct sockaddr_in){.sin_family = AF_INET, .sin_addr.s_addr = inet_addr(address), .sin_port = htons(port)};
}

static struct sockaddr_in6 ipv6_address(const char *address, uint16_t port)
{
    struct sockaddr_in6 made = {.sin6_family = AF_INET6, .sin6_port = htons(port)};
    REQUIRE(inet_pton(AF_INET6, address, &made.sin6_addr) == 1);
    return made;
}

/* A socket of 127.0.0.1, or of ::1, which may have addresses of both versions. */
static struct socket *open_over_udp(sa_family_t family, uint16_t port)
{
    struct sctp_udpencaps udp = {.sue_address.ss_family = family, .sue_port = htons(UDP_PORT)};
    struct sockaddr_in ipv4 = ip_address("127.0.0.1", port);
    struct sockaddr_in6 ipv6 = ipv6_address("::1", port);
    struct socket *socket = usrsctp_socket(family, SOCK_STREAM, IPPROTO_SCTP, receive, NULL, 0, &sides[port % 2]);
    REQUIRE(socket);
    set(socket, SCTP_REMOTE_UDP_ENCAPS_PORT, &udp, sizeof udp);
    if (family == AF_INET)
        REQUIRE(!usrsctp_bind(socket, (struct sockaddr *)&ipv4, sizeof ipv4));
    else
        REQUIRE(!usrsctp_bind(socket, (struct sockaddr *)&ipv6, sizeof ipv6));
    return socket;
}

/* A thread of usrsctp does it a moment later. */
static void change_address(struct socket *socket, void *address, int change)
{
    REQUIRE(!usrsctp_bindx(socket, address, 1, change));
    wait_for(100);
}

static void make_primary(struct socket *socket, const void *address, size_t size)
{
    struct sctp_setpeerprim primary = {0};
    memcpy(&primary.sspp_addr, address, size);
    set(socket, SCTP_SET_PEER_PRIMARY_ADDR, &primary, sizeof primary);
}

/* Opens both sides, and connects the first to the second. */
static void connect_over_udp(sa_family_t family, uint16_t port)
{
    struct sockaddr_in ipv4 = ip_address("127.0.0.1", port);
    struct sockaddr_in6 ipv6 = ipv6_address("::1", port);
    sides[1].listener = open_over_udp(family, port);
    REQUIRE(!usrsctp_listen(sides[1].listener, 1));
    sides[0].socket = open_over_udp(family, port + 1);
    if (family == AF_INET)
        REQUIRE(!usrsctp_connect(sides[0].socket, (struct sockaddr *)&ipv4, sizeof ipv4));
    else
        REQUIRE(!usrsctp_connect(sides[0].socket, (struct sockaddr *)&ipv6, sizeof ipv6));
    REQUIRE((sides[1].socket = usrsctp_accept(sides[1].listener, NULL, NULL)));
    wait_for(300);
}

static void send_hello(void)
{
    REQUIRE(usrsctp_sendv(sides[1].socket, "hello", 5, NULL, 0, NULL, 0, SCTP_SENDV_NOINFO, 0) == 5);
    wait_for(500);
}


/* The first side adds its other address, makes it the other side's first choice, and takes the old one away. */
static void run_asconf(void)
{
    struct sockaddr_in old = ip_address("127.0.0.1", 5002), new = ip_address(addresses[0], 5002);
    connect_over_udp(AF_INET, 5001);
    change_address(sides[0].socket, &new, SCTP_BINDX_ADD_ADDR);
    wait_for(1400);
    make_primary(sides[0].socket, &new, sizeof new);
    wait_for(1500);
    send_hello();
    change_address(sides[0].socket, &old, SCTP_BINDX_REM_ADDR);
    wait_for(1400);
    REQUIRE(!usrsctp_shutdown(sides[0].socket, SHUT_WR));
    wait_for(1000);
}

/* The first side adds an address. As the answer is lost, what it asks for then waits, and goes together: another address, and to make
   the first its peer's choice. Then it takes both away, one by one. No end is sent: usrsctp 0.9.5.0 crashes at it. */
static void run_requests(void)
{
    struct sockaddr_in6 first = ipv6_address(addresses[1], 5004);
    struct sockaddr_in second = ip_address(addresses[0], 5004);
    connect_over_udp(AF_INET6, 5003);
    lost_type = ASCONF_ACK;
    change_address(sides[0].socket, &first, SCTP_BINDX_ADD_ADDR);
    change_address(sides[0].socket, &second, SCTP_BINDX_ADD_ADDR);
    make_primary(sides[0].socket, &first, sizeof first);
    lost_type = -1;
    wait_for(4000);
    make_primary(sides[0].socket, &second, sizeof second);
    wait_for(1500);
    change_address(sides[0].socket, &second, SCTP_BINDX_REM_ADDR);
    wait_for(1400);
    change_address(sides[0].socket, &first, SCTP_BINDX_REM_ADDR);
    wait_for(1400);
    send_hello();
}

/* Both sides have four addresses. COOKIE ECHO is lost: so neither asks which of them it reaches, which no order is known of. */
static void run_addresses(void)
{
    struct sockaddr_in6 to = ipv6_address("::1", 5005);
    struct socket *sockets[2];
    for (uint16_t i = 0; i < 2; i++) {
        struct sockaddr_in own = ip_address("127.0.0.1", 5005 + i), other = ip_address(addresses[0], 5005 + i);
        struct sockaddr_in6 third = ipv6_address(addresses[1], 5005 + i);
        sockets[i] = open_over_udp(AF_INET6, 5005 + i);
        change_address(sockets[i], &own, SCTP_BINDX_ADD_ADDR);
        change_address(sockets[i], &other, SCTP_BINDX_ADD_ADDR);
        change_address(sockets[i], &third, SCTP_BINDX_ADD_ADDR);
    }
    lost_type = COOKIE_ECHO;
    REQUIRE(!usrsctp_listen(sockets[0], 1) && !usrsctp_set_non_blocking(sockets[1], 1));
    REQUIRE(usrsctp_connect(sockets[1], (struct sockaddr *)&to, sizeof to) < 0 && errno == EINPROGRESS);
    wait_for(500);
}

/* ---- all of them */

static void run_all(const struct scenario *first)
{
    for (scenario = first; scenario->name; scenario++)
        run_scenario();
}

static void run_scenarios(void)
{
    run_all(scenarios);
}

static void run_later_scenarios(void)
{
    run_all(later_scenarios);
}

/* Runs them in a process of its own, and what follows an hour later, with other tags: usrsctp sends no ASCONF after it was there
   without threads, and its threads run on. */
static bool run_alone(void (*run)(void), bool is_over_udp)
{
    int status = 0;
    fflush(NULL);
    pid_t child = fork();
    if (child == 0) {
        if (is_over_udp)
            usrsctp_init(UDP_PORT, NULL, NULL);
        run();
        fflush(NULL);
        _exit(ferror(capture) != 0);
    }
    state++;
    now += 3600000;
    return child > 0 && waitpid(child, &status, 0) == child && status == 0;
}

int main(int count, char **words)
{
    const uint32_t head[] = {0xa1b2c3d4, 2 | 4 << 16, 0, 0, 65535, 248};
    capture = count == 2 || count == 4 ? fopen(words[1], "wb") : NULL;
    if (!capture) {
        fprintf(stderr, "usage: %s FILE [IPV4 IPV6]\n", words[0]);
        return 2;
    }
    write_numbers(head, 6);
    memcpy(addresses, words + 2, (size_t)(count - 2) * sizeof *words);
    bool good = run_alone(run_scenarios, false);
    state = 1;
    if (count == 4)
        good = good && run_alone(run_asconf, true) && run_alone(run_requests, true) && run_alone(run_addresses, true);
    return !(good && run_alone(run_later_scenarios, false));
}
