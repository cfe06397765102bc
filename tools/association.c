/* SPDX-License-Identifier: Apache-2.0 */
/* An association between two sockets of usrsctp, in one process: each packet is printed as it is sent.
 *
 *     cc tools/association.c -o association -lusrsctp -lpthread && ./association
 *
 * A line a packet: who sends it (client or server), and its bytes in hexadecimal. */
#include <pthread.h>
#include <stdint.h>
#include <stdio.h>
#include <stdlib.h>
#include <string.h>
#include <unistd.h>
#include <netinet/in.h>
#include <sys/socket.h>
#include <usrsctp.h>

static char client_end, server_end;

/* Packets wait here, so that none is delivered by the call that sends it. */
struct packet { void *to; size_t size; struct packet *next; uint8_t bytes[2048]; };
static struct packet *first, **last = &first;
static pthread_mutex_t lock = PTHREAD_MUTEX_INITIALIZER;

static int send_packet(void *address, void *buffer, size_t size, uint8_t tos, uint8_t set_df) {
    (void)tos; (void)set_df;
    struct packet *packet = calloc(1, sizeof *packet);
    if (!packet || size > sizeof packet->bytes) exit(1);
    memcpy(packet->bytes, buffer, size);
    packet->size = size;
    packet->to = address == &client_end ? &server_end : &client_end;
    pthread_mutex_lock(&lock);
    *last = packet;
    last = &packet->next;
    pthread_mutex_unlock(&lock);
    return 0;
}

static int deliver(void) {
    pthread_mutex_lock(&lock);
    struct packet *packet = first;
    if (packet) {
        first = packet->next;
        if (!first) last = &first;
    }
    pthread_mutex_unlock(&lock);
    if (!packet) return 0;
    printf("%s ", packet->to == &server_end ? "client" : "server");
    for (size_t i = 0; i < packet->size; i++) printf("%02x", packet->bytes[i]);
    printf("\n");
    fflush(stdout);
    usrsctp_conninput(packet->to, packet->bytes, packet->size, 0);
    free(packet);
    return 1;
}

static void run(int milliseconds) {
    for (int i = 0; i < milliseconds; i++) {
        while (deliver()) {}
        usleep(1000);
    }
}

static int receive(struct socket *s, union sctp_sockstore a, void *data, size_t n, struct sctp_rcvinfo i, int flags, void *p) {
    (void)s; (void)a; (void)n; (void)i; (void)flags; (void)p;
    if (data) free(data);
    return 1;
}

static void must(int ok, const char *what) {
    if (!ok) { perror(what); exit(1); }
}

static struct sockaddr_conn address(void *end) {
    struct sockaddr_conn a;
    memset(&a, 0, sizeof a);
    a.sconn_family = AF_CONN;
    a.sconn_port = htons(5000);
    a.sconn_addr = end;
    return a;
}

static struct socket *endpoint(void *end) {
    struct socket *s = usrsctp_socket(AF_CONN, SOCK_STREAM, IPPROTO_SCTP, receive, NULL, 0, NULL);
    must(s != NULL, "socket");
    struct sctp_assoc_value reset = { .assoc_id = SCTP_ALL_ASSOC, .assoc_value = SCTP_ENABLE_RESET_STREAM_REQ };
    must(!usrsctp_setsockopt(s, IPPROTO_SCTP, SCTP_ENABLE_STREAM_RESET, &reset, sizeof reset), "reset");
    struct sctp_initmsg init = { .sinit_num_ostreams = 4, .sinit_max_instreams = 4 };
    must(!usrsctp_setsockopt(s, IPPROTO_SCTP, SCTP_INITMSG, &init, sizeof init), "initmsg");
    usrsctp_set_non_blocking(s, 1);
    struct sockaddr_conn a = address(end);
    must(!usrsctp_bind(s, (struct sockaddr *)&a, sizeof a), "bind");
    return s;
}

static void send_text(struct socket *s, const char *text, uint16_t stream, int unordered) {
    struct sctp_sndinfo info = { .snd_sid = stream, .snd_ppid = htonl(51), .snd_flags = unordered ? SCTP_UNORDERED : 0 };
    must(usrsctp_sendv(s, text, strlen(text), NULL, 0, &info, sizeof info, SCTP_SENDV_SNDINFO, 0) >= 0, "send");
}

int main(void) {
    usrsctp_init(0, send_packet, NULL);
    usrsctp_sysctl_set_sctp_ecn_enable(0);
    usrsctp_register_address(&client_end);
    usrsctp_register_address(&server_end);
    struct socket *server = endpoint(&server_end);
    must(!usrsctp_listen(server, 1), "listen");
    struct socket *client = endpoint(&client_end);
    struct sockaddr_conn to = address(&client_end);
    usrsctp_connect(client, (struct sockaddr *)&to, sizeof to);
    run(50);
    struct socket *peer = usrsctp_accept(server, NULL, NULL);
    must(peer != NULL, "accept");
    send_text(client, "hello", 1, 0);
    run(300);
    send_text(peer, "hello to you", 1, 1);
    run(300);
    struct sctp_paddrparams heartbeat;
    memset(&heartbeat, 0, sizeof heartbeat);
    memcpy(&heartbeat.spp_address, &to, sizeof to);
    heartbeat.spp_flags = SPP_HB_DEMAND;
    must(!usrsctp_setsockopt(client, IPPROTO_SCTP, SCTP_PEER_ADDR_PARAMS, &heartbeat, sizeof heartbeat), "heartbeat");
    run(50);
    struct { struct sctp_reset_streams r; uint16_t streams[1]; } reset;
    memset(&reset, 0, sizeof reset);
    reset.r.srs_flags = SCTP_STREAM_RESET_OUTGOING;
    reset.r.srs_number_streams = 1;
    reset.r.srs_stream_list[0] = 1;
    must(!usrsctp_setsockopt(client, IPPROTO_SCTP, SCTP_RESET_STREAMS, &reset, (socklen_t)(sizeof reset.r + 2)), "streams");
    run(50);
    must(!usrsctp_shutdown(client, SHUT_WR), "shutdown");
    run(300);
    return 0;
}
