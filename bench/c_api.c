/* SPDX-License-Identifier: Apache-2.0 */
/* Times the C library over traffic files.

   usage: c_api ROUNDS MILLIS FILE..

   A file holds one packet a line, in hexadecimal. In each round every call goes over the whole file again and again
   for MILLIS milliseconds, one call after the other, so that a slow spell of the machine hits them all; the best round
   counts. Prints a Markdown table: nanoseconds a packet, a row a file. */
#define _GNU_SOURCE
#include <dcsctp.h>
#include <stdio.h>
#include <stdlib.h>
#include <string.h>
#include <time.h>

/* The checksum fields of the traffic are random. */
static const struct dcsctp_policy any = {.any_checksum = true};
static uint8_t output[1 << 20];

/* A packet, and what `write_packet` makes it of. */
struct packet {
    uint8_t *bytes;
    size_t length;
    struct dcsctp_packet read;
    struct dcsctp_row *rows;
    struct dcsctp_data *data; /* of each row that is DATA */
};

static uint64_t check(const struct packet *p)
{
    return dcsctp_check(p->bytes, p->length, 0, &any) == DCSCTP_OK;
}

/* The sum of all numbers of DATA and I-DATA, and of each payload's first byte. */
static uint64_t walk(const struct packet *p)
{
    const uint8_t *bytes = p->bytes;
    size_t length = p->length;
    struct dcsctp_chunk chunk;
    struct dcsctp_data data;
    uint64_t sum = 1;
    if (dcsctp_check(bytes, length, 0, &any) != DCSCTP_OK)
        return 0;
    for (size_t at = DCSCTP_FIRST_CHUNK; dcsctp_chunk_at(bytes, length, at, &chunk); at = chunk.next)
        if (dcsctp_data(bytes, length, &chunk, &data)) {
            sum += data.tsn + data.mid + data.fsn + data.ppid + data.stream + data.ssn;
            sum += data.is_unordered + data.is_beginning + data.is_end + data.immediate_ack;
            sum += data.payload_size ? bytes[data.payload_offset] : 0;
        }
    return sum;
}

static uint64_t canonical(const struct packet *p)
{
    size_t size;
    return dcsctp_canonical(p->bytes, p->length, 0, &any, output, sizeof output, &size) == DCSCTP_OK ? size : 0;
}

/* DATA is written of its fields, any other chunk of its value. */
static uint64_t write_packet(const struct packet *p)
{
    const struct dcsctp_header *header = &p->read.header;
    size_t size;
    if (dcsctp_begin(output, sizeof output, &size, header->source_port, header->destination_port, header->verification_tag))
        return 0;
    for (size_t i = 0; i < p->read.chunk_count; i++) {
        const struct dcsctp_chunk *chunk = &p->rows[i].chunk;
        uint32_t code =
            chunk->type == DCSCTP_CHUNK_DATA
                ? dcsctp_add_data(output, sizeof output, &size, &p->data[i], p->bytes + p->data[i].payload_offset,
                                  p->data[i].payload_size)
                : dcsctp_add_chunk(output, sizeof output, &size, chunk->type, chunk->flags,
                                   p->bytes + chunk->value_offset, chunk->value_size);
        if (code != DCSCTP_OK)
            return 0;
    }
    return size;
}

static uint64_t print(const struct packet *p)
{
    size_t size;
    return dcsctp_print(p->bytes, p->length, 0, &any, output, sizeof output, &size) == DCSCTP_OK ? size : 0;
}

static const struct {
    const char *name;
    uint64_t (*call)(const struct packet *p);
} calls[] = {{"check", check}, {"check and walk", walk}, {"canonical", canonical}, {"write", write_packet}, {"print", print}};
enum { CALLS = sizeof calls / sizeof calls[0], MOST = 2000 };

static struct packet packets[MOST];
static size_t count;

static void fail(const char *what, const char *file)
{
    fprintf(stderr, "c_api: %s: %s\n", file, what);
    exit(1);
}

static double seconds(void)
{
    struct timespec now;
    clock_gettime(CLOCK_MONOTONIC, &now);
    return (double)now.tv_sec + (double)now.tv_nsec * 1e-9;
}

static void load(const char *name)
{
    static char line[2 * 65536 + 2];
    FILE *file = fopen(name, "r");
    if (!file)
        fail("can't be read", name);
    for (count = 0; count < MOST && fgets(line, sizeof line, file); count++) {
        size_t length = strcspn(line, "\n") / 2;
        uint8_t *bytes = malloc(length + 1);
        if (!bytes)
            fail("there is no memory left", name);
        for (size_t i = 0; i < length; i++) {
            char digits[] = {line[2 * i], line[2 * i + 1], 0};
            bytes[i] = (uint8_t)strtoul(digits, NULL, 16);
        }
        struct packet *packet = &packets[count];
        *packet = (struct packet){.bytes = bytes, .length = length};
        dcsctp_read(bytes, length, 0, &any, NULL, 0, &packet->read);
        packet->rows = calloc(packet->read.chunk_count, sizeof *packet->rows);
        packet->data = calloc(packet->read.chunk_count, sizeof *packet->data);
        if (!packet->rows || !packet->data)
            fail("there is no memory left", name);
        dcsctp_read(bytes, length, 0, &any, packet->rows, packet->read.chunk_count, &packet->read);
        for (size_t i = 0; i < packet->read.chunk_count; i++)
            dcsctp_data(bytes, length, &packet->rows[i].chunk, &packet->data[i]);
        for (int which = 0; which < CALLS; which++)
            if (calls[which].call(packet) == 0)
                fail("a packet is refused", name);
    }
    fclose(file);
    if (count == 0)
        fail("has no packets", name);
}

/* Packets a second. */
static double rate(int which, double least)
{
    static volatile uint64_t sink;
    double begin = seconds(), took;
    unsigned long done = 0;
    do {
        uint64_t sum = 0;
        for (size_t i = 0; i < count; i++)
            sum += calls[which].call(&packets[i]);
        sink = sink + sum;
        done += count;
        took = seconds() - begin;
    } while (took < least);
    return (double)done / took;
}

int main(int words_count, char **words)
{
    if (words_count < 4) {
        fprintf(stderr, "usage: c_api ROUNDS MILLIS FILE..\n");
        return 2;
    }
    /* The C library then keeps large blocks, and doesn't ask the system for each of them. */
    free(malloc(16 << 20));
    int rounds = atoi(words[1]);
    double least = atoi(words[2]) / 1000.0;
    printf("| file |");
    for (int which = 0; which < CALLS; which++)
        printf(" %s |", calls[which].name);
    printf("\n| --- |");
    for (int which = 0; which < CALLS; which++)
        printf(" --: |");
    printf("\n");
    for (int word = 3; word < words_count; word++) {
        double best[CALLS] = {0};
        load(words[word]);
        for (int round = 0; round < rounds; round++)
            for (int which = 0; which < CALLS; which++) {
                double one = rate(which, least);
                if (one > best[which])
                    best[which] = one;
            }
        const char *slash = strrchr(words[word], '/'), *name = slash ? slash + 1 : words[word];
        printf("| `%.*s` |", (int)strcspn(name, "."), name);
        for (int which = 0; which < CALLS; which++)
            printf(1e9 / best[which] < 99.95 ? " %.1f |" : " %.0f |", 1e9 / best[which]);
        printf("\n");
        fflush(stdout);
        for (size_t i = 0; i < count; i++) {
            free(packets[i].bytes);
            free(packets[i].rows);
            free(packets[i].data);
        }
    }
    return 0;
}
