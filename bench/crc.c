/* SPDX-License-Identifier: Apache-2.0 */
/* Times the CRC32c of crates/test_callers, beside a loop in C that goes byte by byte through one table, and the word of a packet by the
   processor's instruction.

   usage: crc ROUNDS MILLIS

   In each round every function goes over the same bytes again and again for MILLIS milliseconds, one after the other, so
   that a slow spell of the machine hits them all; the best round counts. First it compares the functions at all lengths up
   to 4,096 bytes. Prints a Markdown table: gigabytes a second (10^9 bytes), a row a length. */
#define _GNU_SOURCE
#include <dcsctp_processor.h>
#include <stdint.h>
#include <stdio.h>
#include <stdlib.h>
#include <time.h>

/* A slice is a pointer and a length. */
extern uint32_t probes_crc32c(const unsigned char *bytes, size_t length);
extern uint32_t probes_packet_word(const unsigned char *bytes, size_t length);

static uint32_t table[256];

static void fill_table(void)
{
    for (uint32_t byte = 0; byte < 256; byte++) {
        uint32_t reg = byte;
        for (int bit = 0; bit < 8; bit++)
            reg = reg & 1 ? reg >> 1 ^ 0x82F63B78 : reg >> 1;
        table[byte] = reg;
    }
}

__attribute__((noinline)) static uint32_t byte_by_byte(const unsigned char *bytes, size_t length)
{
    uint32_t reg = UINT32_MAX;
    for (size_t i = 0; i < length; i++)
        reg = table[(reg ^ bytes[i]) & 0xFF] ^ reg >> 8;
    return ~reg;
}

static const struct {
    const char *name;
    uint32_t (*call)(const unsigned char *bytes, size_t length);
} calls[] = {
    {"byte by byte, in C", byte_by_byte},
    {"`crc32c`", probes_crc32c},
    {"`packet_word`", probes_packet_word},
    {"`dcsctp_processor_word`", dcsctp_processor_word},
};
enum { CALLS = sizeof calls / sizeof calls[0] };

static const size_t lengths[] = {16, 64, 100, 576, 1200, 65535};

static unsigned char bytes[1 << 16];

static double seconds(void)
{
    struct timespec now;
    clock_gettime(CLOCK_MONOTONIC, &now);
    return now.tv_sec + now.tv_nsec * 1e-9;
}

/* Bytes a second. */
static double rate(int which, size_t length, double least)
{
    static volatile uint32_t sink;
    double begin = seconds(), took;
    unsigned long done = 0;
    size_t times = 1 + 20000 / length;
    do {
        for (size_t i = 0; i < times; i++)
            sink ^= calls[which].call(bytes, length);
        done += times;
        took = seconds() - begin;
    } while (took < least);
    return done * (double)length / took;
}

int main(int count, char **words)
{
    if (count != 3) {
        fprintf(stderr, "usage: crc ROUNDS MILLIS\n");
        return 2;
    }
    int rounds = atoi(words[1]);
    double least = atoi(words[2]) / 1000.0;
    fill_table();
    srand(1);
    for (size_t i = 0; i < sizeof bytes; i++)
        bytes[i] = rand() >> 7;
    for (size_t length = 0; length <= 4096; length++)
        if (byte_by_byte(bytes, length) != probes_crc32c(bytes, length)) {
            fprintf(stderr, "crc: they differ at %zu bytes\n", length);
            return 1;
        }

    printf("| bytes |");
    for (int which = 0; which < CALLS; which++)
        printf(" %s |", calls[which].name);
    printf("\n| --: |");
    for (int which = 0; which < CALLS; which++)
        printf(" --: |");
    printf("\n");
    for (size_t row = 0; row < sizeof lengths / sizeof lengths[0]; row++) {
        double best[CALLS] = {0};
        for (int round = 0; round < rounds; round++)
            for (int which = 0; which < CALLS; which++) {
                double one = rate(which, lengths[row], least);
                if (one > best[which])
                    best[which] = one;
            }
        printf("| %zu |", lengths[row]);
        for (int which = 0; which < CALLS; which++)
            printf(" %.2f |", best[which] / 1e9);
        printf("\n");
    }
    return 0;
}
