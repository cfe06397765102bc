/* SPDX-License-Identifier: Apache-2.0 */
/* Compares dcsctp_processor.h with the library: the word of random bytes of every size up to some blocks of three lanes, at each
   address modulo 8, and of sizes at random, and what each seals; and makes the constants of the lanes anew.

   usage: processor [--times]

   With --times it prints instead what a word takes, in gigabytes a second (10^9 bytes) at some sizes: the best of 60
   rounds in turns. Exits 1 at the first difference. */
#define _POSIX_C_SOURCE 199309L
#include <dcsctp_processor.h>

#include <stdio.h>
#include <stdlib.h>
#include <string.h>
#include <time.h>

/* A block of three lanes has at most 1,536 bytes. */
enum { MOST = 65535, EACH = 12 + 3 * 1536 + 100 };

static uint8_t bytes[MOST + 8];

/* Numbers that look random: xorshift64*. */
static uint64_t state = 88172645463325252u;
static uint32_t chance(void)
{
    state ^= state >> 12;
    state ^= state << 25;
    state ^= state >> 27;
    return (uint32_t)(state * 0x2545f4914f6cdd1du >> 32);
}

static void fill(size_t length)
{
    for (size_t i = 0; i < length; i++)
        bytes[i] = (uint8_t)chance();
}

static double seconds(void)
{
    struct timespec now;
    clock_gettime(CLOCK_MONOTONIC, &now);
    return (double)now.tv_sec + (double)now.tv_nsec * 1e-9;
}

volatile uint32_t sink;

/* Gigabytes a second. */
static double rate(uint32_t (*call)(const uint8_t *, size_t), size_t length)
{
    size_t times = 1 + 200000 / length;
    double begin = seconds();
    for (size_t i = 0; i < times; i++)
        sink ^= call(bytes, length);
    return (double)(times * length) / (seconds() - begin) / 1e9;
}

static void print_times(void)
{
    static const size_t lengths[] = {28, 64, 100, 1200, 65535};
    fill(MOST);
    printf("| bytes | dcsctp_word | dcsctp_processor_word |\n| --: | --: | --: |\n");
    for (size_t row = 0; row < sizeof lengths / sizeof lengths[0]; row++) {
        double proved = 0, processor = 0;
        for (int round = 0; round < 60; round++) {
            double a = rate(dcsctp_word, lengths[row]), b = rate(dcsctp_processor_word, lengths[row]);
            proved = a > proved ? a : proved;
            processor = b > processor ? b : processor;
        }
        printf("| %zu | %.2f | %.2f |\n", lengths[row], proved, processor);
    }
}

#ifdef DCSCTP_PROCESSOR_TIMES
/* Whether each constant is x^(64 n - 33), made bit by bit: x^31, and 64 places on for each number more. */
static bool constants_are_right(void)
{
    uint32_t power = 1;
    for (size_t n = 1; n <= 2 * DCSCTP_PROCESSOR_LANE; n++) {
        if (dcsctp_processor_over[n] != power)
            return false;
        for (int place = 0; place < 64; place++)
            power = power >> 1 ^ (power & 1 ? 0x82f63b78 : 0);
    }
    return sizeof dcsctp_processor_over / 4 == 2 * DCSCTP_PROCESSOR_LANE + 1;
}
#endif

/* Whether both do the same to random bytes from `at` on, in memory that ends with them. */
static bool agree(size_t at, size_t length)
{
    const size_t size = at + length;
    uint8_t *one = malloc(size + !size), *other = malloc(size + !size);
    bool same;
    fill(size);
    memcpy(one, bytes, size);
    memcpy(other, bytes, size);
    same = length < 12 || dcsctp_processor_word(one + at, length) == dcsctp_word(one + at, length);
    same = same && dcsctp_processor_seal(one + at, length) == dcsctp_seal(other + at, length) && memcmp(one, other, size) == 0;
    free(one);
    free(other);
    if (!same)
        fprintf(stderr, "processor: they differ at %zu bytes from %zu on\n", length, at);
    return same;
}

int main(int count, char **words)
{
    if (count == 2 && strcmp(words[1], "--times") == 0) {
        print_times();
        return 0;
    }
#ifdef DCSCTP_PROCESSOR_TIMES
    if (!constants_are_right()) {
        fprintf(stderr, "processor: a constant isn't what it has to be\n");
        return 1;
    }
#endif
    for (size_t length = 0; length <= EACH; length++)
        for (size_t at = 0; at < 8; at++)
            if (!agree(at, length))
                return 1;
    for (int round = 0; round < 1000; round++)
        if (!agree(chance() % 8, chance() % (MOST + 1)))
            return 1;
#if defined(DCSCTP_PROCESSOR_TIMES)
    printf("the processor's CRC32c: %s\n", DCSCTP_PROCESSOR_HAS ? "used, in three lanes" : "not there");
#elif defined(DCSCTP_PROCESSOR_TARGET)
    printf("the processor's CRC32c: %s\n", DCSCTP_PROCESSOR_HAS ? "used, in one lane" : "not there");
#else
    printf("the processor's CRC32c: not compiled\n");
#endif
    return 0;
}
