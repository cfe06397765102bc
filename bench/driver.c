/* SPDX-License-Identifier: Apache-2.0 */
/* Times the calls of crates/test_callers over traffic files, and counts their requests for memory. Those of the C library can
   be counted alone.

   usage: driver ROUNDS MILLIS FILE..
          driver --count CALL FILE

   A file holds one packet a line, in hexadecimal. In each round every call goes over the whole file again and again
   for so many milliseconds, one call after the other, so that a slow spell of the machine hits them all; the best
   round counts. Prints a line a file and call, tab separated, after a line of names.

   With --count one call goes over the file twice: once to warm up, and once in counted_round, for a tool that counts
   the instructions of that function. Prints the number of packets. */
#define _GNU_SOURCE
#include <stdbool.h>
#include <stdint.h>
#include <stdio.h>
#include <stdlib.h>
#include <string.h>
#include <time.h>

#include "dcsctp.h"

/* A slice is a pointer and a length; the allocator takes no place. */
extern size_t probes_check(const unsigned char *bytes, size_t length);
extern uint64_t probes_walk(const unsigned char *bytes, size_t length);
extern size_t probes_read(const unsigned char *bytes, size_t length);
extern size_t probes_read_and_write(const unsigned char *bytes, size_t length);
extern size_t probes_write_in_place(const unsigned char *bytes, size_t length, unsigned char *output, size_t room);
extern size_t probes_write_over(const unsigned char *bytes, size_t length, unsigned char *output, size_t room);
extern size_t probes_build(const unsigned char *bytes, size_t length);
extern size_t probes_refill(const unsigned char *block, size_t length, const size_t *sizes, size_t count);
extern size_t probes_clean(const unsigned char *bytes, size_t length);

static unsigned char output[1 << 16];

static size_t write_over(const unsigned char *bytes, size_t length)
{
    return probes_write_over(bytes, length, output, sizeof output);
}

static size_t write_in_place(const unsigned char *bytes, size_t length)
{
    return probes_write_in_place(bytes, length, output, sizeof output);
}

/* A check whose policy the compiler doesn't know. */
static size_t check(const unsigned char *bytes, size_t length, bool strict)
{
    const struct dcsctp_policy policy = {.any_checksum = true, .strict_padding = strict};

    return dcsctp_check(bytes, length, 0, &policy) == DCSCTP_OK;
}

static size_t check_lenient(const unsigned char *bytes, size_t length)
{
    return check(bytes, length, false);
}

static size_t check_strict(const unsigned char *bytes, size_t length)
{
    return check(bytes, length, true);
}

/* Those that are timed, and then those that are only counted. One without a call of its own takes all packets at once. */
typedef size_t one_packet(const unsigned char *bytes, size_t length);
static const struct {
    const char *name;
    one_packet *call;
} calls[] = {
    {"check", probes_check},
    {"borrowed", probes_walk},
    {"read", probes_read},
    {"refill", NULL},
    {"read_and_write", probes_read_and_write},
    {"write_over", write_over},
    {"write_in_place", write_in_place},
    {"build", probes_build},
    {"clean", probes_clean},
    {"check_lenient", check_lenient},
    {"check_strict", check_strict},
};
enum { CALLS = sizeof calls / sizeof calls[0], TIMED = CALLS - 2 };

/* The linker sends the library's requests here (--wrap). */
static unsigned long requests;
void *__real_malloc(size_t size);
void *__real_realloc(void *block, size_t size);

void *__wrap_malloc(size_t size)
{
    requests++;
    return __real_malloc(size);
}

void *__wrap_realloc(void *block, size_t size)
{
    requests++;
    return __real_realloc(block, size);
}

static void fail(const char *what, const char *file)
{
    fprintf(stderr, "driver: %s: %s\n", file, what);
    exit(1);
}

static double seconds(void)
{
    struct timespec now;
    clock_gettime(CLOCK_MONOTONIC, &now);
    return (double)now.tv_sec + (double)now.tv_nsec * 1e-9;
}

struct packet {
    unsigned char *bytes;
    size_t length;
};

/* Each has its bytes in the block, where they lie one after the other. */
struct packets {
    struct packet *list;
    size_t count, bytes;
    unsigned char *block;
    size_t *sizes;
};

static int digit(char c)
{
    return c >= '0' && c <= '9' ? c - '0' : c >= 'a' && c <= 'f' ? c - 'a' + 10 : -1;
}

/* Not from the heap: what is freed there before the calls is a hole, and each request that it serves is cut off it
   and joined to it again, which takes longer than one from the heap's end. */
static char line[2 * 65536 + 2], stream_buffer[1 << 16];

static struct packets load(const char *file)
{
    struct packets all = {0};
    size_t room = 0;
    FILE *stream = fopen(file, "r");
    if (!stream || setvbuf(stream, stream_buffer, _IOFBF, sizeof stream_buffer))
        fail("cannot be read", file);
    while (fgets(line, sizeof line, stream)) {
        size_t digits = strcspn(line, "\n");
        if (!line[digits] && !feof(stream))
            fail("a line is longer than a packet can be", file);
        struct packet packet = {__real_malloc(digits / 2 + 1), digits / 2};
        if (digits % 2 || !packet.bytes)
            fail("a line has half a byte, or memory ran out", file);
        for (size_t i = 0; i < packet.length; i++) {
            int high = digit(line[2 * i]), low = digit(line[2 * i + 1]);
            if (high < 0 || low < 0)
                fail("a line is not hexadecimal", file);
            packet.bytes[i] = (unsigned char)(high << 4 | low);
        }
        if (all.count == room) {
            room = room ? 2 * room : 64;
            all.list = __real_realloc(all.list, room * sizeof *all.list);
            if (!all.list)
                fail("memory ran out", file);
        }
        all.list[all.count++] = packet;
        all.bytes += packet.length;
    }
    fclose(stream);
    if (!all.count)
        fail("holds no packet", file);
    all.block = __real_malloc(all.bytes);
    all.sizes = __real_malloc(all.count * sizeof *all.sizes);
    if (!all.block || !all.sizes)
        fail("memory ran out", file);
    for (size_t i = 0, at = 0; i < all.count; at += all.sizes[i++]) {
        all.sizes[i] = all.list[i].length;
        memcpy(all.block + at, all.list[i].bytes, all.sizes[i]);
    }
    return all;
}

static void drop(struct packets *all)
{
    for (size_t i = 0; i < all->count; i++)
        free(all->list[i].bytes);
    free(all->list);
    free(all->block);
    free(all->sizes);
}

static volatile size_t sink;

static void once(one_packet *call, const struct packets *all)
{
    size_t sum = 0;
    if (call)
        for (size_t i = 0; i < all->count; i++)
            sum += call(all->list[i].bytes, all->list[i].length);
    else
        sum = probes_refill(all->block, all->bytes, all->sizes, all->count);
    sink += sum;
}

/* Its own function, whose name bench/instructions.sh gives to callgrind. */
__attribute__((noinline, noclone)) void counted_round(one_packet *call, const struct packets *all)
{
    once(call, all);
}

static int count_call(const char *name, const char *file)
{
    int k = 0;
    while (k < CALLS && strcmp(calls[k].name, name))
        k++;
    if (k == CALLS)
        fail("no call has this name", name);
    struct packets all = load(file);
    once(calls[k].call, &all);
    counted_round(calls[k].call, &all);
    printf("%zu\n", all.count);
    return 0;
}

int main(int count, char **words)
{
    /* The C library then keeps large blocks, and doesn't ask the system for each of them. */
    free(__real_malloc(16 << 20));
    if (count == 4 && !strcmp(words[1], "--count"))
        return count_call(words[2], words[3]);
    if (count < 4 || words[1][0] == '-') {
        fputs("usage: driver ROUNDS MILLIS FILE..\n       driver --count CALL FILE\n", stderr);
        return 2;
    }
    int rounds = atoi(words[1]);
    double least = atoi(words[2]) * 1e-3;
    printf("file\tcall\tpackets\tbytes\tzero\tgreatest\trequests\n");
    for (int word = 3; word < count; word++) {
        struct packets all = load(words[word]);
        double best[TIMED], asked[TIMED];
        size_t zero[TIMED];
        for (int k = 0; k < TIMED; k++) {
            unsigned long before = requests;
            zero[k] = 0;
            if (!calls[k].call)
                zero[k] = all.count - probes_refill(all.block, all.bytes, all.sizes, all.count);
            for (size_t i = 0; i < all.count && calls[k].call; i++)
                zero[k] += calls[k].call(all.list[i].bytes, all.list[i].length) == 0;
            asked[k] = (double)(requests - before) / (double)all.count;
            best[k] = 1e9;
        }
        for (int round = 0; round < rounds; round++)
            for (int k = 0; k < TIMED; k++) {
                double start = seconds(), took;
                size_t done = 0;
                do {
                    once(calls[k].call, &all);
                    done += all.count;
                    took = seconds() - start;
                } while (took < least);
                if (took / (double)done < best[k])
                    best[k] = took / (double)done;
            }
        const char *slash = strrchr(words[word], '/'), *name = slash ? slash + 1 : words[word];
        int size = (int)strcspn(name, ".");
        for (int k = 0; k < TIMED; k++)
            printf("%.*s\t%s\t%zu\t%.1f\t%zu\t%.0f\t%.2f\n", size, name, calls[k].name, all.count,
                   (double)all.bytes / (double)all.count, zero[k], 1 / best[k], asked[k]);
        fflush(stdout);
        drop(&all);
    }
    return 0;
}
