/* SPDX-License-Identifier: Apache-2.0 */
/* Whether calls of each kind leave x18 of arm64 as it is, which Android, Fuchsia and shadow call stacks reserve: a mark is in it
   before each call. Build it with -ffixed-x18. Prints what isn't kept; status 0 if all is. */
#include <dcsctp.h>
#include <stdint.h>
#include <stdio.h>

#define MARK 0x5ca1ab1e5ca1ab1eUL

static int tried, failed;

static void mark(void) { __asm__ volatile("mov x18, %0" : : "r"(MARK) : "memory"); }

static void look(const char *name) {
    unsigned long found;
    __asm__ volatile("mov %0, x18" : "=r"(found) : : "memory");
    tried++;
    if (found != MARK) {
        printf("x18: %s changes it\n", name);
        failed = 1;
    }
}

#define TRY(name, call) (mark(), (void)(call), look(name))

int main(void) {
    static uint8_t packet[1300], text[60000];
    static struct dcsctp_gap_ack_block blocks[40];
    const struct dcsctp_policy policy = {0};
    const uint32_t duplicates[] = {1, 2};
    struct dcsctp_data data = {0};
    struct dcsctp_chunk chunk;
    size_t size = 0, needed = 0, offset = 0;
    for (size_t i = 0; i < 40; i++)
        blocks[i] = (struct dcsctp_gap_ack_block){(uint16_t)(7 * (41 - i)), (uint16_t)(7 * (41 - i) + i % 9)};
    TRY("begin", dcsctp_begin(packet, sizeof packet, &size, 1, 2, 3));
    TRY("add_sack", dcsctp_add_sack(packet, sizeof packet, &size, 1, 2, blocks, 40, duplicates, 2));
    TRY("add_data", dcsctp_add_data(packet, sizeof packet, &size, &data, text, 5));
    const size_t start = size;
    TRY("add_chunk", dcsctp_add_chunk(packet, sizeof packet, &size, 9, 0, 0, 0));
    TRY("add_parameter", dcsctp_add_parameter(packet, sizeof packet, &size, start, 13, (const uint8_t *)"abc", 3));
    TRY("add_abort", dcsctp_add_abort(packet, sizeof packet, &size, 0, (const uint8_t *)"why?", 4));
    TRY("seal", dcsctp_seal(packet, size));
    TRY("word", dcsctp_word(packet, size));
    const uint32_t word = dcsctp_word(packet, size);
    TRY("check", dcsctp_check(packet, size, word, &policy));
    TRY("first_fault", dcsctp_first_fault(packet, size, word, &policy, &offset));
    TRY("report", dcsctp_report(packet, size, word, &policy, text, sizeof text, &needed));
    TRY("print", dcsctp_print(packet, size, word, &policy, text, sizeof text, &needed));
    TRY("canonical", dcsctp_canonical(packet, size, word, &policy, text, sizeof text, &needed));
    TRY("clean_blocks", dcsctp_clean_blocks(blocks, 40));
    for (size_t at = 12; dcsctp_chunk_at(packet, size, at, &chunk); at = chunk.next) {
        TRY("data", dcsctp_data(packet, size, &chunk, &data));
        TRY("validate_sack", dcsctp_validate_sack(packet, size, &chunk));
    }
    if (!failed)
        printf("x18: %d calls keep it\n", tried);
    return failed;
}
