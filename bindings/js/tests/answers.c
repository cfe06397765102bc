/* SPDX-License-Identifier: Apache-2.0 */
/* Reads packets, one a line, in hexadecimal, and prints all that the functions of dcsctp.h that read say of each: what
   answers.mjs prints by WebAssembly. */
#include <dcsctp.h>
#include <stdio.h>
#include <string.h>

static void print_hex(const char *before, const uint8_t *bytes, size_t size)
{
    fputs(before, stdout);
    for (size_t i = 0; i < size; i++)
        printf("%02x", bytes[i]);
    putchar('\n');
}

static void print_packet(const uint8_t *bytes, size_t length)
{
    static uint8_t output[1 << 24];
    static const struct dcsctp_policy policies[] = {
        {0}, {.zero_checksum = true, .strict_padding = true}, {.any_checksum = true}};
    struct dcsctp_header header;
    uint32_t word = dcsctp_word(bytes, length);
    printf("packet %zu %u\n", length, length < 12 ? 0 : word);
    for (size_t i = 0; i < 3; i++) {
        size_t offset = 0, size = 0;
        uint32_t code = dcsctp_first_fault(bytes, length, word, &policies[i], &offset);
        printf("fault %u %zu\n", code, offset);
        code = dcsctp_canonical(bytes, length, word, &policies[i], output, sizeof output, &size);
        printf("canonical %u", code);
        print_hex(" ", output, code ? 0 : size);
        code = dcsctp_print(bytes, length, word, &policies[i], output, sizeof output, &size);
        printf("text %u\n%.*s\n", code, code ? 0 : (int)size, (const char *)output);
        code = dcsctp_report(bytes, length, word, &policies[i], output, sizeof output, &size);
        printf("report %u\n%.*s\n", code, code ? 0 : (int)size, (const char *)output);
    }
    if (dcsctp_header(bytes, length, &header))
        printf("header %u %u %u %u\n", header.source_port, header.destination_port, header.verification_tag, header.checksum);
}

int main(void)
{
    static char line[200000];
    static uint8_t bytes[sizeof line / 2];
    while (fgets(line, sizeof line, stdin)) {
        size_t size = strcspn(line, "\n");
        for (size_t i = 0; i + 1 < size; i += 2)
            sscanf(line + i, "%2hhx", &bytes[i / 2]);
        print_packet(bytes, size / 2);
    }
    return 0;
}
