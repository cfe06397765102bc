/* SPDX-License-Identifier: Apache-2.0 */
/* Gives the packets of bindings/rust/examples/responder.txt to examples/c/responder.c: its answers have to be those of the rows,
   which the responders in other languages give too.

   usage: rows FILE */
#include "../../examples/c/responder.c"
#include <stdio.h>
#include <stdlib.h>

enum { MOST = 65536 };

static uint8_t pair_key[MOST], listed[MOST], bytes[MOST], wanted[MOST], given[1400];

/* Reads the next word of a row as bytes in hexadecimal; "-" is none. Returns their number. */
static size_t read_bytes(uint8_t *to)
{
    const char *word = strtok(NULL, " \n");
    unsigned byte;
    size_t size = 0;
    for (; word && sscanf(word, "%2x", &byte) == 1; word += 2)
        to[size++] = (uint8_t)byte;
    return size;
}

static uint32_t read_number(int base)
{
    const char *word = strtok(NULL, " \n");
    return word ? (uint32_t)strtoul(word, NULL, base) : 0;
}

static void take_nothing(void *user, const struct dcsctp_data *data, const uint8_t *payload)
{
    (void)user, (void)data, (void)payload;
}

int main(int count, char **words)
{
    static char row[4 * MOST];
    static struct responder responder, saved;
    FILE *file = count == 2 ? fopen(words[1], "r") : NULL;
    unsigned line = 0, packets = 0, wrong = 0;
    if (!file)
        return 2;
    while (fgets(row, sizeof row, file)) {
        const char *word = strtok(row, " \n");
        line++;
        if (!word || word[0] == '#') {
            continue;
        } else if (!strcmp(word, "new")) {
            responder = (struct responder){.own = {.a_rwnd = 1 << 20, .outbound_streams = 1, .inbound_streams = 64},
                                           .take_data = take_nothing, .pair_key_identifier = (uint16_t)read_number(10)};
            responder.pair_key = (struct bytes){pair_key, read_bytes(pair_key)};
            responder.listed = (struct bytes){listed, read_bytes(listed)};
            read_bytes(responder.key);
        } else if (!strcmp(word, "next")) {
            responder.own.initiate_tag = read_number(16);
            responder.own.initial_tsn = read_number(16);
            read_bytes(responder.random);
            read_bytes(responder.tie_tags);
        } else if (!strcmp(word, "save")) {
            saved = responder;
        } else if (!strcmp(word, "restore")) {
            responder = saved;
        } else if (!strcmp(word, "forget")) {
            responder.state = CLOSED;
        } else {
            const uint64_t now = strtoull(word, NULL, 10);
            const size_t length = read_bytes(bytes), wanted_size = read_bytes(wanted);
            const size_t size = responder_receive(&responder, now, bytes, length, given, sizeof given);
            packets++;
            if (size != wanted_size || memcmp(given, wanted, size) != 0) {
                wrong++;
                printf("%s:%u: another answer\n", words[1], line);
            }
        }
    }
    printf("rows: %u packets, %u wrong\n", packets, wrong);
    return wrong > 0 || packets < 200;
}
