/* SPDX-License-Identifier: Apache-2.0 */
/* The rules that packets break: the rows of examples/rules.txt, which are the input, as a C program asks; and packets that end
   early. What a row's packets say of their association is kept as a socket keeps it. */
#include <ctype.h>
#include <dcsctp.h>
#include <stdint.h>
#include <stdio.h>
#include <stdlib.h>
#include <string.h>

static unsigned passed, failed;

enum { RULES = 18, ROOM = 4096 };

static void check_that(bool holds, const char *what, unsigned line)
{
    if (holds) {
        passed++;
    } else {
        failed++;
        printf("examples/rules.txt:%u: %s\n", line, what);
    }
}

/* An association of a row: what was sent, and what each end announced, by whether its port is the lower one. */
struct association {
    uint32_t ports;
    bool has_data, has_i_data, refuses_zero[2];
};

static bool announces_zero(const uint8_t *bytes, size_t length, const struct dcsctp_chunk *chunk)
{
    struct dcsctp_parameter parameter;
    for (size_t at = dcsctp_list_offset(chunk); dcsctp_parameter_at(bytes, length, chunk, at, &parameter); at = parameter.next)
        if (parameter.type == DCSCTP_PARAMETER_ZERO_CHECKSUM_ACCEPTABLE)
            return true;
    return false;
}

/* The rules that a packet breaks, which is of one of these associations. */
static uint32_t broken(const uint8_t *bytes, size_t length, struct association *associations)
{
    struct dcsctp_header header;
    struct dcsctp_chunk chunk;
    if (!dcsctp_header(bytes, length, &header))
        return dcsctp_broken_rules(bytes, length, &(struct dcsctp_known){0});
    bool from_lower = header.source_port < header.destination_port;
    uint32_t ports = from_lower ? (uint32_t)header.source_port << 16 | header.destination_port
                                : (uint32_t)header.destination_port << 16 | header.source_port;
    struct association *it = associations;
    while (it->ports && it->ports != ports)
        it++;
    it->ports = ports;
    for (size_t at = DCSCTP_FIRST_CHUNK; dcsctp_chunk_at(bytes, length, at, &chunk); at = chunk.next) {
        it->has_data |= chunk.type == DCSCTP_CHUNK_DATA;
        it->has_i_data |= chunk.type == DCSCTP_CHUNK_I_DATA;
        if (chunk.type == DCSCTP_CHUNK_INIT || chunk.type == DCSCTP_CHUNK_INIT_ACK)
            it->refuses_zero[from_lower] = !announces_zero(bytes, length, &chunk);
    }
    const struct dcsctp_known known = {it->refuses_zero[!from_lower], it->has_data, it->has_i_data};
    return dcsctp_broken_rules(bytes, length, &known);
}

/* Each front of a packet, in a block of its own size. Without a chunk only two rules can be broken, which ask for none. */
static void ends_early(const uint8_t *bytes, size_t length, unsigned line)
{
    for (size_t size = 0; size <= length; size++) {
        uint8_t *front = malloc(size);
        if (size)
            memcpy(front, bytes, size);
        uint32_t rules = dcsctp_broken_rules(front, size, &(struct dcsctp_known){true, true, true});
        free(front);
        check_that(rules < (uint32_t)1 << RULES, "a bit of no rule", line);
        check_that(size >= 16 || (rules & ~(uint32_t)(DCSCTP_RULE_PORT_ZERO | DCSCTP_RULE_ZERO_CHECKSUM)) == 0, "a rule without a chunk", line);
        check_that(size >= 2 || rules == 0, "a rule of what isn't there", line);
    }
}

static bool is_named(const char *names, const char *name)
{
    size_t size = strlen(name);
    for (const char *at = names; (at = strstr(at, name)); at += size)
        if ((at == names || at[-1] == ' ') && !isgraph((unsigned char)at[size]))
            return true;
    return false;
}

static void row(char *packets, const char *names, unsigned line)
{
    struct association associations[8] = {{0}};
    uint8_t bytes[ROOM];
    uint32_t rules = 0;
    for (char *packet = strtok(packets, "/"); packet; packet = strtok(NULL, "/")) {
        size_t length = 0;
        unsigned byte;
        int read;
        for (; sscanf(packet, " %2x%n", &byte, &read) == 1; packet += read)
            bytes[length++] = (uint8_t)byte;
        rules |= broken(bytes, length, associations);
        ends_early(bytes, length, line);
    }
    for (unsigned i = 0; i < RULES; i++) {
        const char *name = dcsctp_rule_name((uint32_t)1 << i);
        check_that((rules >> i & 1) == is_named(names, name), name, line);
    }
}

int main(void)
{
    static char text[4 * ROOM];
    for (unsigned line = 1; fgets(text, sizeof text, stdin); line++) {
        char *equals = strstr(text, " = ");
        if (text[0] == '#' || !equals)
            continue;
        *equals = 0;
        row(text, equals + 3, line);
    }
    check_that(dcsctp_broken_rules(NULL, 0, &(struct dcsctp_known){true, true, true}) == 0, "no bytes", 0);
    check_that(!strcmp(dcsctp_rule_name(0), "unknown") && !strcmp(dcsctp_rule_text(3), "unknown"), "what isn't one rule", 0);
    printf("rules: %u passed, %u failed\n", passed, failed);
    return failed || passed < 1000;
}
