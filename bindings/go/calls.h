// SPDX-License-Identifier: Apache-2.0
/* The calls of dcsctp.h that take or write structs, with these as values: what cgo passes the address of, Go has to keep on its heap. */
#ifndef CALLS_H
#define CALLS_H

#include "dcsctp.h"
#include "dcsctp_processor.h"
#ifdef __linux__
#include <sys/auxv.h>
#endif

/* A code, and the offset or the size that the call wrote. */
struct go_result {
    uint32_t code;
    size_t size;
};

/* Whether the processor has an instruction for CRC32c, by which Go's hash/crc32 goes too. */
static inline bool go_has_instruction(void)
{
#ifdef __x86_64__
    return __builtin_cpu_supports("sse4.2");
#elif defined(__linux__)
    return getauxval(AT_HWCAP) >> 7 & 1; /* HWCAP_CRC32 of arm64 */
#elif defined(DCSCTP_PROCESSOR_TARGET)
    return true; /* (the compiler is told so) */
#else
    return false;
#endif
}

/* Whether the word of a packet can be computed here, by the processor's instruction: dcsctp_processor.h says when, and that it isn't
   proved. */
static inline bool go_has_word(void)
{
#ifdef DCSCTP_PROCESSOR_TARGET
    return DCSCTP_PROCESSOR_HAS;
#else
    return false;
#endif
}

/* A packet, the policy, and the word that its field has to be, or what computes that: the library, or the processor's instruction, for
   at least 12 bytes, and where go_has_word. */
enum { GO_WORD_GIVEN, GO_WORD_PROVED, GO_WORD_PROCESSOR };
struct go_packet {
    const uint8_t *bytes;
    size_t length;
    uint32_t word;
    uint8_t word_by;
    struct dcsctp_policy policy;
};

static inline uint32_t go_word(const struct go_packet *packet)
{
    if (packet->word_by == GO_WORD_PROVED)
        return dcsctp_word(packet->bytes, packet->length);
#ifdef DCSCTP_PROCESSOR_TARGET
    if (packet->word_by == GO_WORD_PROCESSOR)
        return dcsctp_processor_word_12(packet->bytes, packet->length);
#endif
    return packet->word;
}

static inline uint32_t go_first_fault_at(const struct go_packet *packet, size_t *offset)
{
    return dcsctp_first_fault(packet->bytes, packet->length, go_word(packet), &packet->policy, offset);
}

static inline struct go_result go_first_fault(struct go_packet packet)
{
    struct go_result result = {0, 0};
    result.code = go_first_fault_at(&packet, &result.size);
    return result;
}

/* What is written of a packet: by which function, and how many bytes. */
enum { GO_PRINT, GO_REPORT, GO_CANONICAL };

static inline struct go_result go_write(int what, struct go_packet packet, uint8_t *to, size_t room)
{
    struct go_result result = {0, 0};
    const uint32_t word = go_word(&packet);
    result.code = (what == GO_PRINT    ? dcsctp_print
                   : what == GO_REPORT ? dcsctp_report
                                       : dcsctp_canonical)(packet.bytes, packet.length, word, &packet.policy, to, room, &result.size);
    return result;
}

/* Some packets; and which of the first ones are packets: a bit for each. */
enum { GO_BATCH = 16 };
struct go_batch {
    struct go_packet packets[GO_BATCH];
};

static inline uint32_t go_check_batch(struct go_batch batch, size_t count)
{
    uint32_t accepted = 0;
    for (size_t i = 0; i < count; i++)
        accepted |= (uint32_t)(go_first_fault(batch.packets[i]).code == DCSCTP_OK) << i;
    return accepted;
}

/* What the rest of the registry has, if it is there; of a chunk, a parameter or an error cause, by its level. */
struct go_registered {
    bool is_there;
    struct dcsctp_registered it;
};

static inline struct go_registered go_registered(int level, uint16_t type, uint8_t flags, const uint8_t *value, size_t size)
{
    struct go_registered result = {0};
    const struct dcsctp_chunk chunk = {(uint8_t)type, flags, 0, size, size};
    const struct dcsctp_parameter item = {type, 0, size, size};
    result.is_there = level == 0   ? dcsctp_registered_chunk(value, size, &chunk, &result.it)
                      : level == 1 ? dcsctp_registered_parameter(value, size, &item, &result.it)
                                   : dcsctp_registered_cause(value, size, &item, &result.it);
    return result;
}

static inline uint32_t go_add_registered(int level, uint8_t *packet, size_t room, size_t *size, size_t start, uint16_t type,
                                         const struct dcsctp_registered *it, const uint8_t *bytes, size_t length)
{
    return level == 0   ? dcsctp_add_registered_chunk(packet, room, size, (uint8_t)type, it, bytes, length)
           : level == 1 ? dcsctp_add_registered_parameter(packet, room, size, start, type, it, bytes, length)
                        : dcsctp_add_registered_cause(packet, room, size, start, type, it, bytes, length);
}

static inline bool go_validate_sack(const uint8_t *value, size_t size)
{
    const struct dcsctp_chunk chunk = {DCSCTP_CHUNK_SACK, 0, 0, size, size};
    return dcsctp_validate_sack(value, size, &chunk);
}

static inline uint32_t go_verify_tag(const uint8_t *bytes, size_t length, struct dcsctp_association it)
{
    return dcsctp_verify_tag(bytes, length, &it);
}

static inline uint32_t go_broken_rules(const uint8_t *bytes, size_t length, struct dcsctp_known it)
{
    return dcsctp_broken_rules(bytes, length, &it);
}

/* Copies numbers of two bytes, each with its bytes in the other order. */
static inline uint32_t go_swap_at(uint8_t *to, const uint8_t *from, const size_t *size)
{
    const struct dcsctp_parameter all = {0, 0, *size, *size};
    return (uint32_t)dcsctp_short_numbers(from, *size, &all, (uint16_t *)(void *)to, *size / 2);
}

static inline void go_swap(uint8_t *to, const uint8_t *from, size_t size) { go_swap_at(to, from, &size); }

static inline uint32_t go_seal_at(uint8_t *packet, const size_t *size) { return dcsctp_seal(packet, *size); }

static inline uint32_t go_word_at(const uint8_t *packet, const size_t *size) { return dcsctp_word(packet, *size); }

/* Whether C may be called directly. A sanitizer's own functions take more stack than there is. (Go has tags for two, unless they are
   asked for by CGO_CFLAGS.) */
#ifndef __has_feature
#define __has_feature(name) 0
#endif
enum {
#if defined(__SANITIZE_THREAD__) || defined(__SANITIZE_ADDRESS__)
    GO_DIRECT = 0
#elif __has_feature(thread_sanitizer) || __has_feature(address_sanitizer) || __has_feature(memory_sanitizer)
    GO_DIRECT = 0
#else
    GO_DIRECT = 1
#endif
};

/* What Go calls directly, on the goroutine's stack: dist/stack.py looks at each. */
struct go_functions {
    void *first_fault, *seal, *word, *short_numbers;
};

static inline struct go_functions go_functions(void)
{
    /* The first call of a function of libc looks for it: that is done here, not on a goroutine's stack. */
    const uint8_t value[5] = {0};
    uint8_t packet[DCSCTP_FIRST_CHUNK + 12];
    size_t size;
    dcsctp_begin(packet, sizeof packet, &size, 0, 0, 0);
    dcsctp_add_chunk(packet, sizeof packet, &size, 0, 0, value, sizeof value);
    return (struct go_functions){(void *)go_first_fault_at, (void *)go_seal_at, (void *)go_word_at, (void *)go_swap_at};
}

#endif
