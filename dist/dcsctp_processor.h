/* SPDX-License-Identifier: Apache-2.0 */
/* dcsctp_processor: the word of a packet by the processor's own instruction for CRC32c, where it has one.

   An option: dcsctp.h doesn't include this file, and the library doesn't call it. NOT PROVED. tests/c/processor.c compares it with
   the proved dcsctp_word and dcsctp_seal, on random packets of every size at every address. The packages for C++, Python and Go go by
   it where they are told to.

   With DCSCTP_PROCESSOR_CRC32C defined before this file is included, dcsctp_word and dcsctp_seal mean
   dcsctp_processor_word and dcsctp_processor_seal from there on; without it they stay the library's:

     #define DCSCTP_PROCESSOR_CRC32C
     #include <dcsctp_processor.h>

   On x86-64 SSE4.2 and PCLMULQDQ are looked for at run time, and without them dcsctp_word is called. On arm64 the instruction is
   used where the compiler may use it (-march=armv8-a+crc; on macOS always), and in three lanes where PMULL is too (+crc+crypto). It
   needs gcc or clang: otherwise, and on other processors, each function is the library's. */
#ifndef DCSCTP_PROCESSOR_H
#define DCSCTP_PROCESSOR_H

#include "dcsctp.h"

#include <string.h>

#if defined(__GNUC__) && defined(__x86_64__)
#include <nmmintrin.h>
#include <wmmintrin.h>
#define DCSCTP_PROCESSOR_TARGET __attribute__((target("sse4.2,pclmul")))
#define DCSCTP_PROCESSOR_HAS (__builtin_cpu_supports("sse4.2") && __builtin_cpu_supports("pclmul"))
#define DCSCTP_PROCESSOR_8(crc, number) _mm_crc32_u64((crc), (number))
#define DCSCTP_PROCESSOR_4(crc, number) _mm_crc32_u32((uint32_t)(crc), (number))
#define DCSCTP_PROCESSOR_1(crc, number) _mm_crc32_u8((uint32_t)(crc), (number))
#define DCSCTP_PROCESSOR_TIMES(one, other)                                                                             \
    ((uint64_t)_mm_cvtsi128_si64(_mm_clmulepi64_si128(_mm_cvtsi64_si128((int64_t)(one)), _mm_cvtsi64_si128((other)), 0)))
#elif defined(__GNUC__) && defined(__aarch64__) && defined(__ARM_FEATURE_CRC32) && !defined(__AARCH64EB__)
#include <arm_acle.h>
#define DCSCTP_PROCESSOR_TARGET
#define DCSCTP_PROCESSOR_HAS 1
#define DCSCTP_PROCESSOR_8(crc, number) __crc32cd((uint32_t)(crc), (number))
#define DCSCTP_PROCESSOR_4(crc, number) __crc32cw((uint32_t)(crc), (number))
#define DCSCTP_PROCESSOR_1(crc, number) __crc32cb((uint32_t)(crc), (number))
#ifdef __ARM_FEATURE_CRYPTO
#include <arm_neon.h>
#define DCSCTP_PROCESSOR_TIMES(one, other)                                                                             \
    vgetq_lane_u64(vreinterpretq_u64_p128(vmull_p64((poly64_t)(one), (poly64_t)(other))), 0)
#endif
#endif

#ifdef __cplusplus
extern "C" {
#endif

#ifdef DCSCTP_PROCESSOR_TARGET
static inline uint64_t dcsctp_processor_number(const uint8_t *bytes)
{
    uint64_t number;
    memcpy(&number, bytes, 8);
    return number;
}

#ifdef DCSCTP_PROCESSOR_TIMES
/* The most numbers of 8 bytes in a lane, and the fewest bytes that take less time in three lanes. */
#define DCSCTP_PROCESSOR_LANE 64
#define DCSCTP_PROCESSOR_LEAST 96

/* At n, what moves a CRC over n numbers of 8 bytes: x^(64 n - 33) modulo the polynomial of CRC32c, with x^0 in the highest bit, as the
   instruction has it. The product with a CRC, xored to the last of these numbers, does what the CRC before the first one does: the
   instruction multiplies by x^32, and x^1 is missing since a product of 63 bits lies one place too low. Each is the one before it
   times x^64, and the first one x^31: so tests/c/processor.c makes them. */
static const uint32_t dcsctp_processor_over[2 * DCSCTP_PROCESSOR_LANE + 1] = {
    0, 0x00000001, 0x493c7d27, 0xf20c0dfe, 0xba4fc28e, 0x3da6d0cb, 0xddc0152b, 0x1c291d04, 0x9e4addf8,
    0x740eef02, 0x39d3b296, 0x083a6eec, 0x0715ce53, 0xc49f4f67, 0x47db8317, 0x2ad91c30, 0x0d3b6092, 0x6992cea2,
    0xc96cfdc0, 0x7e908048, 0x878a92a7, 0x1b3d8f29, 0xdaece73e, 0xf1d0f55e, 0xab7aff2a, 0xa87ab8a8, 0x2162d385,
    0x8462d800, 0x83348832, 0x71d111a8, 0x299847d5, 0xffd852c6, 0xb9e02b86, 0xdcb17aa4, 0x18b33a4e, 0xf37c5aee,
    0xb6dd949b, 0x6051d5a2, 0x78d9ccb7, 0x18b0d4ff, 0xbac2fd7b, 0x21f3d99c, 0xa60ce07b, 0x8f158014, 0xce7f39f4,
    0xa00457f7, 0x61d82e56, 0x8d6d2c43, 0xd270f1a2, 0x00ac29cf, 0xc619809d, 0xe9adf796, 0x2b3cac5d, 0x96638b34,
    0x65863b64, 0xe0e9f351, 0x1b03397f, 0x9af01f2d, 0xebb883bd, 0x2cff42cf, 0xb3e32c28, 0x88f25a3a, 0x064f7f26,
    0x4e36f0b0, 0xdd7e3b0c, 0xbd6f81f8, 0xf285651c, 0x91c9bd4b, 0x10746f3c, 0x885f087b, 0xc7a68855, 0x4c144932,
    0x271d9844, 0x52148f02, 0x8e766a0c, 0xa3c6f37a, 0x93a5f730, 0xd7c0557f, 0x6cb08e5c, 0x63ded06a, 0x6b749fb2,
    0x4d56973c, 0x1393e203, 0x9669c9df, 0xcec3662e, 0xe417f38a, 0x96c515bb, 0x4b9e0f71, 0xe6fc4e6a, 0xd104b8fc,
    0x8227bb8a, 0x5b397730, 0xb0cd4768, 0xe78eb416, 0x39c7ff35, 0x61ff0e01, 0xd7a4825c, 0x8d96551c, 0x0ab3844b,
    0x0bf80dd2, 0x0167d312, 0x8821abed, 0xf6076544, 0x6a45d2b2, 0x26f6a60a, 0xd8d26619, 0xa741c1bf, 0xde87806c,
    0x98d8d9cb, 0x14338754, 0x49c3cc9c, 0x5bd2011f, 0x68bce87a, 0xdd07448e, 0x57a3d037, 0xdde8f5b9, 0x6956fc3b,
    0xa3e3e02c, 0x42d98888, 0xd73c7bea, 0x3771e98f, 0x80ff0093, 0xb42ae3d9, 0x8fe4c34d, 0x2178513a, 0xdf99fc11,
    0xe0ac139e, 0x6c23e841, 0x170076fa};
#endif

/* The word of a packet of at least 12 bytes. The field, bytes 8 to 11, counts as zeros. */
DCSCTP_PROCESSOR_TARGET static inline uint32_t dcsctp_processor_word_12(const uint8_t *bytes, size_t length)
{
    /* (of 64 bits, of which the upper half is zeros: a cast in the loop would cost a third) */
    uint64_t crc = DCSCTP_PROCESSOR_4(DCSCTP_PROCESSOR_8((uint64_t)UINT32_MAX, dcsctp_processor_number(bytes)), 0);
    bytes += 12;
    length -= 12;
#ifdef DCSCTP_PROCESSOR_TIMES
    /* An instruction waits for three of its kind: so three lanes are gone along at once, the second and third from a CRC of zero. */
    while (length >= DCSCTP_PROCESSOR_LEAST) {
        const size_t fit = length / 24, lane = fit < DCSCTP_PROCESSOR_LANE ? fit : DCSCTP_PROCESSOR_LANE;
        const uint8_t *const last = bytes + 8 * (lane - 1);
        uint64_t second = 0, third = 0;
        for (; bytes < last; bytes += 8) {
            crc = DCSCTP_PROCESSOR_8(crc, dcsctp_processor_number(bytes));
            second = DCSCTP_PROCESSOR_8(second, dcsctp_processor_number(bytes + 8 * lane));
            third = DCSCTP_PROCESSOR_8(third, dcsctp_processor_number(bytes + 16 * lane));
        }
        crc = DCSCTP_PROCESSOR_8(crc, dcsctp_processor_number(bytes));
        second = DCSCTP_PROCESSOR_8(second, dcsctp_processor_number(bytes + 8 * lane));
        crc = DCSCTP_PROCESSOR_TIMES(crc, dcsctp_processor_over[2 * lane]) ^
              DCSCTP_PROCESSOR_TIMES(second, dcsctp_processor_over[lane]);
        crc = DCSCTP_PROCESSOR_8(third, crc ^ dcsctp_processor_number(bytes + 16 * lane));
        bytes += 8 + 16 * lane;
        length -= 24 * lane;
    }
#endif
    for (; length >= 8; bytes += 8, length -= 8)
        crc = DCSCTP_PROCESSOR_8(crc, dcsctp_processor_number(bytes));
    if (length >= 4) {
        uint32_t half;
        memcpy(&half, bytes, 4);
        crc = DCSCTP_PROCESSOR_4(crc, half);
        bytes += 4;
        length -= 4;
    }
    for (; length > 0; bytes++, length--)
        crc = DCSCTP_PROCESSOR_1(crc, *bytes);
    return __builtin_bswap32(~(uint32_t)crc);
}
#endif

/* Returns what dcsctp_word does. */
static inline uint32_t dcsctp_processor_word(const uint8_t *bytes, size_t length)
{
#ifdef DCSCTP_PROCESSOR_TARGET
    if (length >= 12 && DCSCTP_PROCESSOR_HAS)
        return dcsctp_processor_word_12(bytes, length);
#endif
    return dcsctp_word(bytes, length);
}

/* Does what dcsctp_seal does. */
static inline uint32_t dcsctp_processor_seal(uint8_t *packet, size_t length)
{
    uint32_t word;
    if (length < 12)
        return DCSCTP_BAD_PLACE;
    word = dcsctp_processor_word(packet, length);
    packet[8] = (uint8_t)(word >> 24);
    packet[9] = (uint8_t)(word >> 16);
    packet[10] = (uint8_t)(word >> 8);
    packet[11] = (uint8_t)word;
    return DCSCTP_OK;
}

#ifdef __cplusplus
}
#endif

#ifdef DCSCTP_PROCESSOR_CRC32C
#define dcsctp_word dcsctp_processor_word
#define dcsctp_seal dcsctp_processor_seal
#endif

#endif
