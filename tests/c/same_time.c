/* SPDX-License-Identifier: Apache-2.0 */
/* Compares one HMAC, for valgrind to count the instructions of it (tests/c/test.sh).

   usage: same_time verify_auth_1|verify_auth_3|open_cookie|control PLACE

   The HMAC, of SHA-1 (1) or SHA-256, is wrong in its byte PLACE, or in each byte where PLACE is `all`. `control` stops at the first
   byte that differs: its count is another for each place. Prints whether the HMAC is right. */
#include <dcsctp.h>
#include <stdio.h>
#include <stdlib.h>
#include <string.h>

static const uint8_t key[] = {'a', ' ', 'k', 'e', 'y'};

static const char *place;

static void spoil(uint8_t *hmac, size_t size)
{
    for (size_t i = 0; i < size; i++)
        if (!strcmp(place, "all") || i == strtoul(place, NULL, 10))
            hmac[i] ^= 0x10;
}

static bool open_cookie(void)
{
    const struct dcsctp_cookie cookie = {.created = 1, .lifespan = 2, .local_tag = 3, .peer_tag = 4};
    uint8_t sealed[80];
    struct dcsctp_cookie opened;
    uint64_t staleness;
    size_t size;
    if (dcsctp_seal_cookie(sealed, sizeof sealed, &size, key, sizeof key, &cookie, NULL, 0))
        exit(2);
    spoil(sealed, 32);
    return dcsctp_open_cookie(key, sizeof key, sealed, size, 2, &opened, &staleness) != DCSCTP_COOKIE_INVALID;
}

static bool verify_auth(uint16_t hmac)
{
    const uint8_t zeros[32] = {0};
    const struct dcsctp_registered auth = {.second_short_number = hmac, .rest_size = hmac == 1 ? 20 : 32};
    uint8_t packet[100];
    size_t size;
    if (dcsctp_begin(packet, sizeof packet, &size, 1, 2, 3)
        || dcsctp_add_registered_chunk(packet, sizeof packet, &size, DCSCTP_CHUNK_AUTH, &auth, zeros, sizeof zeros)
        || dcsctp_add_cookie_ack(packet, sizeof packet, &size)
        || !dcsctp_sign_auth(key, sizeof key, packet + DCSCTP_FIRST_CHUNK, size - DCSCTP_FIRST_CHUNK))
        exit(2);
    spoil(packet + DCSCTP_FIRST_CHUNK + 8, auth.rest_size);
    return dcsctp_verify_auth(key, sizeof key, packet + DCSCTP_FIRST_CHUNK, size - DCSCTP_FIRST_CHUNK);
}

bool control(const volatile uint8_t *one, const volatile uint8_t *other, size_t size);

__attribute__((noinline)) bool control(const volatile uint8_t *one, const volatile uint8_t *other, size_t size)
{
    for (size_t i = 0; i < size; i++)
        if (one[i] != other[i])
            return false;
    return true;
}

int main(int count, char **words)
{
    uint8_t one[32] = {0}, other[32] = {0};
    if (count != 3)
        return 2;
    place = words[2];
    spoil(other, sizeof other);
    puts((!strcmp(words[1], "control") ? control(one, other, sizeof one)
          : !strcmp(words[1], "open_cookie") ? open_cookie()
          : verify_auth(strcmp(words[1], "verify_auth_1") ? 3 : 1)) ? "right" : "wrong");
    return 0;
}
