/* SPDX-License-Identifier: Apache-2.0 */
/* What is authenticated: State Cookies, AUTH chunks and association shared keys. Their HMACs are those that Python's hmac gives
   of bytes that were laid out by hand. */
#include <dcsctp.h>
#include <stdint.h>
#include <stdio.h>
#include <string.h>

static unsigned passed, failed;

#define CHECK(condition) check_that(condition, #condition, __LINE__)

static void check_that(bool holds, const char *condition, int line)
{
    if (holds) {
        passed++;
    } else {
        failed++;
        printf("tests/c/auth.c:%d: %s\n", line, condition);
    }
}

enum { ROOM = 128 };

static size_t bytes_of(const char *hexadecimal, uint8_t *bytes)
{
    size_t size = 0;
    unsigned byte;
    for (; sscanf(hexadecimal, "%2x", &byte) == 1; hexadecimal += 2)
        bytes[size++] = (uint8_t)byte;
    return size;
}

static const uint8_t key[] = {'a', ' ', 'k', 'e', 'y'}, extra[] = {192, 0, 2, 1};

/* ---- State Cookies */

static const char sealed[] =
    "0e7f54ce817b4159983e9114aa8511194e5e71af023a055c38cb78f905a9ac0400000000000f4240"
    "000000000393870001020304050607081112131415161718090a0b0c0d0e0f1013881389000a0014c0000201";

static const struct dcsctp_cookie says = {.created = 1000000, .lifespan = 60000000, .local_tag = 0x01020304, .peer_tag = 0x05060708,
                                          .local_tie_tag = 0x11121314, .peer_tie_tag = 0x15161718,
                                          .local_initial_tsn = 0x090a0b0c, .peer_initial_tsn = 0x0d0e0f10, .local_port = 5000,
                                          .peer_port = 5001, .outbound_streams = 10, .inbound_streams = 20,
                                          .extra_offset = SIZE_MAX, .extra_size = SIZE_MAX};

static uint32_t open_at(const uint8_t *bytes, size_t size, uint64_t now, struct dcsctp_cookie *cookie, uint64_t *staleness)
{
    memset(cookie, 0xa5, sizeof *cookie);
    *staleness = 77;
    return dcsctp_open_cookie(key, sizeof key, bytes, size, now, cookie, staleness);
}

static bool is_untouched(const struct dcsctp_cookie *cookie)
{
    struct dcsctp_cookie filled;
    memset(&filled, 0xa5, sizeof filled);
    return !memcmp(cookie, &filled, sizeof filled);
}

static void cookies(void)
{
    uint8_t wanted[ROOM], written[ROOM], before[ROOM];
    struct dcsctp_cookie cookie;
    uint64_t staleness;
    size_t length = bytes_of(sealed, wanted), size = 77;
    CHECK(length == 84);
    memset(written, 0x5a, ROOM);
    memcpy(before, written, ROOM);
    CHECK(dcsctp_seal_cookie(written, 83, &size, key, sizeof key, &says, extra, 4) == DCSCTP_NO_ROOM);
    CHECK(size == 77 && !memcmp(written, before, ROOM));
    CHECK(dcsctp_seal_cookie(written, ROOM, &size, key, sizeof key, &says, extra, 4) == DCSCTP_OK && size == 84);
    CHECK(!memcmp(written, wanted, 84) && !memcmp(written + 84, before, ROOM - 84));

    /* good to the end of its life, and on a clock that was set back; then stale */
    const struct {
        uint64_t now, staleness;
    } times[] = {{0, 0}, {1000000, 0}, {61000000, 0}, {61000001, 1}, {UINT64_MAX, UINT64_MAX - 61000000}};
    for (size_t i = 0; i < sizeof times / sizeof *times; i++) {
        uint32_t state = open_at(wanted, 84, times[i].now, &cookie, &staleness);
        CHECK(state == (times[i].staleness ? DCSCTP_COOKIE_STALE : DCSCTP_COOKIE_GOOD) && staleness == times[i].staleness);
        CHECK(cookie.created == 1000000 && cookie.lifespan == 60000000 && cookie.local_tag == 0x01020304);
        CHECK(cookie.peer_tag == 0x05060708 && cookie.local_tie_tag == 0x11121314 && cookie.peer_tie_tag == 0x15161718);
        CHECK(cookie.local_initial_tsn == 0x090a0b0c && cookie.peer_initial_tsn == 0x0d0e0f10);
        CHECK(cookie.local_port == 5000 && cookie.peer_port == 5001 && cookie.outbound_streams == 10);
        CHECK(cookie.inbound_streams == 20 && cookie.extra_offset == 80 && cookie.extra_size == 4);
        CHECK(!memcmp(wanted + cookie.extra_offset, extra, 4));
    }

    /* cut off, with a byte changed, or under another key */
    for (size_t i = 0; i < 84; i++) {
        CHECK(open_at(wanted, i, 1000000, &cookie, &staleness) == DCSCTP_COOKIE_INVALID && staleness == 77 && is_untouched(&cookie));
        wanted[i] ^= 1;
        CHECK(open_at(wanted, 84, 1000000, &cookie, &staleness) == DCSCTP_COOKIE_INVALID && staleness == 77 && is_untouched(&cookie));
        wanted[i] ^= 1;
    }
    CHECK(dcsctp_open_cookie(key, 4, wanted, 84, 1000000, &cookie, &staleness) == DCSCTP_COOKIE_INVALID);
    CHECK(dcsctp_open_cookie(NULL, 0, wanted, 84, 1000000, &cookie, &staleness) == DCSCTP_COOKIE_INVALID);
    CHECK(dcsctp_open_cookie(NULL, 0, NULL, 0, 1000000, &cookie, &staleness) == DCSCTP_COOKIE_INVALID);

    /* without a key, and without further bytes */
    CHECK(dcsctp_seal_cookie(written, 80, &size, NULL, 0, &says, NULL, 0) == DCSCTP_OK && size == 80);
    CHECK(dcsctp_open_cookie(NULL, 0, written, 80, 1000000, &cookie, &staleness) == DCSCTP_COOKIE_GOOD && cookie.extra_size == 0);
}

/* ---- AUTH, and a DATA chunk after it */

static const char *const signed_chunks[] = {
    "0f00001c00000001c7495116c0ef32e9165201fbb044c4bb612e9d0e000300140000000100020003"
    "0000003361620000",
    "0f00002800000003e95e27d95bf24d454ec42d0f7ae79c824a09c532620996ed19b3d3a3d9ec3d35"
    "0003001400000001000200030000003361620000",
};

static void auth(void)
{
    for (size_t i = 0; i < 2; i++) {
        uint8_t wanted[ROOM], bytes[ROOM];
        size_t size = bytes_of(signed_chunks[i], wanted), mac = i ? 32 : 20;
        CHECK(dcsctp_verify_auth(key, sizeof key, wanted, size) && !dcsctp_verify_auth(key, 4, wanted, size));
        memcpy(bytes, wanted, size);
        memset(bytes + 8, 0xa5, mac);
        CHECK(!dcsctp_verify_auth(key, sizeof key, bytes, size));
        CHECK(dcsctp_sign_auth(key, sizeof key, bytes, size) && !memcmp(bytes, wanted, size));
        for (size_t at = 0; at < size; at++) {
            bytes[at] ^= 1;
            CHECK(!dcsctp_verify_auth(key, sizeof key, bytes, size));
            bytes[at] ^= 1;
            CHECK(!dcsctp_verify_auth(key, sizeof key, bytes, at));
        }
        /* no AUTH, another length, another identifier: nothing is written */
        const size_t places[] = {0, 3, 7};
        for (size_t k = 0; k < 3; k++) {
            uint8_t changed[ROOM], before[ROOM];
            memcpy(changed, wanted, size);
            changed[places[k]] ^= 4;
            memcpy(before, changed, size);
            CHECK(!dcsctp_sign_auth(key, sizeof key, changed, size) && !memcmp(changed, before, size));
        }
        CHECK(!dcsctp_sign_auth(key, sizeof key, bytes, 7 + mac) && !dcsctp_sign_auth(NULL, 0, NULL, 0));
    }
}

/* RFC 4895 section 3.2, and 6.1: the smaller number first; of two that are equal, the shorter. */
static void keys(void)
{
    static const uint8_t list[] = {0xc1, 0x80, 1, 2, 14, 15};
    for (unsigned type = 0; type < 256; type++)
        CHECK(dcsctp_is_listed(list, sizeof list, (uint8_t)type) == (type == 0xc1 || type == 0x80));
    CHECK(!dcsctp_is_listed(NULL, 0, 0xc1));
    static const struct {
        uint8_t one[3], other[3];
        size_t one_size, other_size;
        uint8_t key[8];
    } rows[] = {
        {{1, 2}, {1, 3}, 2, 2, {'p', 1, 2, 1, 3}},
        {{1, 3}, {2}, 2, 1, {'p', 2, 1, 3}},
        {{0, 5}, {5}, 2, 1, {'p', 5, 0, 5}},
        {{0, 1, 1}, {1, 2}, 3, 2, {'p', 0, 1, 1, 1, 2}},
        {{7}, {7}, 1, 1, {'p', 7, 7}},
    };
    for (size_t i = 0; i < sizeof rows / sizeof *rows; i++) {
        size_t wanted = 1 + rows[i].one_size + rows[i].other_size;
        for (unsigned turn = 0; turn < 2; turn++) {
            const uint8_t *one = turn ? rows[i].other : rows[i].one, *other = turn ? rows[i].one : rows[i].other;
            size_t one_size = turn ? rows[i].other_size : rows[i].one_size, other_size = wanted - 1 - one_size, size = 77;
            uint8_t output[8] = {0x5a, 0x5a, 0x5a, 0x5a, 0x5a, 0x5a, 0x5a, 0x5a}, before[8];
            memcpy(before, output, 8);
            CHECK(dcsctp_shared_key(output, wanted - 1, &size, (const uint8_t *)"p", 1, one, one_size, other, other_size) == DCSCTP_NO_ROOM);
            CHECK(size == 77 && !memcmp(output, before, 8));
            CHECK(dcsctp_shared_key(output, 8, &size, (const uint8_t *)"p", 1, one, one_size, other, other_size) == DCSCTP_OK);
            CHECK(size == wanted && !memcmp(output, rows[i].key, wanted) && !memcmp(output + wanted, before, 8 - wanted));
        }
    }
}

int main(void)
{
    cookies();
    auth();
    keys();
    printf("auth: %u passed, %u failed\n", passed, failed);
    return failed != 0;
}
