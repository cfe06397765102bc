// SPDX-License-Identifier: Apache-2.0
//! What is authenticated: State Cookies, AUTH chunks and association shared keys. The HMACs are those
//! that Python's hmac gives of bytes that were laid out by hand, as `tests/c/auth.c` of the
//! repository has them.

mod common;

use common::bytes;
use davgyuti::{
    Cookie, CookieError, WriteError, open_cookie, seal_cookie, shared_key, sign_auth, verify_auth,
};

const KEY: &[u8] = b"a key";
const SAYS: Cookie = Cookie {
    created: 1_000_000,
    lifespan: 60_000_000,
    local_tag: 0x0102_0304,
    peer_tag: 0x0506_0708,
    local_tie_tag: 0x1112_1314,
    peer_tie_tag: 0x1516_1718,
    local_initial_tsn: 0x090a_0b0c,
    peer_initial_tsn: 0x0d0e_0f10,
    local_port: 5000,
    peer_port: 5001,
    outbound_streams: 10,
    inbound_streams: 20,
    extra: &[192, 0, 2, 1],
};
const SEALED: &str = "0e7f54ce817b4159983e9114aa8511194e5e71af023a055c38cb78f905a9ac04
    00000000000f4240 0000000003938700 01020304 05060708 11121314 15161718 090a0b0c 0d0e0f10
    1388 1389 000a 0014 c0000201";

#[test]
fn cookies_are_sealed() {
    let mut output = [0x5a; 128];
    assert_eq!(seal_cookie(&mut output[..83], KEY, &SAYS), Err(WriteError::NoRoom));
    assert_eq!(output, [0x5a; 128]);
    assert_eq!(seal_cookie(&mut output, KEY, &SAYS).unwrap(), bytes(SEALED));
    assert_eq!(output[84..], [0x5a; 44]);
}

#[test]
fn cookies_are_opened() {
    let sealed = bytes(SEALED);
    // Good to the end of its life, and on a clock that was set back.
    for now in [0, 1_000_000, 61_000_000] {
        assert_eq!(open_cookie(KEY, &sealed, now), Ok(SAYS));
    }
    let mut changed = sealed.clone();
    for at in 0..sealed.len() {
        assert_eq!(open_cookie(KEY, &sealed[..at], 1_000_000), Err(CookieError::Invalid));
        changed[at] ^= 1;
        assert_eq!(open_cookie(KEY, &changed, 1_000_000), Err(CookieError::Invalid));
        changed[at] ^= 1;
    }
    for (now, staleness) in [(61_000_001, 1), (u64::MAX, u64::MAX - 61_000_000)] {
        assert_eq!(open_cookie(KEY, &sealed, now), Err(CookieError::Stale { staleness }));
    }
}

/// AUTH with HMAC-SHA-1 and with HMAC-SHA-256, the size of the HMAC, and a DATA chunk after it.
const SIGNED: [(&str, usize); 2] = [
    ("0f00001c 00000001 c7495116c0ef32e9165201fbb044c4bb612e9d0e", 20),
    ("0f000028 00000003 e95e27d95bf24d454ec42d0f7ae79c824a09c532620996ed19b3d3a3d9ec3d35", 32),
];
const DATA: &str = "00030014 00000001 00020003 00000033 61620000";

#[test]
fn auth_is_verified_and_signed() {
    for (auth, size) in SIGNED {
        let mut signed = bytes(&(auth.to_string() + DATA));
        assert!(verify_auth(KEY, &signed) && !verify_auth(&KEY[..4], &signed));
        let mut written = signed.clone();
        written[8..8 + size].fill(0xa5);
        assert_eq!(sign_auth(KEY, &mut written), Ok(()));
        assert_eq!(written, signed);
        assert_eq!(sign_auth(KEY, &mut written[..7 + size]), Err(WriteError::BadPlace));
        for at in 0..signed.len() {
            signed[at] ^= 4;
            assert!(!verify_auth(KEY, &signed), "{at}");
            // No AUTH, another length, another identifier: nothing is written.
            if [0, 3, 7].contains(&at) {
                let before = signed.clone();
                assert_eq!(sign_auth(KEY, &mut signed), Err(WriteError::BadPlace));
                assert_eq!(signed, before);
            }
            signed[at] ^= 4;
            assert!(!verify_auth(KEY, &signed[..at]), "{at}");
        }
    }
}

/// RFC 4895 section 6.1: the smaller number first; of two that are equal, the shorter.
#[test]
fn keys_are_shared() {
    let (one, other, expected) = (bytes("000101"), bytes("0102"), bytes("70 000101 0102"));
    for (first, second) in [(&one, &other), (&other, &one)] {
        let mut output = [0x5a; 8];
        assert_eq!(shared_key(&mut output[..5], b"p", first, second), Err(WriteError::NoRoom));
        assert_eq!(output, [0x5a; 8]);
        assert_eq!(shared_key(&mut output, b"p", first, second).unwrap(), expected);
        assert_eq!(output[6..], [0x5a; 2]);
    }
}
