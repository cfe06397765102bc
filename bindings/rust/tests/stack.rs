// SPDX-License-Identifier: Apache-2.0
//! What a stack needs besides packets: bare chunks, items of a type and bytes, flags, checksums of
//! zero. Chunks are laid out by hand, from the sections that are named.

mod common;

use common::{bytes, chunks, packet};
use davgyuti::{
    Cause, Chunk, Data, Fault, FaultKind, Parameter, ParameterType, Policy, Word, WriteError,
    first_fault, needs_checksum, word,
};

/// The packet with these chunks, and a checksum of zero.
fn zeroed(chunks: &str) -> Vec<u8> {
    bytes(&format!("0001 0002 00000003 00000000 {chunks}"))
}

#[cfg(feature = "alloc")]
#[test]
fn a_bare_chunk_is_read() {
    for padded in chunks() {
        let whole = [&[7; 12], &padded[..]].concat();
        let chunk = Chunk::at(&whole, 12).unwrap();
        for given in [chunk.as_bytes(), &padded] {
            let bare = Chunk::parse(given).unwrap();
            assert_eq!((bare, bare.content()), (chunk, chunk.content()));
            assert_eq!((bare.offset(), bare.next_offset()), (0, given.len()));
        }
    }
    for (digits, kind, offset) in [
        ("", FaultKind::Size, 0),
        ("0b0000", FaultKind::Size, 3),
        ("0b000003", FaultKind::Length, 0),
        ("0a000009 616263 00", FaultKind::Length, 0),
        ("0400000c 0001 0009 61626364", FaultKind::Length, 4),
        ("82000010 0010 000c 00000001 00000007", FaultKind::Value, 4),
        // Something behind it: half a chunk, a chunk, padding twice.
        ("0b000004 00", FaultKind::Length, 4),
        ("0b000004 0b000004", FaultKind::Length, 4),
        ("0a000005 61 000000 00000000", FaultKind::Length, 8),
    ] {
        assert_eq!(Chunk::parse(&bytes(digits)), Err(Fault { kind, offset }), "{digits}");
    }
    // A packet has at most 65,535 bytes, and 12 of them before its first chunk.
    let mut large = vec![0; 65_524];
    large[..4].copy_from_slice(&[10, 0, 0xff, 0xf3]);
    assert_eq!(Chunk::parse(&large[..65_523]).unwrap().value().len(), 65_519);
    large[3] = 0xf4;
    assert_eq!(Chunk::parse(&large), Err(Fault { kind: FaultKind::Size, offset: 65_523 }));
}

#[test]
fn items_are_made_of_a_type_and_bytes() {
    for it in chunks() {
        let chunk = Chunk::at(&it, 0).unwrap();
        for it in chunk.parameters() {
            let mut output = [0xaa; 1500];
            let made = Parameter::write(&mut output, it.parameter_type(), it.value()).unwrap();
            assert_eq!((made, made.re_config(), made.offset()), (it, it.re_config(), 0));
        }
        for it in chunk.causes() {
            let mut output = [0xaa; 1500];
            let made = Cause::write(&mut output, it.code(), it.value()).unwrap();
            assert_eq!((made, made.as_bytes(), made.offset()), (it, it.as_bytes(), 0));
            assert!(made.missing_parameters().eq(it.missing_parameters()));
        }
    }
    let mut output = vec![0; 70_000];
    let mut written = |size: usize, room: usize| {
        let made = Parameter::write(&mut output[..room], ParameterType(1), &vec![1; size]);
        made.map(|it| it.as_bytes().len())
    };
    assert_eq!(written(65_531, 65_535), Ok(65_535));
    assert_eq!(written(65_531, 65_534), Err(WriteError::NoRoom));
    assert_eq!(written(65_532, 70_000), Err(WriteError::BadValue));
}

/// RFC 9260 section 3.3.1: the bits I, U, B and E, of which E is the lowest; the others are reserved.
#[test]
fn flags_are_a_number() {
    for flags in 0..16 {
        let data = Data { tsn: 1, is_end: true, ..Data::default() }.with_flags(flags | 0xf0);
        assert_eq!((data.tsn, data.flags()), (1, flags));
        let bits = [data.is_end, data.is_beginning, data.is_unordered, data.immediate_ack];
        assert_eq!(bits, [1, 2, 4, 8].map(|bit| flags & bit != 0));
    }
}

/// RFC 9653 section 5.2: INIT, COOKIE ECHO and ASCONF; what answers a packet out of the blue
/// reflects its tag.
#[test]
fn a_checksum_of_zero_is_allowed() {
    let allowed = Policy::new().with_allowed_zero_checksum(true);
    let fault = |bytes: &[u8], policy| first_fault(bytes, word(bytes), policy);
    let wrong = Some(Fault { kind: FaultKind::Checksum, offset: 8 });
    for digits in [
        "01000014 00000001 00000002 0003 0004 00000005",
        "0a000005 61 000000",
        "c1000008 00000001",
        "06010004",
        "0b000004 0e010004",
    ] {
        let bytes = zeroed(digits);
        assert!(needs_checksum(&bytes));
        assert_eq!(fault(&bytes, allowed), wrong, "{digits}");
        assert_eq!(fault(&bytes, allowed.with_zero_checksum(true)), None);
        assert_eq!(first_fault(&bytes, Word::default(), allowed), None);
        assert_eq!(fault(&packet(digits), allowed), None);
    }
    for digits in
        ["02ff0014 00000001 00000002 0003 0004 00000005", "06000004", "04010008 0001 0004"]
    {
        let mut bytes = zeroed(digits);
        assert!(!needs_checksum(&bytes));
        assert_eq!(fault(&bytes, Policy::new()), wrong, "{digits}");
        let packet = davgyuti::Packet::parse_with(&bytes, word(&bytes), allowed).unwrap();
        assert!(packet.write_canonical(&mut [0; 100]).is_ok());
        bytes[11] = 1;
        assert_eq!(fault(&bytes, allowed), wrong);
    }
    // The size comes first, then the checksum, then the chunks, from the left.
    let size = Some(Fault { kind: FaultKind::Size, offset: 15 });
    assert_eq!(fault(&zeroed("01000004")[..15], allowed), size);
    let length = Some(Fault { kind: FaultKind::Length, offset: 12 });
    assert_eq!(fault(&zeroed("0b000003 01000004"), allowed), length);
    assert_eq!(fault(&zeroed("01000004 0b000003"), allowed), wrong);
}
