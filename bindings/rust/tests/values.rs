// SPDX-License-Identifier: Apache-2.0
//! What the types of this crate are as Rust's: compared, hashed, printed for debugging, converted,
//! kept. The texts and numbers that are expected are of the RFCs' names and figures.

mod common;

use common::{bytes, chunks, packet};
use core::fmt::Debug;
use core::hash::Hash;
use davgyuti::{
    CauseCode, Chunk, ChunkType, FaultKind, Packet, PacketBuilder, ParameterType, ReConfigResult,
    UnknownNumber, WriteError,
};
use std::collections::HashSet;

/// Asserts that `==` and the hash are as they should be.
#[track_caller]
fn are_same<T: Eq + Hash + Debug>(one: T, other: T, expected: bool) {
    assert_eq!(one == other, expected, "{one:?} {other:?}");
    assert_eq!(HashSet::from([one, other]).len(), if expected { 1 } else { 2 });
}

/// The only chunk of a packet.
fn only(bytes: &[u8]) -> Chunk<'_> {
    Packet::parse(bytes).unwrap().chunks().next().unwrap()
}

/// Each kind of chunk, in two packets, at two offsets.
#[test]
fn chunks_are_type_flags_and_value() {
    for digits in chunks() {
        let alone = [&[1; 12], &digits[..]].concat();
        let behind = [&[2; 16], &digits[..], &[9; 20]].concat();
        let (one, other) = (Chunk::at(&alone, 12).unwrap(), Chunk::at(&behind, 16).unwrap());
        are_same(one, other, true);
        // Another type, other flags, another byte at the end of the value.
        let last = one.as_bytes().len() - 1;
        for at in [0, 1].into_iter().chain((last > 3).then_some(last)) {
            let mut changed = alone.clone();
            changed[12 + at] ^= 8;
            are_same(one, Chunk::at(&changed, 12).unwrap(), false);
        }
    }
    // Padding, and its lack.
    let (zeros, others) = (packet("0a000005 61000000"), packet("0a000005 61000102"));
    are_same(only(&zeros), only(&others), true);
    are_same(only(&zeros), only(&packet("0a000005 61")), true);
    are_same(only(&zeros), only(&packet("0a000006 6100")), false);
}

/// Numbers, bits, lists, what is in parameters and error causes; and bytes of what has no kind.
#[test]
fn chunks_are_readable() {
    for (digits, expected) in [
        (
            "000a0015 01020304 05060708 0000000c 68656c6c 6f000000",
            "Chunk { type: DATA, flags: 0x0a, content: Data(Data { tsn: 16909060, stream: 1286, \
             ssn: 1800, ppid: 12, mid: 0, fsn: 0, is_end: false, is_beginning: true, \
             is_unordered: false, immediate_ack: true, payload: b\"hello\" }) }",
        ),
        (
            "0300001c 00000001 00000002 00020001 00020006 00080102 00000003",
            "Chunk { type: SACK, flags: 0x00, content: Sack(Sack { cumulative_tsn_ack: 1, \
             a_rwnd: 2, gap_ack_blocks: [GapAckBlock { start: 2, end: 6 }, \
             GapAckBlock { start: 8, end: 258 }], duplicate_tsns: [3] }) }",
        ),
        (
            "01000028 00000001 00000002 00030004 00000005 \
             80080006 82fe0000 c0000004 80010008 00000001",
            "Chunk { type: INIT, flags: 0x00, content: Init(Init { initiate_tag: 1, a_rwnd: 2, \
             outbound_streams: 3, inbound_streams: 4, initial_tsn: 5 }, \
             [Parameter { type: Supported Extensions, \
             chunk_types: [RE-CONFIG, chunk type 254 (0xfe)] }, \
             Parameter { type: Forward-TSN-Supported, value: b\"\" }, \
             Parameter { type: Zero Checksum Acceptable, method: 1 }]) }",
        ),
        (
            "06010009 000c0005 21000000",
            "Chunk { type: ABORT, flags: 0x01, content: Abort { tag_reflected: true, \
             causes: [Cause { code: User-Initiated Abort, reason: b\"!\" }] } }",
        ),
        (
            "09000018 0002000c 00000002 0007fffe 00090008 00000001",
            "Chunk { type: ERROR, flags: 0x00, content: Error([\
             Cause { code: Missing Mandatory Parameter, \
             types: [State Cookie, parameter type 65534 (0xfffe)] }, \
             Cause { code: No User Data, tsn: 1 }]) }",
        ),
        (
            "82000010 0010000c 00000005 00000006",
            "Chunk { type: RE-CONFIG, flags: 0x00, content: ReConfig([\
             Parameter { type: Re-configuration Response, content: Response { \
             response_number: 5, result: InProgress, next_tsns: None } }]) }",
        ),
        (
            "4d050006 01020000",
            "Chunk { type: chunk type 77 (0x4d), flags: 0x05, value: b\"\\x01\\x02\" }",
        ),
    ] {
        assert_eq!(format!("{:?}", only(&packet(digits))), expected);
    }
    // Of many bytes the first 32 are shown.
    let long = [&bytes("0a00002d")[..], &[b'a'; 41]].concat();
    let expected = format!("CookieEcho(b\"{}\".. of 41 bytes)", "a".repeat(32));
    assert_eq!(format!("{:?}", Chunk::at(&long, 0).unwrap().content()), expected);
    let other = packet("07000004 07000004");
    let other = Chunk::at(&other, 16).unwrap();
    assert_eq!(format!("{:?}", other.content()), "Other");
}

/// A packet shows its ports, its tag and its chunks; a builder its size and its room.
#[test]
fn packets_and_builders_are_readable() {
    let packet = packet("0b000004 08000004");
    let packet = Packet::parse(&packet).unwrap();
    let chunks = "[Chunk { type: COOKIE ACK, flags: 0x00, content: CookieAck }, \
                  Chunk { type: SHUTDOWN ACK, flags: 0x00, content: ShutdownAck }]";
    assert_eq!(format!("{:?}", packet.chunks()), chunks);
    let expected = format!(
        "Packet {{ source_port: 1, destination_port: 2, verification_tag: 0x00000003, \
         chunks: {chunks} }}"
    );
    assert_eq!(format!("{packet:?}"), expected);
    let mut buffer = [0; 100];
    let mut builder = PacketBuilder::begin(&mut buffer, 1, 2, 3).unwrap();
    builder.cookie_ack().unwrap();
    assert_eq!(format!("{builder:?}"), "PacketBuilder { size: 16, room: 84 }");
    let expected = "ChunkBuilder { offset: 16, packet: PacketBuilder { size: 20, room: 80 } }";
    assert_eq!(format!("{:?}", builder.error().unwrap()), expected);
}

/// A number that has no name is shown in decimal and in hexadecimal; known is what has a name.
#[test]
fn names_keep_their_numbers() {
    assert_eq!(ParameterType(0x8006).to_string(), "parameter type 32774 (0x8006)");
    assert_eq!(CauseCode(99).to_string(), "cause code 99 (0x0063)");
    assert_eq!(ChunkType(99).to_string(), "chunk type 99 (0x63)");
    assert_eq!(
        format!("{:x} {:#06X}", ParameterType(0xC000), CauseCode::STALE_COOKIE),
        "c000 0x0003"
    );
    for it in (0..=u8::MAX).map(ChunkType) {
        assert_eq!(it.is_known(), it.name() != "unknown");
        assert_eq!(it.is_known(), it.to_string() == it.name());
    }
}

/// The last bit that is read of a chunk is compared, and no bit that isn't read: padding, and what
/// the RFCs reserve.
#[test]
fn contents_are_compared_to_the_last_bit() {
    for (one, other, expected) in [
        // The flags of a SACK are reserved (RFC 9260 section 3.3.4).
        ("03000010 00000001 00000002 00000000", "03ff0010 00000001 00000002 00000000", true),
        ("06000004", "06010004", false),
        ("06000008 00040004", "06000008 00030004", false),
        // 15 bits of a stream are reserved (RFC 8260 section 2.3.1).
        ("c2000010 00000001 00020001 00000003", "c2000010 00000001 0002ffff 00000003", true),
        ("c2000010 00000001 00020001 00000003", "c2000010 00000001 00020000 00000003", false),
        // Two that have no content.
        ("4d000004", "4e010004", true),
    ] {
        let (one, other) = (packet(one), packet(other));
        let (one, other) = (Chunk::at(&one, 12).unwrap(), Chunk::at(&other, 12).unwrap());
        assert_eq!(one.content() == other.content(), expected, "{one:?} {other:?}");
    }
}

/// Each number is that of what it is made into; those around them are of nothing.
#[test]
fn numbers_have_names() {
    for number in (0..20).chain([256, u32::MAX]) {
        let unknown = Err(UnknownNumber(number));
        let result = ReConfigResult::try_from(number);
        assert_eq!(result.map(u32::from), if number <= 6 { Ok(number) } else { unknown });
        let kind = FaultKind::try_from(number).map(FaultKind::code);
        assert_eq!(kind, if (1..=5).contains(&number) { Ok(number) } else { unknown });
        let error = WriteError::try_from(number).map(WriteError::code);
        assert_eq!(error, if [7, 9, 10].contains(&number) { Ok(number) } else { unknown });
    }
    assert_eq!(UnknownNumber(7).to_string(), "unknown number 7");
}
