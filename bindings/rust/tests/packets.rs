// SPDX-License-Identifier: Apache-2.0
//! Whole packets: checks, faults, texts, and what can't be written.

mod common;

use common::{bytes, crc32c, examples, packet, sealed};
use davgyuti::{
    CauseCode, Chunk, ChunkType, Chunks, Content, Data, Fault, FaultKind, GapAckBlock, MAX_PACKET,
    Packet, PacketBuilder, ParameterType, Policy, RegisteredChunk, Word, WriteError,
};

#[test]
fn word_is_the_crc32c() {
    for packet in examples() {
        let word = davgyuti::word(&packet);
        assert_eq!(word, Word::from_crc32c(crc32c(&packet)));
        assert_eq!(word.checksum().to_be_bytes(), sealed(packet)[8..12]);
    }
    let _ = davgyuti::word(&[]);
}

/// Asserts the first fault, by each way to it.
#[track_caller]
fn faults(bytes: &[u8], policy: Policy, kind: FaultKind, offset: usize) {
    let (word, fault) = (davgyuti::word(bytes), Fault { kind, offset });
    assert_eq!(davgyuti::check(bytes, word, policy), Err(kind));
    assert_eq!(davgyuti::first_fault(bytes, word, policy), Some(fault));
    assert_eq!(Packet::parse_with(bytes, word, policy), Err(fault));
    assert_eq!(fault.to_string(), format!("{kind} at byte {offset}"));
}

/// The rules of RFC 9260 sections 3 and 3.2; registry/vectors has more.
#[test]
fn first_faults() {
    let socket = Policy::default();
    faults(&[], socket, FaultKind::Size, 0);
    faults(&vec![0; 65_536], socket, FaultKind::Size, 65_535);
    let mut changed = packet("0b000004");
    changed[0] ^= 1;
    faults(&changed, socket, FaultKind::Checksum, 8);
    faults(&packet("0b000004 0b000003"), socket, FaultKind::Length, 16);
    faults(&packet("82000010 0010000c 00000001 00000007"), socket, FaultKind::Value, 16);
    let strict = socket.with_strict_padding(true);
    faults(&packet("0a000005 61000100"), strict, FaultKind::Padding, 18);
    assert_eq!(Packet::try_from(&[0; 4][..]).unwrap_err().offset, 4);
}

/// A word of 0 that is passed is what the field has to be.
#[test]
fn word_of_zero() {
    let (right, socket) = (packet("0b000004"), Policy::default());
    let mut zero = right.clone();
    zero[8..12].fill(0);
    assert_eq!(davgyuti::first_fault(&zero, Word::default(), socket), None);
    let accepted = Packet::parse_with(&zero, Word::default(), socket).unwrap();
    assert_eq!(accepted.write_canonical(&mut [0; 100]).unwrap(), zero);
    let fault = Fault { kind: FaultKind::Checksum, offset: 8 };
    assert_eq!(Packet::parse_with(&right, Word::default(), socket), Err(fault));
}

/// Bytes that weren't checked: chunks up to where no whole one is.
#[test]
fn chunks_of_any_bytes() {
    assert!(Chunks::of(&[]).next().is_none());
    let packet = packet("0b000004 0300000c 00000000 00000000 0b000008");
    let mut chunks = Chunks::of(&packet);
    assert_eq!(chunks.next().unwrap().chunk_type(), ChunkType::COOKIE_ACK);
    let sack = chunks.next().unwrap();
    assert_eq!((sack.chunk_type(), sack.value().len(), sack.sack()), (ChunkType::SACK, 8, None));
    assert!(matches!(sack.content(), Content::Other));
    assert!(chunks.next().is_none());
    assert!(chunks.next().is_none());
    assert!(Chunk::at(&packet, usize::MAX).is_none());
}

#[cfg(feature = "alloc")]
#[test]
fn texts() {
    use davgyuti::OutputError;
    for bytes in examples() {
        let Ok(packet) = Packet::parse(&bytes) else { continue };
        let (text, report) = (packet.to_text().unwrap(), packet.to_report().unwrap());
        let canonical = packet.to_canonical().unwrap();
        assert_eq!(packet.to_string(), text);
        assert!(report.ends_with('\n') && !text.ends_with('\n'));
        // A report says whether the checksum is right, also where any is accepted.
        let policy = Policy::new().with_any_checksum(true);
        let any = Packet::parse_with(&bytes, Word::default(), policy).unwrap();
        assert!(report.contains(": right\n") && any.to_report().unwrap() == report);
        let mut output = [0xaa; 8192];
        assert_eq!(packet.write_text(&mut output), Ok(&text[..]));
        assert_eq!(packet.write_report(&mut output), Ok(&report[..]));
        assert_eq!(packet.write_canonical(&mut output).unwrap(), canonical);
        // One byte less is too little, and changes nothing.
        let mut output = vec![0xaa; text.len() - 1];
        let no_room = Err(OutputError::NoRoom { needed: text.len() });
        assert_eq!(packet.write_text(&mut output), no_room);
        assert!(output.iter().all(|&it| it == 0xaa));
        let no_room = OutputError::NoRoom { needed: canonical.len() };
        assert_eq!(packet.write_canonical(&mut []), Err(no_room));
    }
}

/// A packet of 65,533 to 65,535 bytes has no canonical form that can be written.
#[cfg(feature = "alloc")]
#[test]
fn canonical_too_long() {
    let mut long = [bytes("0001 0002 00000003 00000000 4d00fff3"), vec![0; 65_519]].concat();
    assert_eq!(long.len(), 65_535);
    long = sealed(long);
    let packet = Packet::parse(&long).unwrap();
    assert_eq!(packet.to_canonical(), Err(davgyuti::OutputError::TooLong));
    assert!(packet.to_text().is_ok());
}

#[test]
fn tags_and_seals() {
    let mut bytes = packet("0b000004");
    assert_eq!(davgyuti::set_tag(&mut bytes, 0x0102_0304), Ok(()));
    assert!(bytes[4..8] == [1, 2, 3, 4] && Packet::parse(&bytes).is_err());
    assert_eq!(davgyuti::seal(&mut bytes), Ok(()));
    assert_eq!(bytes, sealed(bytes.clone()));
    let mut short = [7; 11];
    assert_eq!(davgyuti::set_tag(&mut short, 1), Err(WriteError::BadPlace));
    assert_eq!(davgyuti::seal(&mut short), Err(WriteError::BadPlace));
    assert_eq!(short, [7; 11]);
}

#[test]
fn no_room() {
    assert_eq!(PacketBuilder::begin(&mut [0; 11], 1, 2, 3).unwrap_err(), WriteError::NoRoom);
    let mut buffer = [0xaa; 30];
    let mut packet = PacketBuilder::begin(&mut buffer, 1, 2, 3).unwrap();
    assert_eq!((packet.size(), packet.room()), (12, 18));
    assert_eq!(packet.cookie_echo(&[1; 17]).unwrap_err(), WriteError::NoRoom);
    assert_eq!(packet.as_bytes(), bytes("0001 0002 00000003 00000000"));
    // Twelve bytes of header and value, and three of padding: to the size of 28.
    packet.cookie_echo(&[1; 9]).unwrap();
    assert_eq!((packet.size(), packet.room()), (28, 2));
    assert_eq!(packet.cookie_ack().unwrap_err(), WriteError::NoRoom);
    assert_eq!(packet.seal().len(), 28);
    assert_eq!(buffer[28..], [0xaa; 2]);
}

#[test]
fn bad_values() {
    let mut buffer = vec![0; 70_000];
    let mut packet = PacketBuilder::begin(&mut buffer, 1, 2, 3).unwrap();
    let long = vec![b'a'; 65_536];
    let payload = &long[..65_520];
    assert_eq!(packet.room(), MAX_PACKET - 12);
    let reason = std::str::from_utf8(&long).unwrap();
    let (blocks, duplicates) = (vec![GapAckBlock::default(); 16_384], vec![0; 16_384]);
    let skipped = vec![davgyuti::SkippedStream::default(); 16_384];
    for added in [
        packet.cookie_echo(&long).map(|_| ()),
        packet.heartbeat(&long).map(|_| ()),
        packet.abort(false, reason).map(|_| ()),
        packet.chunk(ChunkType(77), 0, &long).map(|_| ()),
        packet.data(&Data { payload, ..Data::default() }).map(|_| ()),
        packet.sack(1, 2, &blocks, &[]).map(|_| ()),
        packet.sack(1, 2, &[], &duplicates).map(|_| ()),
        packet.i_forward_tsn(1, &skipped).map(|_| ()),
    ] {
        assert_eq!(added, Err(WriteError::BadValue));
    }
    assert_eq!(packet.cookie_echo(payload).unwrap_err(), WriteError::NoRoom);
    let mut error = packet.error().unwrap();
    assert_eq!(error.cause(CauseCode(1), &long).unwrap_err(), WriteError::BadValue);
    let types = vec![ParameterType(1); 32_768];
    assert_eq!(error.missing_parameters(&types).unwrap_err(), WriteError::BadValue);
    // (the chunk has four bytes already)
    assert_eq!(error.cause(CauseCode(1), &long[..65_528]).unwrap_err(), WriteError::BadValue);
    assert_eq!(error.cause(CauseCode(1), &long[..65_527]).unwrap_err(), WriteError::NoRoom);
    assert_eq!(packet.size(), 16);
}

/// PKTDROP of draft-stewart-sctp-pktdrprep: the type 0x81, flags whose lowest bits are M (from a
/// middlebox), B (bad checksum) and T (truncated), bandwidth, bytes queued, truncated length, two
/// bytes that are reserved, and the packet. Flags that have no meaning are read and written too; of
/// an AUTH (RFC 4895 section 5.1) none is.
#[test]
fn flags_of_the_registry() {
    for (digits, flags) in [
        ("01", RegisteredChunk::PKTDROP_MIDDLEBOX),
        ("02", RegisteredChunk::PKTDROP_BAD_CHECKSUM),
        ("04", RegisteredChunk::PKTDROP_TRUNCATED),
        ("00", 0),
        ("ff", 0xff),
    ] {
        let chunk = bytes(&format!("81{digits}0018 00010002 00030004 05dc0000 01020304 05060708"));
        let expected = RegisteredChunk::Pktdrop {
            flags,
            bandwidth: 0x0001_0002,
            queued: 0x0003_0004,
            size: 1500,
            packet: &[1, 2, 3, 4, 5, 6, 7, 8],
        };
        let read = Chunk::at(&chunk, 0).unwrap().registered();
        assert_eq!(read.as_ref(), Some(&expected));
        let mut buffer = [0xaa; 100];
        let mut packet = PacketBuilder::begin(&mut buffer, 1, 2, 3).unwrap();
        assert_eq!(packet.registered(&expected).unwrap().as_bytes(), chunk);
    }
    let auth = bytes("0fff000c 00000003 01020304");
    let read = Chunk::at(&auth, 0).unwrap().registered().unwrap();
    let mut buffer = [0xaa; 100];
    let mut packet = PacketBuilder::begin(&mut buffer, 1, 2, 3).unwrap();
    let written = packet.registered(&read).unwrap();
    assert_eq!(written.as_bytes(), bytes("0f00000c 00000003 01020304"));
}

#[test]
fn places() {
    let mut buffer = [0; 100];
    for size in [0, 8, 11, 13, 104, usize::MAX] {
        let resumed = PacketBuilder::resume(&mut buffer, size);
        assert_eq!(resumed.unwrap_err(), WriteError::BadPlace);
    }
    let mut long = vec![0; 70_000];
    assert!(PacketBuilder::resume(&mut long, MAX_PACKET).is_ok());
    assert!(PacketBuilder::resume(&mut long, MAX_PACKET + 4).is_err());
}

/// They can be sent to another thread, and shared.
#[test]
fn types_are_send_and_sync() {
    fn check<T: Send + Sync>() {}
    check::<Packet>();
    check::<Chunk>();
    check::<davgyuti::Content>();
    check::<PacketBuilder>();
    check::<Fault>();
}
