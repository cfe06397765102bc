// SPDX-License-Identifier: Apache-2.0
//! Packets made at random, with changes made at random, and bytes: what is accepted means the same when it
//! is written anew; and what is of a kind is what a check accepts as one, whatever its size.

use super::common::{Chance, chunks, examples, sealed};
use super::kinds;
use davgyuti::{Chunk, Chunks, Header, Packet, PacketBuilder, Policy, Word, first_fault};

/// The packet, written anew from what it holds.
fn rewritten(packet: &Packet) -> Vec<u8> {
    let mut buffer = vec![0xaa; 65_532];
    let Header { source_port, destination_port, verification_tag, .. } = packet.header();
    let mut builder =
        PacketBuilder::begin(&mut buffer, source_port, destination_port, verification_tag).unwrap();
    for chunk in packet.chunks() {
        kinds::add_content(&mut builder, &kinds::content(&chunk)).unwrap();
    }
    builder.unsealed().to_vec()
}

const POLICIES: [Policy; 3] = [
    Policy::new(),
    Policy::new().with_zero_checksum(true).with_strict_padding(true),
    Policy::new().with_any_checksum(true),
];

/// Reads all that there is in bytes, also where no chunk begins, and writes a packet anew; returns
/// whether it is one.
fn check(bytes: &[u8]) -> bool {
    let length = bytes.len();
    for at in 0..length + 2 {
        let chunk = Chunk::at(bytes, at);
        let header = bytes.get(at..).and_then(|it| it.first_chunk());
        let size = header.map(|&[_, _, high, low]| usize::from(u16::from_be_bytes([high, low])));
        let whole = size.filter(|&it| it >= 4).and_then(|it| bytes.get(at..at + it));
        assert_eq!(chunk.map(|it| it.as_bytes()), whole);
        if let (Some(it), Some(size)) = (chunk, size) {
            let next = (at + size.next_multiple_of(4)).min(length);
            assert_eq!(
                (it.offset(), it.next_offset(), it.value()),
                (at, next, &it.as_bytes()[4..])
            );
            // (what is shown looks at all)
            assert!(!format!("{it:?}").is_empty());
        }
    }
    let word = davgyuti::word(bytes);
    for policy in POLICIES {
        let fault = davgyuti::first_fault(bytes, word, policy);
        assert_eq!(davgyuti::check(bytes, word, policy).err(), fault.map(|it| it.kind));
        assert_eq!(Packet::parse_with(bytes, word, policy).err(), fault);
    }
    let Ok(packet) = Packet::parse_with(bytes, word, POLICIES[2]) else {
        return false;
    };
    assert_eq!(Chunks::of(bytes).last().unwrap().next_offset(), length);
    let mut canonical = vec![0; 65_532];
    let canonical = packet.write_canonical(&mut canonical).unwrap();
    // (a text that isn't UTF-8 has another canonical form)
    let (anew, mut again) = (rewritten(&packet), vec![0; 65_532]);
    let again = Packet::parse_with(&anew, Word::default(), POLICIES[1])
        .unwrap()
        .write_canonical(&mut again);
    assert_eq!(again.unwrap(), canonical);
    #[cfg(feature = "alloc")]
    {
        assert_eq!(packet.to_canonical().unwrap(), canonical);
        assert!(!packet.to_text().unwrap().is_empty() && !packet.to_report().unwrap().is_empty());
        let only = packet.chunks().next().filter(|it| it.next_offset() == length);
        assert_eq!(Chunk::parse(&bytes[12..]).ok(), only);
    }
    true
}

#[test]
fn changed_packets() {
    let (examples, chunks) = (examples(), chunks());
    let (mut chance, mut accepted) = (Chance(3), 0);
    for _ in 0..6000 {
        let mut packet = chance.packet(&examples, &chunks);
        // (a Vec has no byte after its last one that a sanitizer would allow)
        packet.shrink_to_fit();
        let packet = if packet.len() >= 12 { sealed(packet) } else { packet };
        accepted += usize::from(check(&packet));
    }
    assert!((2000..5000).contains(&accepted), "{accepted}");
}

/// What is of a kind in some size is one where a check accepts it, and only there; but a list may end too early.
#[test]
fn sizes() {
    for number in (0..=255).chain(0x8000..0x8010).chain(0xc000..0xc010) {
        for around in [0, 0x82, 0x09] {
            let said = (0..41).filter_map(|size| {
                let value: Vec<u8> = (0..size).map(|at| if at % 4 == 3 { 4 } else { 0 }).collect();
                let header = |number: u16, size: u16| [number.to_be_bytes(), size.to_be_bytes()];
                let (own, size) = (header(number << (8 * u16::from(around == 0)), 4 + size), size);
                let outer = header(around << 8, 8 + size);
                let outer = if around == 0 { &[][..] } else { outer.as_flattened() };
                let packet = [&[0; 12], outer, own.as_flattened(), &value].concat();
                let chunk = Chunk::at(&packet, 12).unwrap();
                let it = match around {
                    0 => kinds::content(&chunk),
                    0x82 => kinds::parameter(&chunk.parameters().next().unwrap()),
                    _ => kinds::cause(&chunk.causes().next().unwrap()),
                };
                let is_list = it.get("parameters").or(it.get("causes")).is_some();
                let is_accepted = first_fault(&packet, Word::default(), POLICIES[2]).is_none();
                (size % 4 == 0 || !is_list).then_some((!it.kind().is_empty(), is_accepted))
            });
            let said: Vec<_> = said.collect();
            let is_kind = said.iter().any(|it| it.0);
            assert!(!is_kind || said.iter().all(|it| it.0 == it.1), "{around} {number} {said:?}");
        }
    }
}
