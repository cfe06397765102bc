// SPDX-License-Identifier: Apache-2.0
//! Lists of 20: what is written is what is read, in its order, from both ends.

use davgyuti::{Chunk, GapAckBlock, PacketBuilder, ParameterType, ReConfig, SkippedStream};
use std::fmt::Debug;

/// The list of what a function gives for 0 to 19.
fn list<T>(item: impl Fn(u16) -> T) -> Vec<T> {
    (0..20).map(item).collect()
}

/// Asserts that an iterator gives these items, from the front, from the end, from both ends and by
/// `nth`; and that it knows how many are left.
#[track_caller]
#[allow(clippy::needless_pass_by_value)] // it is a copy
fn both_ways<T: Clone + PartialEq + Debug>(
    items: &[T],
    it: impl DoubleEndedIterator<Item = T> + ExactSizeIterator + Clone,
) {
    for n in 0..=items.len() {
        let (mut front, mut back, mut nth) = (it.clone(), it.clone(), it.clone());
        assert!(front.by_ref().take(n).eq(items[..n].iter().cloned()), "{n}");
        assert!(back.by_ref().rev().take(n).eq(items.iter().rev().take(n).cloned()), "{n}");
        let left = items.len() - n;
        assert_eq!((front.len(), back.len(), back.size_hint()), (left, left, (left, Some(left))));
        assert!(front.rev().eq(items[n..].iter().rev().cloned()), "{n}");
        assert!(back.eq(items[..left].iter().cloned()), "{n}");
        assert_eq!(nth.nth(n), items.get(n).cloned(), "{n}");
        assert!(nth.eq(items.iter().skip(n + 1).cloned()), "{n}");
    }
}

#[test]
fn lists() {
    let (blocks, duplicates) =
        (list(|i| GapAckBlock::new(3 * i, 3 * i + 1)), list(|i| !u32::from(i)));
    let skipped = |i| SkippedStream { stream: i, ssn: u16::MAX - i, ..SkippedStream::default() };
    let skipped_i = |i: u16| {
        let (mid, is_unordered) = (!u32::from(i), i % 3 == 0);
        SkippedStream { stream: i, mid, is_unordered, ..SkippedStream::default() }
    };
    let (skipped, skipped_i, streams) = (list(skipped), list(skipped_i), list(|i| u16::MAX - i));
    let types = list(|i| ParameterType(u16::MAX - i));
    let request = ReConfig::IncomingSsnReset { request_number: 1, streams: &streams[..] };
    let mut buffer = [0xaa; 1200];
    let mut packet = PacketBuilder::begin(&mut buffer, 1, 2, 3).unwrap();
    packet.sack(1, 2, &blocks, &duplicates).unwrap();
    packet.forward_tsn(1, &skipped).unwrap().i_forward_tsn(1, &skipped_i).unwrap();
    packet.re_config().unwrap().re_config(&request).unwrap();
    packet.error().unwrap().missing_parameters(&types).unwrap();
    let packet = davgyuti::Packet::parse(packet.seal()).unwrap();
    let chunks: Vec<Chunk> = packet.chunks().collect();
    both_ways(&blocks, chunks[0].sack().unwrap().gap_ack_blocks());
    both_ways(&duplicates, chunks[0].sack().unwrap().duplicate_tsns());
    both_ways(&skipped, chunks[1].forward_tsn().unwrap().skipped_streams());
    both_ways(&skipped_i, chunks[2].forward_tsn().unwrap().skipped_streams());
    let read = chunks[3].parameters().next().unwrap().re_config().unwrap();
    let mut buffer = [0xaa; 1200];
    let mut again = PacketBuilder::begin(&mut buffer, 1, 2, 3).unwrap();
    let mut again = again.re_config().unwrap();
    assert_eq!(again.re_config_from(read.clone()).unwrap().as_bytes(), chunks[3].as_bytes());
    let read = read.map_streams(|it| {
        both_ways(&streams, it);
        &streams[..]
    });
    assert_eq!(read, request);
    both_ways(&types, chunks[4].causes().next().unwrap().missing_parameters());
}
