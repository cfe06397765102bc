// SPDX-License-Identifier: Apache-2.0
//! Chunks and packets that are kept: the same as those that they are copies of, but for their place.
#![cfg(feature = "alloc")]

mod common;

use common::{chunks, examples, packet};
use davgyuti::{Chunk, OwnedChunk, OwnedPacket, Packet, PacketBuilder, Policy, Word};

/// Each kind of chunk, with its padding and without.
#[test]
fn each_kind_is_kept() {
    for bytes in chunks() {
        for behind in [0, 1, 20] {
            let mut packet = [&[7; 12], &bytes[..], &vec![0; behind]].concat();
            let chunk = Chunk::at(&packet, 12).unwrap();
            let owned = chunk.into_owned();
            assert_eq!(owned, OwnedChunk::from(chunk));
            let kept = owned.as_chunk();
            assert_eq!((kept, kept.content()), (chunk, chunk.content()));
            assert_eq!((kept.offset(), kept.next_offset()), (0, kept.as_bytes().len()));
            assert!(kept.parameters().eq(chunk.parameters()));
            assert!(kept.causes().eq(chunk.causes()));
            assert_eq!(format!("{owned:?}"), format!("{chunk:?}"));
            // What is written again has its flags too, and is the last chunk.
            let mut buffer = [0xaa; 1200];
            let mut builder = PacketBuilder::begin(&mut buffer, 1, 2, 3).unwrap();
            assert_eq!(builder.cookie_ack().unwrap().copy(&kept).unwrap().offset(), 16);
            assert_eq!(Chunk::at(builder.as_bytes(), 16).unwrap(), chunk);
            // It outlives the packet.
            let expected = chunk.as_bytes().to_vec();
            packet.fill(0xff);
            assert_eq!(owned.clone().as_chunk().as_bytes(), expected);
        }
    }
}

/// What a packet was checked under is kept too: it is what its texts are written under.
#[test]
fn packets_are_kept() {
    let mut unsealed = packet("03000010 00000001 00000002 00000000");
    unsealed[8..12].fill(0);
    let policies = [
        Policy::new().with_zero_checksum(true),
        Policy::new().with_allowed_zero_checksum(true),
        Policy::new().with_any_checksum(true),
        Policy::new(),
    ];
    // (the word that it was checked with isn't compared)
    let of_word = |word| {
        let word = Word::from_crc32c(word);
        Packet::parse_with(&unsealed, word, policies[2]).unwrap().into_owned()
    };
    assert_eq!(of_word(0), of_word(7));
    let mut kept = [0; 4];
    for bytes in examples().into_iter().chain([unsealed.clone()]) {
        for (policy, kept) in policies.iter().zip(&mut kept) {
            let mut received = bytes.clone();
            let right = davgyuti::word(&received);
            let word = if policy.any_checksum { Word::from_crc32c(7) } else { right };
            let Ok(packet) = Packet::parse_with(&received, word, *policy) else { continue };
            let texts = (packet.to_text(), packet.to_report(), format!("{packet:?}"));
            let (canonical, owned) = (packet.to_canonical(), packet.into_owned());
            assert_eq!(owned, OwnedPacket::from(packet));
            // It outlives the bytes.
            received.fill(0xff);
            let again = owned.clone();
            let packet = again.as_packet();
            assert_eq!((packet.to_text(), packet.to_report(), format!("{owned:?}")), texts);
            assert_eq!((packet.to_canonical(), packet.as_bytes()), (canonical, &bytes[..]));
            assert_eq!((owned.as_bytes(), owned.as_ref()), (&bytes[..], &bytes[..]));
            *kept += 1;
        }
    }
    assert!(kept.iter().all(|&it| it > 0), "{kept:?}");
}
