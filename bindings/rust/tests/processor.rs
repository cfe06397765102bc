// SPDX-License-Identifier: Apache-2.0
//! What the processor's instruction computes is what the library does, on random packets of every size.
#![cfg(feature = "processor-crc32c")]

mod common;

unsafe extern "C" {
    // (the library's, which the crate's `word` and `seal` then don't call)
    fn dcsctp_word(bytes: *const u8, length: usize) -> u32;
    fn dcsctp_seal(packet: *mut u8, length: usize) -> u32;
}

fn random(chance: &mut common::Chance, length: usize) -> Vec<u8> {
    (0..length).map(|_| chance.byte()).collect()
}

fn compare(packet: &[u8]) {
    if packet.len() >= 12 {
        // SAFETY: it is a slice.
        let proved = unsafe { dcsctp_word(packet.as_ptr(), packet.len()) };
        assert_eq!(davgyuti::word(packet).checksum(), proved, "{} bytes", packet.len());
    }
    let (mut one, mut other) = (packet.to_vec(), packet.to_vec());
    // SAFETY: it is a slice.
    let proved = unsafe { dcsctp_seal(other.as_mut_ptr(), other.len()) };
    assert_eq!(davgyuti::seal(&mut one).is_ok(), proved == 0);
    assert_eq!(one, other);
}

#[test]
fn same_word_of_every_size() {
    let mut chance = common::Chance(88);
    for length in 0..=12 + 3 * 1536 + 100 {
        let at = chance.below(8);
        compare(&random(&mut chance, at + length)[at..]);
    }
    for _ in 0..200 {
        let length = chance.below(65_536);
        compare(&random(&mut chance, length));
    }
}
