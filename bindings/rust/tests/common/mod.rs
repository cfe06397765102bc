// SPDX-License-Identifier: Apache-2.0
//! What the tests have in common. No file needs all of it.
#![allow(dead_code)]

use std::path::Path;

/// The bytes of hexadecimal digits; blanks are ignored.
pub fn bytes(digits: &str) -> Vec<u8> {
    let digits: Vec<char> = digits.chars().filter(|it| !it.is_whitespace()).collect();
    digits.chunks(2).map(|it| u8::from_str_radix(&String::from_iter(it), 16).unwrap()).collect()
}

/// The CRC32c of a packet (RFC 9260 appendix A), over zeros in the checksum field, bit by bit.
pub fn crc32c(packet: &[u8]) -> u32 {
    let zeroed =
        packet.iter().enumerate().map(|(i, &it)| if (8..12).contains(&i) { 0 } else { it });
    !zeroed.fold(!0, |crc, byte| {
        (0..8).fold(crc ^ u32::from(byte), |crc, _| (crc >> 1) ^ (0x82f6_3b78 * (crc & 1)))
    })
}

/// The packet with its CRC32c, least significant byte first (RFC 9260 section 6.8).
pub fn sealed(mut packet: Vec<u8>) -> Vec<u8> {
    let crc = crc32c(&packet);
    packet[8..12].copy_from_slice(&crc.to_le_bytes());
    packet
}

/// The packet from port 1 to port 2 under tag 3 with these chunks, sealed.
pub fn packet(chunks: &str) -> Vec<u8> {
    sealed([bytes("0001 0002 00000003 00000000"), bytes(chunks)].concat())
}

/// A file that the repository's packages share: of the package, or of the repository around it.
pub fn shared(path: &str) -> String {
    let places = [".", "../.."].map(|it| Path::new(env!("CARGO_MANIFEST_DIR")).join(it).join(path));
    std::fs::read_to_string(places.iter().find(|it| it.exists()).expect(path)).unwrap()
}

/// The packets of `examples/packets.txt`.
pub fn examples() -> Vec<Vec<u8>> {
    let text = shared("examples/packets.txt");
    let lines = text.lines();
    lines.filter(|it| !it.is_empty() && !it.starts_with('#')).map(bytes).collect()
}

/// The chunks of registry/vectors that are alone in their packet, with their padding.
pub fn chunks() -> Vec<Vec<u8>> {
    let lines = shared("registry/vectors/kinds.jsonl");
    let accepted = lines.lines().filter(|it| !it.contains("\"fault\""));
    let found = accepted.map(|it| bytes(it.split('"').nth(3).unwrap()));
    let is_alone = |it: &Vec<u8>| {
        it.len() == usize::from(u16::from_be_bytes([it[2], it[3]])).next_multiple_of(4)
    };
    found.filter(is_alone).collect()
}

const TYPES: [u8; 15] = [0, 1, 2, 3, 4, 5, 6, 7, 9, 10, 14, 64, 130, 192, 194];

/// Numbers that look random: xorshift64*.
pub struct Chance(pub u64);

impl Chance {
    pub fn below(&mut self, end: usize) -> usize {
        self.0 ^= self.0 >> 12;
        self.0 ^= self.0 << 25;
        self.0 ^= self.0 >> 27;
        usize::try_from(self.0.wrapping_mul(0x2545_f491_4f6c_dd1d) >> 33).unwrap() % end
    }

    pub fn byte(&mut self) -> u8 {
        u8::try_from(self.below(256)).unwrap()
    }

    /// An example, or a packet of a chunk, with changes.
    pub fn packet(&mut self, examples: &[Vec<u8>], chunks: &[Vec<u8>]) -> Vec<u8> {
        let mut packet = match self.below(2) {
            0 => examples[self.below(examples.len())].clone(),
            _ => [&[0; 12], &chunks[self.below(chunks.len())][..]].concat(),
        };
        self.change(&mut packet, chunks);
        packet
    }

    /// Changes some bytes, or how many there are.
    fn change(&mut self, packet: &mut Vec<u8>, chunks: &[Vec<u8>]) {
        for _ in 0..self.below(4) {
            if packet.len() <= 16 {
                packet.resize(16, 0);
            }
            let at = 12 + self.below(packet.len() - 12);
            match self.below(6) {
                0 => packet.extend(&chunks[self.below(chunks.len())]),
                1 => packet[at] = self.byte(),
                2 => packet[at] ^= 1 << self.below(8),
                3 => packet.truncate(at),
                4 => packet[at & !3] = TYPES[self.below(15)],
                _ => {
                    let more = (0..self.below(9)).map(|_| self.byte()).collect::<Vec<_>>();
                    packet.splice(at..at, more);
                }
            }
        }
    }
}
