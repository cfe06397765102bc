// SPDX-License-Identifier: Apache-2.0
//! Reads a file of packets in hexadecimal, one a line. Prints the chunks of each, its text, and the
//! packet that answers it.
//!
//! usage: cargo run --example show FILE

use davgyuti::{Chunk, Content, Fault, Init, Packet, PacketBuilder, ParameterType};
use std::error::Error;
use std::fmt::{self, Write};

/// This side of the association.
const OWN: Init = Init {
    initiate_tag: 0x0da7_3798,
    a_rwnd: 0x2_0000,
    outbound_streams: 4,
    inbound_streams: 4,
    initial_tsn: 0x66e3_87ab,
};

/// Bytes that are shown in hexadecimal.
struct Hex<'a>(&'a [u8]);

impl fmt::Display for Hex<'_> {
    fn fmt(&self, f: &mut fmt::Formatter<'_>) -> fmt::Result {
        self.0.iter().try_for_each(|byte| write!(f, "{byte:02x}"))
    }
}

fn show_chunk(chunk: &Chunk, text: &mut String) -> fmt::Result {
    let (number, value) = (chunk.chunk_type().0, chunk.value());
    writeln!(text, "  chunk {number}, flags {}, {} bytes", chunk.flags(), value.len())?;
    match chunk.content() {
        Content::Data(data) | Content::IData(data) => {
            let (tsn, stream, ssn, mid) = (data.tsn, data.stream, data.ssn, data.mid);
            write!(text, "    tsn {tsn}, stream {stream}, ssn {ssn}, mid {mid}, ")?;
            let [u, b, e, i] =
                [data.is_unordered, data.is_beginning, data.is_end, data.immediate_ack]
                    .map(u8::from);
            writeln!(text, "fsn {}, ppid {}, U {u}, B {b}, E {e}, I {i}", data.fsn, data.ppid)?;
            writeln!(text, "    payload {}", Hex(data.payload))?;
        }
        Content::Sack(sack) => {
            let (tsn, a_rwnd) = (sack.cumulative_tsn_ack, sack.a_rwnd);
            write!(text, "    cumulative tsn {tsn}, a_rwnd {a_rwnd}\n    blocks")?;
            for block in sack.gap_ack_blocks() {
                write!(text, " {}-{}", block.start, block.end)?;
            }
            write!(text, "\n    duplicates")?;
            for tsn in sack.duplicate_tsns() {
                write!(text, " {tsn}")?;
            }
            writeln!(text)?;
        }
        _ => {}
    }
    let parameters = chunk.parameters().map(|it| (it.parameter_type().0, it.value()));
    let causes = chunk.causes().map(|it| (it.code().0, it.value()));
    for (number, value) in parameters.chain(causes) {
        writeln!(text, "    item {number}, {} bytes", value.len())?;
    }
    Ok(())
}

/// The answer to a packet: INIT ACK to an INIT, a SACK to DATA. `peer_tag` is the tag of the other
/// side, which its INIT asks for. A SACK goes under that tag (RFC 9260 section 8.5), so this
/// program takes it that there is one association, whose INIT comes before its DATA.
fn answer<'a>(packet: &Packet, peer_tag: &mut u32, reply: &'a mut [u8]) -> Option<&'a [u8]> {
    let (header, chunk) = (packet.header(), packet.chunks().next()?);
    let (source, destination) = (header.destination_port, header.source_port);
    match chunk.content() {
        Content::Init(init, _) => {
            let is_alone = packet.chunks().count() == 1;
            if header.verification_tag != 0 || !is_alone || init.initiate_tag == 0 {
                return None;
            }
            *peer_tag = init.initiate_tag;
            let mut packet = PacketBuilder::begin(reply, source, destination, *peer_tag).ok()?;
            packet.init_ack(&OWN).ok()?.parameter(ParameterType::STATE_COOKIE, b"abcd").ok()?;
            Some(packet.seal())
        }
        Content::Data(data) | Content::IData(data) => {
            if header.verification_tag != OWN.initiate_tag {
                return None;
            }
            let mut packet = PacketBuilder::begin(reply, source, destination, *peer_tag).ok()?;
            packet.sack(data.tsn, OWN.a_rwnd, &[], &[]).ok()?;
            Some(packet.seal())
        }
        _ => None,
    }
}

fn show_packet(bytes: &[u8], peer_tag: &mut u32, text: &mut String) -> Result<(), Box<dyn Error>> {
    writeln!(text, "packet of {} bytes", bytes.len())?;
    let packet = match Packet::parse(bytes) {
        Ok(packet) => packet,
        Err(Fault { kind, offset }) => {
            writeln!(text, "  fault {} at byte {offset}", kind.code())?;
            return Ok(());
        }
    };
    for chunk in packet.chunks() {
        show_chunk(&chunk, text)?;
    }
    writeln!(text, "{packet}")?;
    if let Some(reply) = answer(&packet, peer_tag, &mut [0; 1200]) {
        writeln!(text, "  answer {}", Hex(reply))?;
    }
    Ok(())
}

/// The bytes of a line in hexadecimal.
fn bytes_of(line: &str) -> Result<Vec<u8>, Box<dyn Error>> {
    let digits = line.as_bytes().chunks(2).map(std::str::from_utf8);
    digits.map(|it| Ok(u8::from_str_radix(it?, 16)?)).collect()
}

/// Shows packets that stand in hexadecimal, one a line.
fn show(lines: &str) -> Result<String, Box<dyn Error>> {
    let (mut text, mut peer_tag) = (String::new(), 0);
    for line in lines.lines().filter(|it| !it.is_empty() && !it.starts_with('#')) {
        show_packet(&bytes_of(line)?, &mut peer_tag, &mut text)?;
    }
    Ok(text)
}

fn main() -> Result<(), Box<dyn Error>> {
    let name = std::env::args().nth(1).ok_or("usage: show FILE")?;
    print!("{}", show(&std::fs::read_to_string(name)?)?);
    Ok(())
}

#[cfg(test)]
mod tests {
    #[test]
    fn shows_what_is_expected() {
        // (of the package, or of the repository around it)
        let is_here = std::path::Path::new("examples/packets.txt").exists();
        let folder = if is_here { "examples" } else { "../../examples" };
        let read = |name| std::fs::read_to_string(format!("{folder}/{name}")).unwrap();
        assert_eq!(super::show(&read("packets.txt")).unwrap(), read("expected.txt"));
    }
}
