// SPDX-License-Identifier: Apache-2.0
//! Reads packets by the crate davgyuti, and by a plain loop in safe Rust, which checks a packet first, or each chunk as it reads it;
//! bench/packages.py says what such a program does.
//!
//! usage: plain ROUNDS MILLIS FILE..

use davgyuti::{Content, Data, Fault, Init, Packet, Policy, Word};
use std::hint::black_box;
use std::time::Duration;

// ---- by the crate

fn sum_of_value(value: &[u8]) -> u64 {
    value.first().map_or(0, |first| value.len() as u64 + u64::from(*first))
}

fn sum_of_data(it: &Data) -> u64 {
    let numbers = [it.tsn, it.mid, it.fsn, it.ppid, it.stream.into(), it.ssn.into()];
    let bits = [it.is_unordered, it.is_beginning, it.is_end, it.immediate_ack];
    numbers.map(u64::from).iter().chain(&bits.map(u64::from)).sum::<u64>()
        + sum_of_value(it.payload)
}

fn sum_of_init(it: &Init) -> u64 {
    let streams = [it.outbound_streams, it.inbound_streams].map(u64::from);
    [it.initiate_tag, it.a_rwnd, it.initial_tsn].map(u64::from).iter().chain(&streams).sum()
}

fn sum_of_parameters(list: davgyuti::Parameters) -> u64 {
    list.map(|it| u64::from(it.parameter_type().0) + sum_of_value(it.value())).sum()
}

fn sum_of_causes(list: davgyuti::Causes) -> u64 {
    list.map(|it| u64::from(it.code().0) + sum_of_value(it.value())).sum()
}

fn sum_of_chunk(chunk: &davgyuti::Chunk) -> u64 {
    match chunk.content() {
        Content::Data(data) | Content::IData(data) => sum_of_data(&data),
        Content::Init(init, list) | Content::InitAck(init, list) => {
            sum_of_init(&init) + sum_of_parameters(list)
        }
        Content::Sack(sack) => {
            let blocks = sack.gap_ack_blocks().map(|it| u64::from(it.start) + u64::from(it.end));
            let duplicates = sack.duplicate_tsns().map(u64::from);
            u64::from(sack.cumulative_tsn_ack)
                + u64::from(sack.a_rwnd)
                + blocks.sum::<u64>()
                + duplicates.sum::<u64>()
        }
        Content::Heartbeat(list) | Content::HeartbeatAck(list) | Content::ReConfig(list) => {
            sum_of_parameters(list)
        }
        Content::Abort { causes, .. } | Content::Error(causes) => sum_of_causes(causes),
        Content::Shutdown { cumulative_tsn_ack } => cumulative_tsn_ack.into(),
        Content::ForwardTsn(it) | Content::IForwardTsn(it) => {
            let streams = it.skipped_streams().map(|it| {
                u64::from(it.stream)
                    + u64::from(it.ssn)
                    + u64::from(it.mid)
                    + u64::from(it.is_unordered)
            });
            u64::from(it.new_cumulative_tsn) + streams.sum::<u64>()
        }
        _ => sum_of_value(chunk.value()),
    }
}

fn sum_of_packet(packet: Result<Packet, Fault>) -> u64 {
    packet.map_or(0, |packet| {
        let chunks = packet.chunks();
        1 + chunks.map(|it| u64::from(it.chunk_type().0) + sum_of_chunk(&it)).sum::<u64>()
    })
}

/// The checksum isn't compared: the plain loops don't either.
fn by_the_crate(bytes: &[u8]) -> u64 {
    let any = Policy::new().with_any_checksum(true);
    sum_of_packet(Packet::parse_with(bytes, Word::default(), any))
}

unsafe extern "C" {
    /// What `word` calls without the feature `processor-crc32c`.
    fn dcsctp_word(bytes: *const u8, length: usize) -> u32;
}

fn verified_by_the_library(bytes: &[u8]) -> u64 {
    // SAFETY: it is a slice.
    let word = unsafe { dcsctp_word(bytes.as_ptr(), bytes.len()) };
    let word = Word::from_crc32c(word.swap_bytes());
    sum_of_packet(Packet::parse_with(bytes, word, Policy::new()))
}

/// The feature is on.
fn verified_by_the_processor(bytes: &[u8]) -> u64 {
    sum_of_packet(Packet::parse(bytes))
}

// ---- by a plain loop

fn u16_at(bytes: &[u8], at: usize) -> u64 {
    u16::from_be_bytes([bytes[at], bytes[at + 1]]).into()
}

fn u32_at(bytes: &[u8], at: usize) -> u64 {
    u32::from_be_bytes([bytes[at], bytes[at + 1], bytes[at + 2], bytes[at + 3]]).into()
}

/// Splits the first chunk, parameter or error cause off a list: without its padding, which the last one may lack.
fn split(list: &[u8]) -> Option<(&[u8], &[u8])> {
    let length = usize::from(u16::from_be_bytes([*list.get(2)?, *list.get(3)?]));
    let (item, rest) = list.split_at_checked(length).filter(|_| length >= 4)?;
    Some((item, rest.get(length.next_multiple_of(4) - length..).unwrap_or_default()))
}

/// Whether a value is one of a parameter's type (RFC 3758 section 3.1, RFC 6525 section 4, RFC 9653 section 4).
fn is_parameter(typ: u64, value: &[u8]) -> bool {
    match typ {
        13 => value.len() >= 12 && value.len() % 2 == 0,
        14 => value.len() >= 4 && value.len() % 2 == 0,
        16 => matches!(value.len(), 8 | 16) && u32_at(value, 4) <= 6,
        17 | 18 => value.len() == 8,
        15 | 0x8001 => value.len() == 4,
        0xc000 => value.is_empty(),
        _ => true,
    }
}

/// Whether a value is one of an error cause's code (RFC 9260 section 3.3.10).
fn is_cause(code: u64, value: &[u8]) -> bool {
    match code {
        2 => value.len() >= 4 && value.len() as u64 == 4 + 2 * u32_at(value, 0),
        9 => value.len() == 4,
        10 => value.is_empty(),
        _ => true,
    }
}

fn are_items(mut list: &[u8], is_item: fn(u64, &[u8]) -> bool) -> bool {
    while !list.is_empty() {
        match split(list) {
            Some((item, rest)) if is_item(u16_at(item, 0), &item[4..]) => list = rest,
            _ => return false,
        }
    }
    true
}

/// Whether a value is one of a chunk's type (RFC 3758 section 3.2, RFC 6525 section 3.1, RFC 8260 section 2, RFC 9260
/// section 3.3).
fn is_chunk(typ: u8, value: &[u8]) -> bool {
    let size = value.len();
    match typ {
        0 => size >= 12,
        64 => size >= 16,
        1 | 2 => size >= 16 && are_items(&value[16..], is_parameter),
        3 => size >= 12 && size as u64 == 12 + 4 * (u16_at(value, 8) + u16_at(value, 10)),
        4 | 5 | 130 => are_items(value, is_parameter),
        6 | 9 => are_items(value, is_cause),
        7 => size == 4,
        8 | 11 | 14 => size == 0,
        10 => size > 0,
        192 => size >= 4 && size % 4 == 0,
        194 => size >= 4 && size % 8 == 4,
        _ => true,
    }
}

fn is_packet(bytes: &[u8]) -> bool {
    if !(16..=65535).contains(&bytes.len()) {
        return false;
    }
    let mut list = &bytes[12..];
    while !list.is_empty() {
        match split(list) {
            Some((chunk, rest)) if is_chunk(chunk[0], &chunk[4..]) => list = rest,
            _ => return false,
        }
    }
    true
}

fn sum_of_list(mut list: &[u8]) -> u64 {
    let mut sum = 0;
    while let Some((item, rest)) = split(list) {
        sum += u16_at(item, 0) + sum_of_value(&item[4..]);
        list = rest;
    }
    sum
}

fn sum_of(typ: u8, flags: u8, value: &[u8]) -> u64 {
    let bits = (0..4).map(|bit| u64::from(flags >> bit & 1)).sum::<u64>();
    match typ {
        0 => {
            let numbers = u32_at(value, 0) + u16_at(value, 4) + u16_at(value, 6) + u32_at(value, 8);
            bits + numbers + sum_of_value(&value[12..])
        }
        64 => {
            let numbers =
                u32_at(value, 0) + u16_at(value, 4) + u32_at(value, 8) + u32_at(value, 12);
            bits + numbers + sum_of_value(&value[16..])
        }
        1 | 2 => {
            let numbers = u32_at(value, 0)
                + u32_at(value, 4)
                + u16_at(value, 8)
                + u16_at(value, 10)
                + u32_at(value, 12);
            numbers + sum_of_list(&value[16..])
        }
        3 => {
            let (blocks, duplicates) = value[12..].split_at(4 * u16_at(value, 8) as usize);
            let blocks =
                blocks.chunks_exact(4).map(|it| u16_at(it, 0) + u16_at(it, 2)).sum::<u64>();
            let duplicates = duplicates.chunks_exact(4).map(|it| u32_at(it, 0)).sum::<u64>();
            u32_at(value, 0) + u32_at(value, 4) + blocks + duplicates
        }
        4 | 5 | 6 | 9 | 130 => sum_of_list(value),
        7 => u32_at(value, 0),
        192 => {
            u32_at(value, 0)
                + value[4..].chunks_exact(4).map(|it| u16_at(it, 0) + u16_at(it, 2)).sum::<u64>()
        }
        194 => {
            let streams = value[4..].chunks_exact(8);
            u32_at(value, 0)
                + streams
                    .map(|it| u16_at(it, 0) + u64::from(it[3] & 1) + u32_at(it, 4))
                    .sum::<u64>()
        }
        _ => sum_of_value(value),
    }
}

fn by_a_plain_loop(bytes: &[u8]) -> u64 {
    if !is_packet(bytes) {
        return 0;
    }
    let (mut sum, mut list) = (1, &bytes[12..]);
    while let Some((chunk, rest)) = split(list) {
        sum += u64::from(chunk[0]) + sum_of(chunk[0], chunk[1], &chunk[4..]);
        list = rest;
    }
    sum
}

/// By a plain loop too, each chunk as soon as it is checked.
fn in_one_pass(bytes: &[u8]) -> u64 {
    if !(16..=65535).contains(&bytes.len()) {
        return 0;
    }
    let (mut sum, mut list) = (1, &bytes[12..]);
    while !list.is_empty() {
        match split(list) {
            Some((chunk, rest)) if is_chunk(chunk[0], &chunk[4..]) => {
                sum += u64::from(chunk[0]) + sum_of(chunk[0], chunk[1], &chunk[4..]);
                list = rest;
            }
            _ => return 0,
        }
    }
    sum
}

// ---- the clock

type Call = fn(&[u8]) -> u64;
const CALLS: [(&str, Call); 5] = [
    ("davgyuti", by_the_crate),
    ("plain loop", by_a_plain_loop),
    ("plain loop, one pass", in_one_pass),
    ("davgyuti, proved CRC32c", verified_by_the_library),
    ("davgyuti, processor's CRC32c", verified_by_the_processor),
];

fn load(file: &str) -> std::io::Result<Vec<Vec<u8>>> {
    let bytes = std::fs::read(file)?;
    let (mut packets, mut rest) = (vec![], &bytes[..]);
    while !rest.is_empty() {
        let (packet, others) = rest[4..].split_at(u32_at(rest, 0) as usize);
        packets.push(packet.to_vec());
        rest = others;
    }
    Ok(packets)
}

fn pass(call: Call, packets: &[Vec<u8>]) -> u64 {
    packets.iter().map(|it| call(black_box(it))).sum()
}

#[repr(C)]
struct Timespec {
    seconds: i64,
    nanoseconds: i64,
}

unsafe extern "C" {
    fn clock_gettime(clock: i32, time: *mut Timespec) -> i32;
}

/// Returns the processor's time.
fn clock() -> Duration {
    const CLOCK_PROCESS_CPUTIME_ID: i32 = 2;
    let mut time = Timespec { seconds: 0, nanoseconds: 0 };
    // SAFETY: Linux writes such a struct on 64-bit processors, and `time` is one.
    unsafe { clock_gettime(CLOCK_PROCESS_CPUTIME_ID, &raw mut time) };
    Duration::new(time.seconds as u64, time.nanoseconds as u32)
}

/// Returns the nanoseconds of a packet.
fn timed(call: Call, packets: &[Vec<u8>], least: Duration, sum: u64) -> f64 {
    let (begin, mut done) = (clock(), 0);
    loop {
        assert_eq!(pass(call, packets), sum);
        done += packets.len();
        let took = clock() - begin;
        if took >= least {
            return took.as_secs_f64() * 1e9 / done as f64;
        }
    }
}

fn main() -> std::io::Result<()> {
    let words: Vec<String> = std::env::args().collect();
    let [_, rounds, millis, files @ ..] = &words[..] else {
        eprintln!("usage: plain ROUNDS MILLIS FILE..");
        std::process::exit(2);
    };
    let (rounds, least) =
        (rounds.parse().unwrap_or(0), Duration::from_millis(millis.parse().unwrap_or(0)));
    for file in files {
        let packets = load(file)?;
        let sums = CALLS.map(|(_, call)| pass(call, &packets));
        let mut best = [f64::INFINITY; CALLS.len()];
        for _ in 0..rounds {
            for (which, (_, call)) in CALLS.iter().enumerate() {
                best[which] = f64::min(best[which], timed(*call, &packets, least, sums[which]));
            }
        }
        for (which, (name, _)) in CALLS.iter().enumerate() {
            println!("{file}\t{name}\t{}\t{:.2}", sums[which], best[which]);
        }
    }
    Ok(())
}
