// SPDX-License-Identifier: Apache-2.0
//! The last chunk of a packet that is written, and what is taken back.

mod common;

use common::bytes;
use davgyuti::{
    CauseCode, ChunkType, Data, Init, PacketBuilder, ParameterType, ReConfig, WriteError,
};

/// The packet without its checksum.
fn unsealed(chunks: &str) -> Vec<u8> {
    [bytes("0001 0002 00000003 00000000"), bytes(chunks)].concat()
}

/// Adds to the list of the last chunk.
fn add_to_last(packet: &mut PacketBuilder) -> Result<(), WriteError> {
    packet.last_chunk()?.parameter(ParameterType(0x4444), b"ab").map(|_| ())
}

/// A method that adds a chunk.
type Add = fn(&mut PacketBuilder) -> Result<(), WriteError>;

/// Each method makes its chunk the last one: what is added to it lies behind it, and its length
/// grows by 6 and its padding.
#[test]
fn each_chunk_is_the_last_one() {
    let methods: [Add; 8] = [
        |it| it.data(&Data::default()).map(|_| ()),
        |it| it.sack(1, 2, &[], &[3]).map(|_| ()),
        |it| it.init(&Init::default()).map(|_| ()),
        |it| it.cookie_echo(b"abc").map(|_| ()),
        |it| it.heartbeat(b"abc").map(|_| ()),
        |it| it.abort(false, "abcd").map(|_| ()),
        |it| it.error().map(|_| ()),
        |it| it.shutdown_complete(true).map(|_| ()),
    ];
    for add in methods {
        let mut buffer = [0; 200];
        let mut packet = PacketBuilder::begin(&mut buffer, 1, 2, 3).unwrap();
        packet.shutdown(9).unwrap();
        add(&mut packet).unwrap();
        let mut expected = packet.as_bytes().to_vec();
        let start = packet.last_chunk().unwrap().offset();
        let length = u16::try_from(expected.len() - start + 6).unwrap();
        expected[start + 2..start + 4].copy_from_slice(&length.to_be_bytes());
        expected.extend(bytes("44440006 61620000"));
        add_to_last(&mut packet).unwrap();
        assert_eq!(packet.as_bytes(), expected);
        let size = packet.size();
        // Of a packet that is resumed, the last chunk is looked for.
        let mut packet = PacketBuilder::resume(&mut buffer, size).unwrap();
        assert_eq!(packet.last_chunk().unwrap().offset(), start);
    }
}

/// Where there is no chunk, or none that ends the packet.
#[test]
fn no_last_chunk() {
    let mut buffer = [0; 100];
    let mut packet = PacketBuilder::begin(&mut buffer, 1, 2, 3).unwrap();
    assert_eq!(packet.last_chunk().unwrap_err(), WriteError::BadPlace);
    // (a chunk that had no room isn't there)
    assert_eq!(packet.cookie_echo(&[0; 100]).unwrap_err(), WriteError::NoRoom);
    assert_eq!(packet.last_chunk().unwrap_err(), WriteError::BadPlace);
    packet.cookie_ack().unwrap();
    assert_eq!(packet.cookie_echo(&[0; 100]).unwrap_err(), WriteError::NoRoom);
    assert_eq!(packet.last_chunk().unwrap().offset(), 12);
    for chunks in ["0b000003", "0b000004 0b000005", "0b000004 0a000009 61626364"] {
        let mut bytes = unsealed(chunks);
        let size = bytes.len();
        let mut packet = PacketBuilder::resume(&mut bytes, size).unwrap();
        assert_eq!(packet.last_chunk().unwrap_err(), WriteError::BadPlace, "{chunks}");
        assert_eq!(packet.as_bytes(), unsealed(chunks));
    }
}

/// The payload of a DATA chunk that looks like a chunk which ends the packet isn't one.
#[test]
fn no_chunk_within_a_payload() {
    let mut buffer = [0; 100];
    let mut packet = PacketBuilder::begin(&mut buffer, 1, 2, 3).unwrap();
    packet.data(&Data { payload: &[0x82, 0, 0, 4], ..Data::default() }).unwrap();
    assert_eq!(packet.last_chunk().unwrap().offset(), 12);
    let size = packet.size();
    let mut packet = PacketBuilder::resume(&mut buffer, size).unwrap();
    assert_eq!(packet.last_chunk().unwrap().offset(), 12);
}

/// What is added to the list of a chunk that was there before is taken back too: its length, and its
/// padding, which was written as zeros.
#[test]
fn lists_are_taken_back() {
    let chunks = "0b000004 0a000005 61010203";
    let mut buffer = [unsealed(chunks), vec![0xaa; 40]].concat();
    for resumed in [12 + 4, 12 + 4 + 8] {
        let expected = buffer[..resumed].to_vec();
        let mut packet = PacketBuilder::resume(&mut buffer, resumed).unwrap();
        let added = packet.all_or_nothing(|it| {
            add_to_last(it)?;
            it.cookie_ack()?;
            add_to_last(it)?;
            Err::<(), _>(WriteError::BadValue)
        });
        assert_eq!((added, packet.as_bytes()), (Err(WriteError::BadValue), &expected[..]));
        buffer[..24].copy_from_slice(&unsealed(chunks));
    }
}

#[test]
fn all_or_nothing_goes_on() {
    let mut buffer = [0; 100];
    let mut packet = PacketBuilder::begin(&mut buffer, 1, 2, 3).unwrap();
    packet.all_or_nothing(|it| it.error().map(|_| ())).unwrap();
    packet.last_chunk().unwrap().cause(CauseCode::OUT_OF_RESOURCE, &[]).unwrap();
    let failed = packet.all_or_nothing(|it| {
        it.cookie_ack()?;
        it.cookie_echo(&[0; 100]).map(|_| ())
    });
    assert_eq!(failed, Err(WriteError::NoRoom));
    packet.last_chunk().unwrap().cause(CauseCode::OUT_OF_RESOURCE, &[]).unwrap();
    assert_eq!(packet.seal(), common::packet("0900000c 00040004 00040004"));
}

/// Another builder can't be put in the place of the one that the closure gets: neither a larger one,
/// nor one of the same size.
#[test]
fn no_other_builder() {
    for size in [32, 1200] {
        let mut buffer = [0; 32];
        let mut packet = PacketBuilder::begin(&mut buffer, 1, 2, 3).unwrap();
        packet.cookie_ack().unwrap();
        for is_added in [true, false] {
            let added = packet.all_or_nothing(|it| {
                it.cookie_ack()?;
                let other: &'static mut [u8] = vec![0; size].leak();
                let mut other = PacketBuilder::begin(other, 7, 8, 9)?;
                other.chunk(ChunkType(77), 0, &vec![1; size - 16])?;
                *it = other;
                if is_added { Ok(()) } else { Err(WriteError::NoRoom) }
            });
            let error = if is_added { WriteError::BadPlace } else { WriteError::NoRoom };
            assert_eq!((added, packet.room()), (Err(error), 16));
            assert_eq!(packet.as_bytes(), unsealed("0b000004"));
        }
        packet.cookie_ack().unwrap();
        assert_eq!(packet.seal(), common::packet("0b000004 0b000004"));
    }
}

/// Streams that don't tell their number: what `length` says is wrong.
struct Lying<T> {
    streams: T,
    length: usize,
}

impl<T: Iterator<Item = u16>> Iterator for Lying<T> {
    type Item = u16;

    fn next(&mut self) -> Option<u16> {
        self.streams.next()
    }

    fn size_hint(&self) -> (usize, Option<usize>) {
        (self.length, Some(self.length))
    }
}

impl<T: Iterator<Item = u16>> ExactSizeIterator for Lying<T> {}

/// The requests that have streams (RFC 6525 sections 4.1 and 4.2), with these, after a RE-CONFIG's
/// header; or why there is none.
fn with_streams<T: Iterator<Item = u16>>(
    streams: impl Fn() -> T,
    length: usize,
) -> [Result<Vec<u8>, WriteError>; 2] {
    let [outgoing, incoming] = [streams(), streams()].map(|streams| Lying { streams, length });
    let (request_number, response_number, last_tsn) = (1, 2, 3);
    [
        ReConfig::OutgoingSsnReset { request_number, response_number, last_tsn, streams: outgoing },
        ReConfig::IncomingSsnReset { request_number, streams: incoming },
    ]
    .map(|request| {
        let mut buffer = [0xaa; 100];
        let mut packet = PacketBuilder::begin(&mut buffer, 1, 2, 3).unwrap();
        let mut chunk = packet.re_config().unwrap();
        let write = std::panic::AssertUnwindSafe(|| chunk.re_config_from(request).map(|_| ()));
        let written = std::panic::catch_unwind(write).unwrap_or(Ok(()));
        assert!(written.is_ok() || packet.size() == 16);
        written.map(|()| packet.as_bytes()[16..].to_vec())
    })
}

/// No byte that was in the buffer is sent, whatever a list of streams says of itself.
#[test]
fn streams_of_a_wrong_length() {
    let outgoing = |digits| Ok(bytes(&["000d0016 00000001 00000002 00000003", digits].concat()));
    let incoming = |digits| Ok(bytes(&["000e000e 00000001", digits].concat()));
    let refused = |error| [Err(error), Err(error)];
    let both = |digits| [outgoing(digits), incoming(digits)];
    assert_eq!(with_streams(|| 7..10, 3), both("000700080009 0000"));
    assert_eq!(with_streams(|| 7..8, 3), both("000700000000 0000"));
    assert_eq!(with_streams(|| 7..20, 3), both("000700080009 0000"));
    let panicking = || (7..10).inspect(|&it| assert_ne!(it, 8, "on purpose"));
    assert_eq!(with_streams(panicking, 3), both("000700000000 0000"));
    for length in [0x7ffd, 1 << 16, usize::MAX / 2 + 1, usize::MAX] {
        assert_eq!(with_streams(|| 7..10, length), refused(WriteError::BadValue), "{length}");
    }
    assert_eq!(with_streams(|| 7..10, 0x7000), refused(WriteError::NoRoom));
}

/// Writes a packet with COOKIE ACK into a buffer, which has to be of zeros.
#[cfg(feature = "alloc")]
fn cookie_ack(buffer: &mut [u8]) -> Result<&mut [u8], WriteError> {
    assert!(buffer.iter().all(|&it| it == 0));
    let mut packet = PacketBuilder::begin(buffer, 1, 2, 3)?;
    packet.cookie_ack()?;
    Ok(packet.seal())
}

/// Packets one after the other, and nothing where one isn't written.
#[cfg(feature = "alloc")]
#[test]
fn a_vec_grows() {
    let mut output = b"before".to_vec();
    PacketBuilder::append(&mut output, 1200, cookie_ack).unwrap();
    PacketBuilder::append(&mut output, 16, cookie_ack).unwrap();
    let one = common::packet("0b000004");
    let expected = [b"before", &one[..], &one].concat();
    assert_eq!(output, expected);
    let refused = |limit: usize, error, write: fn(&mut [u8]) -> Result<&mut [u8], WriteError>| {
        let mut output = output.clone();
        assert_eq!(PacketBuilder::append(&mut output, limit, write), Err(error));
        assert_eq!(output, expected);
    };
    refused(15, WriteError::NoRoom, cookie_ack);
    refused(0, WriteError::NoRoom, cookie_ack);
    refused(1200, WriteError::BadValue, |buffer| {
        cookie_ack(buffer)?;
        Err(WriteError::BadValue)
    });
    // Not the front of the bytes that were given.
    refused(1200, WriteError::BadPlace, |buffer| cookie_ack(&mut buffer[4..]));
    refused(1200, WriteError::BadPlace, |_| Ok(vec![0; 16].leak()));
    PacketBuilder::append(&mut output, usize::MAX, |buffer| Ok(buffer)).unwrap();
    assert_eq!(output.len(), expected.len() + davgyuti::MAX_PACKET);
}

/// A `Write` gets a packet in one piece; errors are those of `std::io`, and keep what they are.
#[cfg(feature = "std")]
#[test]
fn packets_to_a_write() {
    use davgyuti::{Fault, Packet};
    use std::io::{Error, ErrorKind, Write};

    #[derive(Default)]
    struct Records(Vec<Vec<u8>>);

    impl Write for Records {
        fn write(&mut self, bytes: &[u8]) -> Result<usize, Error> {
            self.0.push(bytes.to_vec());
            Ok(bytes.len())
        }

        fn flush(&mut self) -> Result<(), Error> {
            Ok(())
        }
    }

    let mut records = Records::default();
    PacketBuilder::write_to(&mut records, 1200, cookie_ack).unwrap();
    let error = PacketBuilder::write_to(&mut records, 15, cookie_ack).unwrap_err();
    assert_eq!(error.kind(), ErrorKind::InvalidInput);
    assert_eq!(error.downcast::<WriteError>().unwrap(), WriteError::NoRoom);
    assert_eq!(records.0, [common::packet("0b000004")]);
    let full = PacketBuilder::write_to(&mut &mut [0; 15][..], 1200, cookie_ack).unwrap_err();
    assert_eq!(full.kind(), ErrorKind::WriteZero);
    let fault = Packet::parse(b"").unwrap_err();
    let error = Error::from(fault);
    assert_eq!((error.kind(), error.to_string()), (ErrorKind::InvalidData, fault.to_string()));
    assert_eq!(error.downcast::<Fault>().unwrap(), fault);
}
