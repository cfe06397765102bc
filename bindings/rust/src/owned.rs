// SPDX-License-Identifier: Apache-2.0
//! Chunks and packets that are kept.

use crate::chunk::{Chunk, same_bytes};
use crate::packet::{Packet, Word};
use crate::values::Policy;
use alloc::boxed::Box;
use core::fmt;

/// A chunk with bytes of its own (RFC 9260 section 3.2): to keep it for longer than its packet, for
/// retransmission or reassembly.
///
/// It has the chunk's type, flags and value, and neither its padding nor its place: its
/// [offset](Chunk::offset) is 0. It needs the feature `alloc`, and takes its memory from the
/// program's allocator alone. Where there is none left, the program ends, as with any `Box`.
/// [`PacketBuilder::copy`](crate::PacketBuilder::copy) writes it again.
///
/// ```
/// # let bytes = *b"\0\x01\0\x02\0\0\0\x03\0\0\0\0\x0a\0\0\x07abc\0";
/// # let packet = davgyuti::Chunks::of(&bytes);
/// let kept: Vec<davgyuti::OwnedChunk> = packet.map(|chunk| chunk.into_owned()).collect();
/// assert_eq!(kept[0].as_chunk().value(), b"abc");
/// ```
#[derive(Clone, PartialEq, Eq, Hash)]
pub struct OwnedChunk(Box<[u8]>);

impl OwnedChunk {
    /// Returns the chunk, in a time that doesn't depend on its size.
    #[must_use]
    #[allow(clippy::missing_panics_doc)] // it was read before
    pub fn as_chunk(&self) -> Chunk<'_> {
        Chunk::at(&self.0, 0).expect("a chunk's bytes begin with it")
    }
}

impl From<Chunk<'_>> for OwnedChunk {
    fn from(chunk: Chunk<'_>) -> Self {
        Self(chunk.as_bytes().into())
    }
}

/// As of [`Chunk`].
impl fmt::Debug for OwnedChunk {
    fn fmt(&self, f: &mut fmt::Formatter<'_>) -> fmt::Result {
        self.as_chunk().fmt(f)
    }
}

/// A packet with bytes of its own (RFC 9260 section 3): it was checked, and isn't checked again.
///
/// It needs the feature `alloc`, and takes its memory as [`OwnedChunk`] does. `==` and [`Hash`] are
/// of the bytes alone.
///
/// ```
/// # let bytes = *b"\x13\x88\x13\x88\x4d\x2d\xf5\x2d\x67\xdb\x78\xb5\x0b\0\0\x04";
/// let kept: davgyuti::OwnedPacket = davgyuti::Packet::parse(&bytes)?.into_owned();
/// assert_eq!(kept.as_packet().header().verification_tag, 0x4d2d_f52d);
/// # Ok::<(), davgyuti::Fault>(())
/// ```
#[derive(Clone)]
pub struct OwnedPacket {
    bytes: Box<[u8]>,
    word: Word,
    policy: Policy,
}

same_bytes!(OwnedPacket);

impl OwnedPacket {
    /// Returns the packet, in a time that doesn't depend on its size.
    #[must_use]
    pub fn as_packet(&self) -> Packet<'_> {
        let Self { bytes, word, policy } = self;
        Packet { bytes, word: *word, policy: *policy }
    }

    /// Returns the bytes.
    #[must_use]
    pub fn as_bytes(&self) -> &[u8] {
        &self.bytes
    }
}

impl From<Packet<'_>> for OwnedPacket {
    fn from(packet: Packet<'_>) -> Self {
        let Packet { bytes, word, policy } = packet;
        Self { bytes: bytes.into(), word, policy }
    }
}

impl AsRef<[u8]> for OwnedPacket {
    fn as_ref(&self) -> &[u8] {
        &self.bytes
    }
}

/// As of [`Packet`].
impl fmt::Debug for OwnedPacket {
    fn fmt(&self, f: &mut fmt::Formatter<'_>) -> fmt::Result {
        self.as_packet().fmt(f)
    }
}
