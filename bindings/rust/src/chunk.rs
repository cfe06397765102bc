// SPDX-License-Identifier: Apache-2.0
//! Chunks, where they lie.

use crate::debug::{Bytes, list_of_items};
#[cfg(feature = "alloc")]
use crate::error::{Fault, FaultKind};
use crate::ffi;
use crate::items::{Causes, Parameters};
use crate::kinds::{Content, Sack};
#[cfg(feature = "alloc")]
use crate::owned::OwnedChunk;
#[cfg(feature = "alloc")]
use crate::packet::{Word, first_fault};
use crate::registered::RegisteredChunk;
use crate::types::ChunkType;
#[cfg(feature = "alloc")]
use crate::values::Policy;
use core::fmt;
use core::iter::FusedIterator;

/// The offset of a packet's first chunk: the size of the common header (RFC 9260 section 3.1).
pub const FIRST_CHUNK: usize = 12;

/// The size of the header of a chunk (RFC 9260 section 3.2), a parameter (section 3.2.1) or an
/// error cause (section 3.3.10).
pub(crate) const HEADER: usize = 4;

/// Calls a function that reads a value of the rest of the registry.
macro_rules! read {
    ($it:expr, $function:ident) => {{
        let (bytes, raw) = ($it.bytes, $it.raw());
        let (start, length) = (bytes.as_ptr(), bytes.len());
        // SAFETY: `bytes` is a slice, `raw` a value here, and `found` a reference.
        crate::ffi::read(|found| unsafe {
            crate::ffi::$function(start, length, &raw const raw, found)
        })
        .map(|fields| crate::raw::Read { bytes, fields })
    }};
}
pub(crate) use read;

/// Returns what the header at an offset of a packet begins with, the value after it, and where the
/// next one begins: of a chunk, a parameter or an error cause.
#[inline]
pub(crate) fn split(bytes: &[u8], offset: usize) -> Option<([u8; 2], &[u8], usize)> {
    let rest = bytes.get(offset..)?;
    let &[first, second, high, low] = rest.first_chunk()?;
    let length = usize::from(u16::from_be_bytes([high, low]));
    let next = offset + length.next_multiple_of(4);
    // (the last one may lack its padding)
    Some(([first, second], rest.get(HEADER..length)?, next.min(bytes.len())))
}

/// Has `==` and `Hash` look at what `as_bytes` returns, and at nothing else.
macro_rules! same_bytes {
    ($name:ty) => {
        impl PartialEq for $name {
            fn eq(&self, other: &Self) -> bool {
                self.as_bytes() == other.as_bytes()
            }
        }

        impl Eq for $name {}

        impl core::hash::Hash for $name {
            fn hash<H: core::hash::Hasher>(&self, state: &mut H) {
                self.as_bytes().hash(state);
            }
        }
    };
}
pub(crate) use same_bytes;

/// A chunk (RFC 9260 section 3.2), where it lies in a packet's bytes.
///
/// `==` and [`Hash`] are of the type, the flags and the value: where the chunk lies, in which
/// packet, and its padding don't matter.
///
/// ```
/// use davgyuti::{Chunk, ChunkType};
///
/// // A common header, and a COOKIE ECHO.
/// let bytes = *b"\0\x01\0\x02\0\0\0\x03\0\0\0\0\x0a\0\0\x07abc\0";
/// let chunk = Chunk::at(&bytes, 12).unwrap();
/// assert_eq!((chunk.chunk_type(), chunk.flags()), (ChunkType::COOKIE_ECHO, 0));
/// assert_eq!((chunk.value(), chunk.as_bytes()), (&b"abc"[..], &b"\x0a\0\0\x07abc"[..]));
/// assert_eq!((chunk.offset(), chunk.next_offset()), (12, 12 + 4 + 3 + 1));
/// assert!(chunk.parameters().next().is_none() && chunk.causes().next().is_none());
/// ```
#[derive(Clone, Copy)]
pub struct Chunk<'a> {
    bytes: &'a [u8],
    r#type: ChunkType,
    flags: u8,
    offset: usize,
    value: &'a [u8],
    next: usize,
}

// The header and the value: the length between them is that of the value.
same_bytes!(Chunk<'_>);

impl<'a> Chunk<'a> {
    /// Reads the chunk at an offset of any bytes, checked or not; none where no whole chunk is (RFC
    /// 9260 section 3.2).
    #[doc(alias = "dcsctp_chunk_at")]
    #[must_use]
    #[inline]
    pub fn at(bytes: &'a [u8], offset: usize) -> Option<Self> {
        let ([number, flags], value, next) = split(bytes, offset)?;
        Some(Self { bytes, r#type: ChunkType(number), flags, offset, value, next })
    }

    /// Checks bytes that have to be one chunk, without a packet around it, and with or without its
    /// padding: as SDP has an INIT in `a=sctp-init`, and the cause Unrecognized Chunk Type any chunk
    /// (RFC 9260 section 3.3.10.6). [`as_bytes`](Self::as_bytes) writes it. This needs the feature
    /// `alloc`, for a packet that is put around it.
    ///
    /// ```
    /// use davgyuti::{Chunk, Fault, FaultKind};
    ///
    /// assert_eq!(Chunk::parse(b"\x0a\0\0\x07abc")?.value(), b"abc");
    /// // Two chunks.
    /// let fault = Fault { kind: FaultKind::Length, offset: 4 };
    /// assert_eq!(Chunk::parse(b"\x0b\0\0\x04\x0b\0\0\x04"), Err(fault));
    /// # Ok::<(), Fault>(())
    /// ```
    ///
    /// # Errors
    /// The first fault, whose offset is into these bytes; [`FaultKind::Length`] where the chunk ends
    /// if something follows it.
    #[cfg(feature = "alloc")]
    pub fn parse(bytes: &'a [u8]) -> Result<Self, Fault> {
        let chunk = Self::at(bytes, 0);
        // (no chunk is longer than these)
        let end = chunk.map_or(bytes.len().min(0x1_0000), |it| it.next_offset());
        let packet = [&[0; FIRST_CHUNK], &bytes[..end]].concat();
        if let Some(it) =
            first_fault(&packet, Word::default(), Policy::new().with_any_checksum(true))
        {
            return Err(Fault { offset: it.offset - FIRST_CHUNK, ..it });
        }
        let behind = Fault { kind: FaultKind::Length, offset: end };
        chunk.filter(|_| end == bytes.len()).ok_or(behind)
    }

    /// Returns the type (RFC 9260 section 3.2).
    #[must_use]
    #[inline]
    pub const fn chunk_type(&self) -> ChunkType {
        self.r#type
    }

    /// Returns the flags (RFC 9260 section 3.2), whose meaning depends on the type.
    #[must_use]
    #[inline]
    pub const fn flags(&self) -> u8 {
        self.flags
    }

    /// Returns the value (RFC 9260 section 3.2): what follows the header of four bytes, without
    /// padding. Of COOKIE ECHO it is the cookie.
    #[must_use]
    #[inline]
    pub fn value(&self) -> &'a [u8] {
        self.value
    }

    /// Returns the header and the value, without padding (RFC 9260 section 3.2): what the cause
    /// Unrecognized Chunk Type has to hold.
    #[must_use]
    #[inline]
    pub fn as_bytes(&self) -> &'a [u8] {
        part(self.bytes, self.offset, HEADER + self.value.len())
    }

    /// Returns a copy that has bytes of its own, to keep it.
    #[cfg(feature = "alloc")]
    #[must_use]
    pub fn into_owned(self) -> OwnedChunk {
        self.into()
    }

    /// Returns where the chunk begins in the packet's bytes.
    #[must_use]
    #[inline]
    pub const fn offset(&self) -> usize {
        self.offset
    }

    /// Returns where the next chunk begins, after the padding; the end of the bytes if this one is
    /// the last.
    #[must_use]
    #[inline]
    pub const fn next_offset(&self) -> usize {
        self.next
    }

    /// Returns the parameters (RFC 9260 section 3.2.1) of INIT, INIT ACK, HEARTBEAT, HEARTBEAT ACK
    /// and RE-CONFIG; other types have none.
    #[must_use]
    #[inline]
    pub fn parameters(&self) -> Parameters<'a> {
        Parameters::of_chunk(self)
    }

    /// Returns the error causes (RFC 9260 section 3.3.10) of ABORT and ERROR; other types have
    /// none.
    #[must_use]
    #[inline]
    pub fn causes(&self) -> Causes<'a> {
        Causes::of_chunk(self)
    }

    /// Returns the chunk by its fields, if its type is one of [`RegisteredChunk`]; none where the
    /// value has a size that its type doesn't allow, or a list that is broken. Its flags are a field
    /// of PKTDROP alone: no other of those types has any.
    #[doc(alias = "dcsctp_registered_chunk")]
    #[must_use]
    pub fn registered(&self) -> Option<RegisteredChunk<'a>> {
        let it = read!(self, dcsctp_registered_chunk)?;
        RegisteredChunk::of(self.r#type, &it)
    }

    /// The packet's bytes up to the end of the value.
    #[inline]
    pub(crate) fn bytes_to_end(&self) -> &'a [u8] {
        part(self.bytes, 0, self.offset + HEADER + self.value.len())
    }

    /// What the C API knows of it.
    #[inline]
    const fn raw(&self) -> ffi::Chunk {
        let (value_offset, value_size) = (self.offset + HEADER, self.value.len());
        let ChunkType(r#type) = self.r#type;
        ffi::Chunk { r#type, flags: self.flags, value_offset, value_size, next: self.next }
    }
}

/// The bytes at an offset. Only those within a packet are asked for.
#[inline]
pub(crate) fn part(bytes: &[u8], offset: usize, size: usize) -> &[u8] {
    &bytes[offset..offset + size]
}

impl fmt::Debug for Chunk<'_> {
    fn fmt(&self, f: &mut fmt::Formatter<'_>) -> fmt::Result {
        let mut shown = f.debug_struct("Chunk");
        shown.field("type", &self.chunk_type());
        shown.field("flags", &format_args!("{:#04x}", self.flags()));
        match self.content() {
            Content::Other => shown.field("value", &Bytes(self.value())),
            content => shown.field("content", &content),
        };
        shown.finish()
    }
}

/// The chunks of a packet (RFC 9260 section 3.2), or of any bytes: then up to where no whole chunk
/// is.
///
/// ```
/// # let bytes = *b"\x13\x88\x13\x88\x4d\x2d\xf5\x2d\x67\xdb\x78\xb5\x0b\0\0\x04";
/// # let packet = davgyuti::Packet::parse(&bytes)?;
/// let mut chunks = packet.chunks();
/// assert_eq!(chunks.next().unwrap().chunk_type(), davgyuti::ChunkType::COOKIE_ACK);
/// assert_eq!(chunks.next(), None);
/// # Ok::<(), davgyuti::Fault>(())
/// ```
#[derive(Clone)]
pub struct Chunks<'a> {
    bytes: &'a [u8],
    next: usize,
}

list_of_items!(Chunks);

impl<'a> Chunks<'a> {
    /// Returns the chunks of any bytes that begin with a common header, checked or not.
    #[must_use]
    #[inline]
    pub const fn of(bytes: &'a [u8]) -> Self {
        Self { bytes, next: FIRST_CHUNK }
    }
}

impl<'a> Iterator for Chunks<'a> {
    type Item = Chunk<'a>;

    #[inline]
    fn next(&mut self) -> Option<Chunk<'a>> {
        // (at the end there is nothing to look at)
        if self.next >= self.bytes.len() {
            return None;
        }
        let chunk = Chunk::at(self.bytes, self.next)?;
        self.next = chunk.next;
        Some(chunk)
    }
}

// Where there is no chunk, `next` stays.
impl FusedIterator for Chunks<'_> {}

impl Sack<'_> {
    /// Returns whether the gap ack blocks are in order, apart, and begin at 2 or later, as RFC 9260
    /// section 3.3.4 has a receiver send them.
    ///
    /// ```
    /// # let bytes = *b"\0\x01\0\x02\0\0\0\x03\0\0\0\0\x03\0\0\x14\0\0\0\x29\0\x02\0\0\0\x01\0\0\0\x01\0\x03";
    /// # let chunk = davgyuti::Chunk::at(&bytes, 12).unwrap();
    /// // The TSN after the cumulative one can't be in a gap ack block.
    /// assert!(!chunk.sack().unwrap().is_valid());
    /// ```
    #[doc(alias = "dcsctp_validate_sack")]
    #[must_use]
    pub fn is_valid(&self) -> bool {
        let (start, length) = (self.value.as_ptr(), self.value.len());
        let ChunkType(r#type) = ChunkType::SACK;
        let raw = ffi::Chunk { r#type, value_size: length, ..ffi::Chunk::default() };
        // SAFETY: the value is a slice, and `raw` a value here.
        unsafe { ffi::dcsctp_validate_sack(start, length, &raw const raw) }
    }
}

/// The number that the two bytes at an offset are.
#[inline]
pub(crate) fn u16_at(bytes: &[u8], at: usize) -> u16 {
    u16::from_be_bytes([bytes[at], bytes[at + 1]])
}

/// The number that the four bytes at an offset are.
#[inline]
pub(crate) fn u32_at(bytes: &[u8], at: usize) -> u32 {
    u32::from_be_bytes([bytes[at], bytes[at + 1], bytes[at + 2], bytes[at + 3]])
}
