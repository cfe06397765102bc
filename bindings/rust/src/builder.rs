// SPDX-License-Identifier: Apache-2.0
//! Packets that are written.

use crate::chunk::{Chunk, Chunks, FIRST_CHUNK, HEADER};
use crate::error::WriteError;
use crate::items::Parameters;
use crate::packet::seal;
use crate::registered::{RegisteredChunk, RegisteredParameter};
use crate::returned::{Answer, InitFault};
use crate::types::{ChunkType, ParameterType};
use crate::values::Header;
#[cfg(feature = "alloc")]
use alloc::vec::Vec;
use core::fmt;
use core::net::IpAddr;
use core::ptr;

/// The size of the largest packet that can be written, in bytes.
pub const MAX_PACKET: usize = 65_532;

/// A packet that is written into a buffer (RFC 9260 section 3): begun, added to, and sealed.
///
/// Each method that adds a chunk adds its padding too. One that can't returns an error and changes
/// nothing; so to bundle, add until one returns [`WriteError::NoRoom`], seal and send, and begin
/// the next packet with that chunk. One that has no room where the [size](Self::size) is 12, so
/// that there is no other chunk, never will: give it up then. There is never room for one of more
/// than 65,520 bytes. The values are written as they are: whether RFC 9260 lets them be sent, or
/// [`check`](crate::check) would accept the packet, isn't checked. Bytes of the buffer after the
/// packet stay.
///
/// ```
/// use davgyuti::{Data, GapAckBlock, PacketBuilder};
///
/// let mut buffer = [0; 1200];
/// let mut packet = PacketBuilder::begin(&mut buffer, 5000, 5001, 0x0102_0304)?;
/// packet
///     .sack(41, 0x2_0000, &[GapAckBlock::new(2, 3)], &[])?
///     .data(&Data {
///         tsn: 7,
///         is_beginning: true,
///         is_end: true,
///         payload: b"hello",
///         ..Data::default()
///     })?;
/// assert_eq!((packet.size(), packet.room()), (12 + 20 + 24, 1200 - 56));
/// // Later it goes on.
/// let mut packet = PacketBuilder::resume(&mut buffer, 56)?;
/// let ecne: davgyuti::ChunkBuilder = packet.chunk(davgyuti::ChunkType::ECNE, 0, &[0, 0, 0, 9])?;
/// assert_eq!((ecne.offset(), ecne.as_bytes()), (56, &[12, 0, 0, 8, 0, 0, 0, 9][..]));
/// let sack = davgyuti::Chunk::at(packet.as_bytes(), 12).unwrap();
/// # let mut other = [0; 100];
/// let mut next = PacketBuilder::begin(&mut other, 5000, 5001, 0x0102_0304)?;
/// next.copy(&sack)?;
/// assert_eq!(next.unsealed()[12..], packet.as_bytes()[12..32]);
/// packet.last_chunk()?.parameter(davgyuti::ParameterType::RANDOM, b"abcd")?;
/// let bytes = packet.seal();
/// # Ok::<(), davgyuti::WriteError>(())
/// ```
pub struct PacketBuilder<'a> {
    pub(crate) buffer: &'a mut [u8],
    pub(crate) size: usize,
    /// Where the last chunk begins; 0 where that isn't known.
    pub(crate) last: usize,
}

/// Calls a function that adds to a packet: the packet's arguments come first.
macro_rules! add {
    ($packet:expr, $function:ident, $($rest:tt)*) => {{
        let (buffer, size) = (&mut *$packet.buffer, &raw mut $packet.size);
        WriteError::check(crate::error::call!($function, mut [buffer], size, $($rest)*))
    }};
}
pub(crate) use add;

/// Writes a number at a place of bytes, most significant byte first.
#[inline]
pub(crate) fn put<const N: usize>(bytes: &mut [u8], at: usize, number: [u8; N]) {
    bytes[at..at + N].copy_from_slice(&number);
}

/// Writes a header, the numbers that its value begins with, and padding to the front of the room;
/// returns where the rest of the value is to be written, and how many bytes all of it has.
#[inline]
fn put_item<const N: usize>(
    room: Option<&mut [u8]>,
    number: [u8; 2],
    numbers: [u8; N],
    rest: usize,
) -> Result<(&mut [u8], usize), WriteError> {
    let length = u16::try_from(HEADER + N + rest).map_err(|_| WriteError::BadValue)?;
    let size = usize::from(length).next_multiple_of(4);
    let item = room.and_then(|it| it.get_mut(..size)).ok_or(WriteError::NoRoom)?;
    let (front, rest_and_padding) = item.split_at_mut(HEADER + N);
    put(front, 0, number);
    put(front, 2, length.to_be_bytes());
    put(front, HEADER, numbers);
    let (rest, padding) = rest_and_padding.split_at_mut(rest);
    padding.fill(0);
    Ok((rest, size))
}

impl<'a> PacketBuilder<'a> {
    /// Begins a packet with these ports and this tag (RFC 9260 section 3.1), and a checksum field
    /// of zero: 12 bytes.
    ///
    /// The tag is the initiate tag of the peer's INIT or INIT ACK; with INIT it is 0.
    ///
    /// # Errors
    /// [`WriteError::NoRoom`] where the buffer has fewer than 12 bytes.
    #[doc(alias = "dcsctp_begin")]
    #[inline]
    pub fn begin(
        buffer: &'a mut [u8],
        source_port: u16,
        destination_port: u16,
        verification_tag: u32,
    ) -> Result<Self, WriteError> {
        let header = buffer.first_chunk_mut::<FIRST_CHUNK>().ok_or(WriteError::NoRoom)?;
        put(header, 0, source_port.to_be_bytes());
        put(header, 2, destination_port.to_be_bytes());
        put(header, 4, verification_tag.to_be_bytes());
        put(header, 8, [0; 4]);
        Ok(Self { buffer, size: FIRST_CHUNK, last: 0 })
    }

    /// Goes on with a packet that was begun before: the first `size` bytes of the buffer.
    ///
    /// # Errors
    /// [`WriteError::BadPlace`] where `size` is less than 12, not a multiple of 4, or more than the
    /// buffer or [`MAX_PACKET`].
    pub const fn resume(buffer: &'a mut [u8], size: usize) -> Result<Self, WriteError> {
        if size < 12 || size % 4 != 0 || size > buffer.len() || size > MAX_PACKET {
            return Err(WriteError::BadPlace);
        }
        Ok(Self { buffer, size, last: 0 })
    }

    /// Begins the packet that [`Answer::ShutdownComplete`] or [`Answer::Abort`] sends back to the
    /// sender of a packet with this header (RFC 9260 section 8.4): 16 bytes with the ports swapped,
    /// the tag reflected and the T bit. [Seal](Self::seal) it.
    ///
    /// No end that does as [`out_of_the_blue`](crate::out_of_the_blue) says answers it.
    ///
    /// ```
    /// use davgyuti::{Answer, Header, PacketBuilder};
    ///
    /// let mut header = Header::default();
    /// (header.source_port, header.destination_port, header.verification_tag) = (1, 2, 7);
    /// let mut buffer = [0; 16];
    /// let packet = PacketBuilder::reply(&mut buffer, &header, Answer::Abort)?;
    /// assert_eq!(packet.as_bytes(), b"\0\x02\0\x01\0\0\0\x07\0\0\0\0\x06\x01\0\x04");
    /// # Ok::<(), davgyuti::WriteError>(())
    /// ```
    ///
    /// # Errors
    /// [`WriteError::BadValue`] for another answer, else [`WriteError::NoRoom`].
    #[doc(alias = "dcsctp_reply")]
    pub fn reply(
        buffer: &'a mut [u8],
        header: &Header,
        answer: Answer,
    ) -> Result<Self, WriteError> {
        let mut packet = Self { buffer, size: 0, last: FIRST_CHUNK };
        let header = header.raw();
        add!(packet, dcsctp_reply, &raw const header, answer.number())?;
        Ok(packet)
    }

    /// Begins the packet with the ABORT that says this fault, of at most 28 bytes, to the sender of
    /// an INIT or INIT ACK with this initiate tag in a packet with this header (RFC 9260 sections
    /// 3.3.2 and 3.3.3). [Seal](Self::seal) it.
    ///
    /// Its cause is Missing Mandatory Parameter or Invalid Mandatory Parameter; it has none for
    /// [`InitFault::NotAlone`] and [`InitFault::TooShort`], which no ABORT answers. Its tag is the
    /// initiate tag; where that is 0, the packet's own, with the T bit (section 8.5.1).
    ///
    /// ```
    /// use davgyuti::{Header, InitFault, PacketBuilder};
    ///
    /// let mut header = Header::default();
    /// (header.source_port, header.destination_port) = (1, 2);
    /// let mut buffer = [0; 28];
    /// let fault = InitFault::SmallWindow;
    /// let packet = PacketBuilder::init_abort(&mut buffer, &header, 7, fault)?;
    /// assert_eq!(packet.as_bytes()[..12], *b"\0\x02\0\x01\0\0\0\x07\0\0\0\0");
    /// assert_eq!(packet.as_bytes()[12..], *b"\x06\0\0\x08\0\x07\0\x04");
    /// # Ok::<(), davgyuti::WriteError>(())
    /// ```
    ///
    /// # Errors
    /// [`WriteError::NoRoom`].
    #[doc(alias = "dcsctp_init_abort")]
    pub fn init_abort(
        buffer: &'a mut [u8],
        header: &Header,
        initiate_tag: u32,
        fault: InitFault,
    ) -> Result<Self, WriteError> {
        let mut packet = Self { buffer, size: 0, last: FIRST_CHUNK };
        let header = header.raw();
        add!(packet, dcsctp_init_abort, &raw const header, initiate_tag, fault.number())?;
        Ok(packet)
    }

    /// Appends to a `Vec` the packet that `write` returns: the front of the bytes that it gets, which
    /// are `limit` zeros, or [`MAX_PACKET`] if that is less. This needs the feature `alloc`.
    ///
    /// ```
    /// use davgyuti::PacketBuilder;
    ///
    /// let mut output = b"before".to_vec();
    /// PacketBuilder::append(&mut output, 1200, |buffer| {
    ///     let mut packet = PacketBuilder::begin(buffer, 5000, 5001, 7)?;
    ///     packet.cookie_ack()?;
    ///     Ok(packet.seal())
    /// })?;
    /// assert_eq!(output.len(), 6 + 16);
    /// assert!(davgyuti::Packet::parse(&output[6..]).is_ok());
    /// # Ok::<(), davgyuti::WriteError>(())
    /// ```
    ///
    /// # Errors
    /// What `write` returns; [`WriteError::BadPlace`] where it returns other bytes. Nothing is
    /// appended then.
    #[cfg(feature = "alloc")]
    pub fn append(
        output: &mut Vec<u8>,
        limit: usize,
        write: impl FnOnce(&mut [u8]) -> Result<&mut [u8], WriteError>,
    ) -> Result<(), WriteError> {
        let start = output.len();
        output.resize(start + limit.min(MAX_PACKET), 0);
        let buffer = &mut output[start..];
        let front = buffer.as_ptr();
        let size = write(buffer).and_then(|packet| {
            let is_front = ptr::eq(packet.as_ptr(), front);
            if is_front { Ok(packet.len()) } else { Err(WriteError::BadPlace) }
        });
        output.truncate(start + size.unwrap_or(0));
        size.map(|_| ())
    }

    /// Writes the packet that `write` returns, as [`append`](Self::append) does, by one `write_all`: it
    /// is one record where `output` sends records. This needs the feature `std`.
    ///
    /// ```
    /// use davgyuti::PacketBuilder;
    /// use std::io::{Error, Write};
    ///
    /// /// Sends a SHUTDOWN ACK over DTLS.
    /// fn send(dtls: &mut impl Write, tag: u32) -> Result<(), Error> {
    ///     PacketBuilder::write_to(dtls, 1200, |buffer| {
    ///         let mut packet = PacketBuilder::begin(buffer, 5000, 5000, tag)?;
    ///         packet.shutdown_ack()?;
    ///         Ok(packet.seal())
    ///     })
    /// }
    /// # let mut sent = Vec::new();
    /// # send(&mut sent, 7)?;
    /// # assert_eq!(davgyuti::Packet::parse(&sent)?.header().verification_tag, 7);
    /// # Ok::<(), Error>(())
    /// ```
    ///
    /// # Errors
    /// As [`append`](Self::append), and nothing is written then; or those of `output`.
    #[cfg(feature = "std")]
    pub fn write_to(
        output: &mut impl std::io::Write,
        limit: usize,
        write: impl FnOnce(&mut [u8]) -> Result<&mut [u8], WriteError>,
    ) -> std::io::Result<()> {
        let mut packet = Vec::new();
        Self::append(&mut packet, limit, write)?;
        output.write_all(&packet)
    }

    /// Returns the packet's size so far, in bytes.
    #[must_use]
    pub const fn size(&self) -> usize {
        self.size
    }

    /// Returns how many bytes there is room for: of the buffer, and up to [`MAX_PACKET`].
    #[must_use]
    pub fn room(&self) -> usize {
        self.buffer.len().min(MAX_PACKET) - self.size
    }

    /// Returns the packet so far; its checksum field is zero.
    #[must_use]
    pub fn as_bytes(&self) -> &[u8] {
        &self.buffer[..self.size]
    }

    /// Writes the CRC32c (RFC 9260 section 6.8), and returns the packet. One that was only begun has
    /// no chunk, and [`Packet::parse`](crate::Packet::parse) refuses it.
    #[must_use]
    pub fn seal(self) -> &'a mut [u8] {
        let packet = self.unsealed();
        // The packet has a header at least.
        let _ = seal(packet);
        packet
    }

    /// Returns the packet with a checksum field of zero, as it may be sent to a peer that sent Zero
    /// Checksum Acceptable (RFC 9653), unless it [`needs_checksum`](crate::needs_checksum).
    #[must_use]
    pub fn unsealed(self) -> &'a mut [u8] {
        &mut self.buffer[..self.size]
    }

    /// Adds all or nothing: where `add` returns an error, what it added is taken back, from the list
    /// of the chunk that was the last one too.
    ///
    /// ```
    /// use davgyuti::{CauseCode, PacketBuilder, WriteError};
    ///
    /// let mut buffer = [0; 32];
    /// let mut packet = PacketBuilder::begin(&mut buffer, 1, 2, 3)?;
    /// let added = packet.all_or_nothing(|packet| {
    ///     packet.error()?.cause(CauseCode::PROTOCOL_VIOLATION, b"what was it?")?;
    ///     packet.cookie_ack().map(|_| ())
    /// });
    /// assert_eq!((added, packet.size()), (Err(WriteError::NoRoom), 12));
    /// # Ok::<(), WriteError>(())
    /// ```
    ///
    /// # Errors
    /// What `add` returns; [`WriteError::BadPlace`], and nothing is added, where it puts another
    /// builder in the place of its own.
    pub fn all_or_nothing<T>(
        &mut self,
        add: impl FnOnce(&mut PacketBuilder<'_>) -> Result<T, WriteError>,
    ) -> Result<T, WriteError> {
        self.find_last();
        // What adding to the last chunk's list changes: its length, and its padding.
        let places = [self.last, self.size - 4];
        let before = places.map(|at| {
            let mut four = [0; 4];
            four.copy_from_slice(&self.buffer[at..at + 4]);
            four
        });
        let buffer = &raw const *self.buffer;
        let mut packet = PacketBuilder { buffer: self.buffer, size: self.size, last: self.last };
        let added = add(&mut packet);
        let PacketBuilder { buffer: written, size, last } = packet;
        if added.is_ok() && ptr::eq(written, buffer) {
            (self.size, self.last) = (size, last);
            return added;
        }
        for (at, four) in places.into_iter().zip(before) {
            self.buffer[at..at + 4].copy_from_slice(&four);
        }
        added.and(Err(WriteError::BadPlace))
    }

    /// Adds a chunk of any type with these flags and this value (RFC 9260 section 3.2).
    ///
    /// # Errors
    /// [`WriteError::BadValue`] or [`WriteError::NoRoom`].
    #[doc(alias = "dcsctp_add_chunk")]
    pub fn chunk(
        &mut self,
        chunk_type: ChunkType,
        flags: u8,
        value: &[u8],
    ) -> Result<ChunkBuilder<'_, 'a>, WriteError> {
        self.add(chunk_type, flags, [], value.len())?.copy_from_slice(value);
        Ok(ChunkBuilder { packet: self })
    }

    /// Adds a copy of a chunk that was read, or kept as an `OwnedChunk`: its type, its flags and its
    /// value, as for a retransmission (RFC 9260 section 6.3.3).
    ///
    /// # Errors
    /// [`WriteError::NoRoom`].
    pub fn copy(&mut self, chunk: &Chunk) -> Result<ChunkBuilder<'_, 'a>, WriteError> {
        self.chunk(chunk.chunk_type(), chunk.flags(), chunk.value())
    }

    /// Returns the last chunk, to add to its list.
    ///
    /// # Errors
    /// [`WriteError::BadPlace`] where there is no chunk; or, of a packet that was
    /// [resumed](Self::resume), where its bytes aren't whole chunks.
    pub fn last_chunk(&mut self) -> Result<ChunkBuilder<'_, 'a>, WriteError> {
        self.find_last();
        if self.last == 0 { Err(WriteError::BadPlace) } else { Ok(ChunkBuilder { packet: self }) }
    }

    /// Looks for the last chunk in the bytes, where it isn't known.
    fn find_last(&mut self) {
        if self.last == 0 {
            let chunk = Chunks::of(self.as_bytes()).last();
            self.last =
                chunk.filter(|it| it.next_offset() == self.size).map_or(0, |it| it.offset());
        }
    }

    /// Adds a chunk: its flags, the numbers that its value begins with, and how many bytes come after
    /// them. Returns where these are to be written.
    #[inline]
    pub(crate) fn add<const N: usize>(
        &mut self,
        chunk_type: ChunkType,
        flags: u8,
        numbers: [u8; N],
        rest: usize,
    ) -> Result<&mut [u8], WriteError> {
        let (start, end) = (self.size, self.buffer.len().min(MAX_PACKET));
        let room = self.buffer.get_mut(start..end);
        let (rest, size) = put_item(room, [chunk_type.0, flags], numbers, rest)?;
        (self.last, self.size) = (start, start + size);
        Ok(rest)
    }

    /// Adds an ERROR with a cause Unrecognized Chunk Type (RFC 9260 section 3.3.10.6) for each
    /// chunk of a packet that came whose type isn't known and is to be reported (section 3.2):
    /// whole and in order, up to the first at which processing stops, and with it; no ERROR if
    /// there is none. All, or nothing.
    ///
    /// `bytes` are the packet that came, and `known` the types that your program knows. Returns
    /// where your program stops: the [offset](Chunk::offset) of the chunk at which processing
    /// stops, or `None`.
    ///
    /// ```
    /// use davgyuti::ChunkType;
    ///
    /// # let mut buffer = [0; 100];
    /// # let mut packet = davgyuti::PacketBuilder::begin(&mut buffer, 5000, 5001, 7)?;
    /// // COOKIE ACK, and one whose type has the highest-order bits 01.
    /// let bytes = *b"\0\x02\0\x01\0\0\0\x08\0\0\0\0\x0b\0\0\x04\x41\0\0\x05!\0\0\0";
    /// assert_eq!(packet.unrecognized_chunks(&bytes, &[ChunkType::COOKIE_ACK])?, Some(16));
    /// assert_eq!(packet.as_bytes()[12..], *b"\x09\0\0\x0d\0\x06\0\x09\x41\0\0\x05!\0\0\0");
    /// # Ok::<(), davgyuti::WriteError>(())
    /// ```
    ///
    /// # Errors
    /// [`WriteError::NoRoom`] where the packet has no room for all.
    #[doc(alias = "dcsctp_add_unrecognized_chunks")]
    pub fn unrecognized_chunks(
        &mut self,
        bytes: &[u8],
        known: &[ChunkType],
    ) -> Result<Option<usize>, WriteError> {
        // `ChunkType` is `#[repr(transparent)]`: the types lie there as bytes.
        let (start, types, count, mut end) = (self.size, known.as_ptr().cast(), known.len(), 0);
        add!(self, dcsctp_add_unrecognized_chunks, [bytes], types, count, &raw mut end)?;
        if self.size > start {
            self.last = start;
        }
        Ok((end < bytes.len()).then_some(end))
    }

    /// Adds an ERROR with a cause Unrecognized Parameters (RFC 9260 section 3.3.10.8) for each
    /// parameter of an INIT ACK that came, or of another chunk but INIT, as
    /// [`ChunkBuilder::unrecognized_parameters`] does; no ERROR if there is none. The packet is the
    /// one that answers: that of an INIT ACK begins with COOKIE ECHO.
    ///
    /// ```
    /// use davgyuti::{Parameters, ParameterType};
    ///
    /// # let mut buffer = [0; 100];
    /// # let mut packet = davgyuti::PacketBuilder::begin(&mut buffer, 5000, 5001, 7)?;
    /// // A State Cookie, and one whose type has the highest-order bits 01.
    /// let parameters = Parameters::of(b"\0\x07\0\x08abcd\x40\0\0\x05!\0\0\0");
    /// packet.cookie_echo(b"abcd")?;
    /// let known = [ParameterType::STATE_COOKIE];
    /// assert_eq!(packet.unrecognized_parameters_error(&parameters, &known)?, Some(8));
    /// assert_eq!(packet.as_bytes()[20..], *b"\x09\0\0\x0d\0\x08\0\x09\x40\0\0\x05!\0\0\0");
    /// # Ok::<(), davgyuti::WriteError>(())
    /// ```
    ///
    /// # Errors
    /// [`WriteError::NoRoom`] where the packet has no room for all.
    #[doc(alias = "dcsctp_add_unrecognized_parameters_error")]
    pub fn unrecognized_parameters_error(
        &mut self,
        parameters: &Parameters,
        known: &[ParameterType],
    ) -> Result<Option<usize>, WriteError> {
        let (list, offset) = parameters.placed();
        // `ParameterType` is `#[repr(transparent)]`: the types lie there as numbers of two bytes.
        let (start, types, count, mut end) = (self.size, known.as_ptr().cast(), known.len(), 0);
        let stop = &raw mut end;
        add!(self, dcsctp_add_unrecognized_parameters_error, [list], types, count, stop)?;
        if self.size > start {
            self.last = start;
        }
        Ok((end < list.len()).then_some(offset + end))
    }

    /// Adds a chunk of the rest of IANA's registry by its fields, with the flags that are one of
    /// them, and zeros in what is reserved. More parameters can be added to an ASCONF or an ASCONF ACK (RFC 5061 section 4.1).
    ///
    /// # Errors
    /// [`WriteError::BadValue`], also where the type does not allow it: counts that aren't those of
    /// the blocks, a list that is broken; or [`WriteError::NoRoom`].
    #[doc(alias = "dcsctp_add_registered_chunk")]
    pub fn registered(
        &mut self,
        chunk: &RegisteredChunk,
    ) -> Result<ChunkBuilder<'_, 'a>, WriteError> {
        let (raw, number) = (chunk.raw(), chunk.chunk_type().0);
        self.all_or_nothing(|packet| {
            let (fields, bytes, list) = raw.parts();
            let (start, fields) = (packet.size, &raw const fields);
            add!(packet, dcsctp_add_registered_chunk, number, fields, [bytes])?;
            packet.last = start;
            // (those after an address, which C would ask for in one slice with it)
            let mut list = Parameters::of(list);
            let mut builder = ChunkBuilder { packet };
            for it in &mut list {
                builder.parameter(it.parameter_type(), it.value())?;
            }
            if list.as_bytes().is_empty() { Ok(()) } else { Err(WriteError::BadValue) }
        })?;
        Ok(ChunkBuilder { packet: self })
    }
}

/// The last chunk of a packet that is written, to add to its list: parameters (RFC 9260 section
/// 3.2.1) or error causes (section 3.3.10). A method that returns an error adds nothing.
///
/// It isn't checked whether the chunk has such a list, or whether a parameter or an error cause of
/// this type can have this value. [`Packet::parse`](crate::Packet::parse) may refuse a packet with
/// a cause in an INIT, a parameter in DATA, or a value of a wrong length, or read something else.
///
/// ```
/// use davgyuti::CauseCode;
///
/// # let mut buffer = [0; 100];
/// # let mut packet = davgyuti::PacketBuilder::begin(&mut buffer, 5000, 5001, 7)?;
/// let mut error = packet.error()?;
/// error.cause(CauseCode::STALE_COOKIE, &[0, 0, 1, 0])?.cause(CauseCode::OUT_OF_RESOURCE, &[])?;
/// assert_eq!(packet.as_bytes()[12..16], [9, 0, 0, 16]);
/// # Ok::<(), davgyuti::WriteError>(())
/// ```
pub struct ChunkBuilder<'p, 'a> {
    pub(crate) packet: &'p mut PacketBuilder<'a>,
}

impl ChunkBuilder<'_, '_> {
    /// Returns where the chunk begins in the packet's bytes.
    #[must_use]
    pub const fn offset(&self) -> usize {
        self.packet.last
    }

    /// Returns the chunk so far, without padding (RFC 9260 section 3.2): all that is sent of one
    /// without a packet around it, as of an INIT in SDP's `a=sctp-init`.
    #[must_use]
    pub fn as_bytes(&self) -> &[u8] {
        let chunk = Chunk::at(self.packet.as_bytes(), self.packet.last);
        chunk.map_or(&[], |it| it.as_bytes())
    }

    /// Adds an IPv4 Address or IPv6 Address parameter for each address (RFC 9260 section 3.3.2.1).
    ///
    /// # Errors
    /// Any [`WriteError`]; those before the one that has no room are then added.
    pub fn addresses(
        &mut self,
        addresses: impl IntoIterator<Item = IpAddr>,
    ) -> Result<&mut Self, WriteError> {
        for address in addresses {
            self.registered_parameter(&match address {
                IpAddr::V4(_) => RegisteredParameter::Ipv4Address { address },
                IpAddr::V6(_) => RegisteredParameter::Ipv6Address { address },
            })?;
        }
        Ok(self)
    }

    /// Adds to an INIT ACK an Unrecognized Parameter (RFC 9260 section 3.3.3.1.2) for each
    /// parameter of an INIT that came whose type isn't known and is to be reported (section 3.2.2):
    /// whole and in order, up to the first at which processing stops, and with it. All, or nothing.
    ///
    /// `parameters` are the INIT's, and `known` the types that your program knows. Returns where
    /// your program stops: the [offset](crate::Parameter::offset) of the parameter at which
    /// processing stops, or `None`.
    ///
    /// ```
    /// use davgyuti::{Init, Parameters, ParameterType};
    ///
    /// # let mut buffer = [0; 100];
    /// # let mut packet = davgyuti::PacketBuilder::begin(&mut buffer, 5000, 5001, 7)?;
    /// // Forward-TSN-Supported, and one whose type has the highest-order bits 01.
    /// let parameters = Parameters::of(b"\xc0\0\0\x04\x40\0\0\x05!\0\0\0");
    /// let mut ack = packet.init_ack(&Init::default())?;
    /// let known = [ParameterType::FORWARD_TSN_SUPPORTED];
    /// assert_eq!(ack.unrecognized_parameters(&parameters, &known)?, Some(4));
    /// assert_eq!(packet.as_bytes()[32..], *b"\0\x08\0\x09\x40\0\0\x05!\0\0\0");
    /// # Ok::<(), davgyuti::WriteError>(())
    /// ```
    ///
    /// # Errors
    /// [`WriteError::NoRoom`] where the packet has no room for all.
    #[doc(alias = "dcsctp_add_unrecognized_parameters")]
    pub fn unrecognized_parameters(
        &mut self,
        parameters: &Parameters,
        known: &[ParameterType],
    ) -> Result<Option<usize>, WriteError> {
        let (list, offset) = parameters.placed();
        // `ParameterType` is `#[repr(transparent)]`: the types lie there as numbers of two bytes.
        let (types, count, mut end) = (known.as_ptr().cast(), known.len(), 0);
        let (packet, stop) = (&mut *self.packet, &raw mut end);
        let start = packet.last;
        add!(packet, dcsctp_add_unrecognized_parameters, start, [list], types, count, stop)?;
        Ok((end < list.len()).then_some(offset + end))
    }

    /// Adds to an ABORT the cause Restart of an Association with New Addresses (RFC 9260 section
    /// 3.3.10.11), with the addresses that an INIT adds to those of an association, as they are in
    /// the INIT. `parameters` and `known` are as of [`adds_addresses`](crate::adds_addresses).
    ///
    /// ```
    /// # let mut buffer = [0; 100];
    /// # let mut packet = davgyuti::PacketBuilder::begin(&mut buffer, 5000, 5001, 7)?;
    /// // 192.0.2.1, which is known, and 192.0.2.2.
    /// let bytes = *b"\0\x05\0\x08\xc0\0\x02\x01\0\x05\0\x08\xc0\0\x02\x02";
    /// let mut abort = packet.chunk(davgyuti::ChunkType::ABORT, 0, &[])?;
    /// abort.new_addresses(&davgyuti::Parameters::of(&bytes), &bytes[..8])?;
    /// assert_eq!(packet.as_bytes()[16..], *b"\0\x0b\0\x0c\0\x05\0\x08\xc0\0\x02\x02");
    /// # Ok::<(), davgyuti::WriteError>(())
    /// ```
    ///
    /// # Errors
    /// Any [`WriteError`].
    #[doc(alias = "dcsctp_add_new_addresses")]
    pub fn new_addresses(
        &mut self,
        parameters: &Parameters,
        known: &[u8],
    ) -> Result<&mut Self, WriteError> {
        let (list, _) = parameters.placed();
        let start = self.packet.last;
        add!(self.packet, dcsctp_add_new_addresses, start, [list], [known])?;
        Ok(self)
    }

    /// Adds to the chunk's list: the numbers that a value begins with, and how many bytes come after
    /// them. Returns where these are to be written.
    #[inline]
    pub(crate) fn item<const N: usize>(
        &mut self,
        number: u16,
        numbers: [u8; N],
        rest: usize,
    ) -> Result<&mut [u8], WriteError> {
        let PacketBuilder { buffer, size: start, last } = &mut *self.packet;
        let (chunk, end) = (*last, buffer.len().min(MAX_PACKET));
        let length = u16::try_from(*start - chunk + HEADER + N + rest);
        let length = length.map_err(|_| WriteError::BadValue)?;
        let (front, room) = buffer.split_at_mut(*start);
        let room = room.get_mut(..end - *start);
        let (rest, size) = put_item(room, number.to_be_bytes(), numbers, rest)?;
        // (what was padding of the chunk is now within it)
        let before = usize::from(u16::from_be_bytes([front[chunk + 2], front[chunk + 3]]));
        front[chunk + before..].fill(0);
        put(front, chunk + 2, length.to_be_bytes());
        *start += size;
        Ok(rest)
    }
}

impl fmt::Debug for PacketBuilder<'_> {
    fn fmt(&self, f: &mut fmt::Formatter<'_>) -> fmt::Result {
        f.debug_struct("PacketBuilder")
            .field("size", &self.size())
            .field("room", &self.room())
            .finish()
    }
}

impl fmt::Debug for ChunkBuilder<'_, '_> {
    fn fmt(&self, f: &mut fmt::Formatter<'_>) -> fmt::Result {
        f.debug_struct("ChunkBuilder")
            .field("offset", &self.offset())
            .field("packet", self.packet)
            .finish()
    }
}
