// SPDX-License-Identifier: Apache-2.0
//! Whole packets.

use crate::chunk::{Chunk, Chunks, same_bytes};
use crate::error::{Fault, FaultKind, OutputError, WriteError, call};
use crate::ffi;
use crate::kinds::{GapAckBlock, TAG_REFLECTED};
#[cfg(feature = "alloc")]
use crate::owned::OwnedPacket;
use crate::types::ChunkType;
use crate::values::{Header, Policy};
#[cfg(feature = "alloc")]
use alloc::{string::String, vec::Vec};

/// What the checksum field of a packet has to be (RFC 9260 section 6.8), as [`word`] returns it: it
/// is computed, and never what the field is, with which every checksum would be right.
///
/// The default is for a policy that accepts [any checksum](Policy::any_checksum).
///
/// ```
/// use davgyuti::Word;
///
/// let packet = *b"\x13\x88\x13\x88\x4d\x2d\xf5\x2d\x67\xdb\x78\xb5\x0b\0\0\x04";
/// let word: Word = davgyuti::word(&packet);
/// assert_eq!(word.checksum(), 0x67db_78b5);
/// assert_eq!(word, Word::from_crc32c(0xb578_db67));
/// ```
///
/// ```compile_fail
/// # let bytes = [0; 16];
/// let field = davgyuti::Header::read(&bytes).unwrap().checksum;
/// let packet = davgyuti::Packet::parse_with(&bytes, field, davgyuti::Policy::new());
/// ```
#[derive(Clone, Copy, Default, PartialEq, Eq, Hash, Debug)]
pub struct Word(u32);

impl Word {
    /// Returns that of a CRC32c which something else computed, such as a network card: of the
    /// packet's bytes, over zeros in the checksum field.
    #[must_use]
    pub const fn from_crc32c(crc32c: u32) -> Self {
        Self(crc32c.swap_bytes())
    }

    /// Returns the number that the checksum field, bytes 8 to 11, has to be, most significant byte
    /// first.
    #[must_use]
    pub const fn checksum(self) -> u32 {
        self.0
    }
}

/// Returns the word of a packet (RFC 9260 section 6.8): its CRC32c, over zeros in the checksum
/// field. For fewer than 12 bytes it has no meaning. With the feature `processor-crc32c` the
/// processor's instruction computes it, which isn't proved.
#[doc(alias = "dcsctp_word")]
#[must_use]
pub fn word(bytes: &[u8]) -> Word {
    #[cfg(feature = "processor-crc32c")]
    if let Some(word) = crate::processor::word(bytes) {
        return word;
    }
    Word(call!(dcsctp_word, [bytes]))
}

/// Returns whether a packet has to have its CRC32c also where a checksum of zero was negotiated (RFC
/// 9653 section 5.2).
///
/// It has INIT, COOKIE ECHO or ASCONF; or it answers a packet out of the blue, by ABORT or SHUTDOWN
/// COMPLETE with [`TAG_REFLECTED`]. Only one that doesn't need it may be sent
/// [unsealed](crate::PacketBuilder::unsealed).
///
/// ```
/// // SHUTDOWN COMPLETE, and the same with a tag that is reflected.
/// let mut bytes = *b"\x13\x88\x13\x88\x4d\x2d\xf5\x2d\0\0\0\0\x0e\0\0\x04";
/// assert!(!davgyuti::needs_checksum(&bytes));
/// bytes[13] = davgyuti::TAG_REFLECTED;
/// assert!(davgyuti::needs_checksum(&bytes));
/// ```
#[must_use]
pub fn needs_checksum(bytes: &[u8]) -> bool {
    Chunks::of(bytes).any(|it| match it.chunk_type() {
        ChunkType::INIT | ChunkType::COOKIE_ECHO | ChunkType::ASCONF => true,
        ChunkType::ABORT | ChunkType::SHUTDOWN_COMPLETE => it.flags() & TAG_REFLECTED != 0,
        _ => false,
    })
}

/// Whether a packet may have a checksum of zero where that was negotiated, and has it.
fn is_allowed_zero(bytes: &[u8]) -> bool {
    Header::read(bytes).is_some_and(|it| it.checksum == 0)
        // (what is larger is no packet, and isn't gone through)
        && bytes.len() <= 0xffff
        && !needs_checksum(bytes)
}

/// What C takes of a policy, for these bytes.
#[inline]
fn raw_policy(policy: Policy, bytes: &[u8]) -> ffi::Policy {
    let is_allowed = policy.allowed_zero_checksum && is_allowed_zero(bytes);
    ffi::Policy {
        any_checksum: policy.any_checksum,
        zero_checksum: policy.zero_checksum || is_allowed,
        strict_padding: policy.strict_padding,
        ..ffi::Policy::default()
    }
}

/// Checks whether bytes are a packet (RFC 9260 section 3); `word` is [`word(bytes)`](word).
///
/// ```
/// use davgyuti::{FaultKind, Policy};
///
/// let mut bytes = *b"\x13\x88\x13\x88\x4d\x2d\xf5\x2d\x67\xdb\x78\xb5\x0b\0\0\x04";
/// assert_eq!(davgyuti::check(&bytes, davgyuti::word(&bytes), Policy::new()), Ok(()));
/// davgyuti::set_tag(&mut bytes, 7).unwrap();
/// let checked = davgyuti::check(&bytes, davgyuti::word(&bytes), Policy::new());
/// assert_eq!(checked, Err(FaultKind::Checksum));
/// let first = davgyuti::first_fault(&bytes, davgyuti::word(&bytes), Policy::new());
/// assert_eq!(first.map(|it| it.offset), Some(8));
/// ```
///
/// # Errors
/// The kind of the first fault; [`first_fault`] says where it is.
#[doc(alias = "dcsctp_check")]
#[inline]
pub fn check(bytes: &[u8], word: Word, policy: Policy) -> Result<(), FaultKind> {
    let policy = raw_policy(policy, bytes);
    let code = call!(dcsctp_check, [bytes], word.0, &raw const policy);
    FaultKind::of(code).map_or(Ok(()), Err)
}

/// Returns the first fault of bytes, or none if they are a packet (RFC 9260 section 3); `word` is
/// [`word(bytes)`](word).
#[doc(alias = "dcsctp_first_fault")]
#[must_use]
pub fn first_fault(bytes: &[u8], word: Word, policy: Policy) -> Option<Fault> {
    let (mut offset, policy) = (0, raw_policy(policy, bytes));
    let (policy, offset_at) = (&raw const policy, &raw mut offset);
    let code = call!(dcsctp_first_fault, [bytes], word.0, policy, offset_at);
    FaultKind::of(code).map(|kind| Fault { kind, offset })
}

/// Writes the CRC32c into the checksum field of a packet (RFC 9260 section 6.8), as [`word`] returns
/// it; all other bytes stay.
///
/// # Errors
/// [`WriteError::BadPlace`], and nothing changes, for fewer than 12 bytes.
#[doc(alias = "dcsctp_seal")]
pub fn seal(packet: &mut [u8]) -> Result<(), WriteError> {
    #[cfg(feature = "processor-crc32c")]
    if let Some(word) = crate::processor::word(packet) {
        packet[8..12].copy_from_slice(&word.checksum().to_be_bytes());
        return Ok(());
    }
    WriteError::check(call!(dcsctp_seal, mut [packet]))
}

/// Writes the verification tag of a packet (RFC 9260 section 3.1); all other bytes stay. The packet
/// has to be [sealed](seal) anew.
///
/// # Errors
/// [`WriteError::BadPlace`], and nothing changes, for fewer than 12 bytes.
#[doc(alias = "dcsctp_set_tag")]
pub fn set_tag(packet: &mut [u8], verification_tag: u32) -> Result<(), WriteError> {
    WriteError::check(call!(dcsctp_set_tag, mut [packet], verification_tag))
}

/// Brings gap ack blocks of a SACK that is to be sent into order (RFC 9260 section 3.3.4), joins
/// those that overlap or touch, and drops those that end before their start. Returns what is left:
/// the fewest blocks that cover the same offsets. The blocks after them are of no use.
///
/// ```
/// use davgyuti::GapAckBlock;
///
/// let mut blocks = [
///     GapAckBlock::new(7, 9),
///     GapAckBlock::new(4, 3),
///     GapAckBlock::new(2, 4),
///     GapAckBlock::new(5, 5),
/// ];
/// let cleaned = davgyuti::clean_blocks(&mut blocks);
/// assert_eq!(cleaned, [GapAckBlock::new(2, 5), GapAckBlock::new(7, 9)]);
/// ```
#[doc(alias = "dcsctp_clean_blocks")]
pub fn clean_blocks(blocks: &mut [GapAckBlock]) -> &mut [GapAckBlock] {
    // `GapAckBlock` is `#[repr(C)]`, with C's fields: the blocks lie there as C's.
    const { assert!(size_of::<GapAckBlock>() == size_of::<ffi::GapAckBlock>()) };
    // SAFETY: `blocks` is a slice.
    let count = unsafe { ffi::dcsctp_clean_blocks(blocks.as_mut_ptr().cast(), blocks.len()) };
    &mut blocks[..count]
}

/// Bytes that are a packet (RFC 9260 section 3): they were checked.
///
/// That says that the checksum and all lengths are right, and nothing of the association. You still
/// compare the verification tag; an INIT has to be alone, under tag 0; an INIT ACK may lack its
/// cookie; ports, initiate tags and numbers of streams may be 0, payloads empty, and gap ack blocks
/// in any order ([`Sack::is_valid`](crate::Sack::is_valid)).
///
/// `==` and [`Hash`] are of the bytes alone, whatever the policy that they were checked under. Two
/// packets mean the same if and only if their canonical forms are equal.
///
/// ```
/// use davgyuti::{ChunkType, Packet};
///
/// let bytes = *b"\x13\x88\x13\x88\x4d\x2d\xf5\x2d\x67\xdb\x78\xb5\x0b\0\0\x04";
/// let packet = Packet::parse(&bytes)?;
/// assert_eq!(packet.header().verification_tag, 0x4d2d_f52d);
/// assert!(packet.chunks().map(|chunk| chunk.chunk_type()).eq([ChunkType::COOKIE_ACK]));
/// # Ok::<(), davgyuti::Fault>(())
/// ```
#[derive(Clone, Copy)]
pub struct Packet<'a> {
    pub(crate) bytes: &'a [u8],
    pub(crate) word: Word,
    pub(crate) policy: Policy,
}

same_bytes!(Packet<'_>);

/// The type of the functions that write what a packet holds.
type Write = unsafe extern "C" fn(
    *const u8,
    usize,
    u32,
    *const ffi::Policy,
    *mut u8,
    usize,
    *mut usize,
) -> u32;

impl<'a> Packet<'a> {
    /// Checks bytes whose checksum has to be their CRC32c; padding is ignored.
    ///
    /// # Errors
    /// The first fault.
    pub fn parse(bytes: &'a [u8]) -> Result<Self, Fault> {
        Self::parse_with(bytes, word(bytes), Policy::default())
    }

    /// Checks bytes under a policy; `word` is [`word(bytes)`](word).
    ///
    /// ```
    /// use davgyuti::{Fault, FaultKind, Packet, Policy};
    ///
    /// let zero = Policy::new().with_zero_checksum(true);
    /// let bytes = *b"\x13\x88\x13\x88\0\0\0\x01\0\0\0\0\x0b\0\0\x04";
    /// assert!(Packet::parse_with(&bytes, davgyuti::word(&bytes), zero).is_ok());
    /// let fault = Fault { kind: FaultKind::Checksum, offset: 8 };
    /// assert_eq!(Packet::parse(&bytes), Err(fault));
    /// assert_eq!(fault.to_string(), "wrong checksum at byte 8");
    /// ```
    ///
    /// # Errors
    /// The first fault.
    #[inline]
    pub fn parse_with(bytes: &'a [u8], word: Word, policy: Policy) -> Result<Self, Fault> {
        // (whether there is a fault takes less time than which)
        if check(bytes, word, policy).is_ok() {
            return Ok(Packet { bytes, word, policy });
        }
        first_fault(bytes, word, policy).map_or(Ok(Packet { bytes, word, policy }), Err)
    }

    /// Returns the bytes.
    #[must_use]
    #[inline]
    pub const fn as_bytes(&self) -> &'a [u8] {
        self.bytes
    }

    /// Returns a copy that has bytes of its own, to keep it.
    #[cfg(feature = "alloc")]
    #[must_use]
    pub fn into_owned(self) -> OwnedPacket {
        self.into()
    }

    /// Returns the common header (RFC 9260 section 3.1).
    #[must_use]
    #[inline]
    pub fn header(&self) -> Header {
        Header::read(self.bytes).unwrap_or_default()
    }

    /// Returns the chunks (RFC 9260 section 3.2), of which there is one at least; `for chunk in
    /// &packet` does too.
    #[must_use]
    #[inline]
    pub fn chunks(&self) -> Chunks<'a> {
        Chunks::of(self.bytes)
    }

    /// Writes the canonical packet to the front of `output`, and returns it: a checksum of zero,
    /// padding of zeros, zeros in reserved bits, and else the same. Two packets have the same one
    /// if and only if they mean the same. [Seal](seal) it before you send it. This allocates
    /// nothing.
    ///
    /// # Errors
    /// [`OutputError::NoRoom`] or [`OutputError::TooLong`]; `output` stays as it is.
    #[doc(alias = "dcsctp_canonical")]
    pub fn write_canonical<'b>(&self, output: &'b mut [u8]) -> Result<&'b mut [u8], OutputError> {
        let size = self.write(ffi::dcsctp_canonical, output)?;
        Ok(&mut output[..size])
    }

    /// Writes the packet's text to the front of `output`, and returns it: a line for the header,
    /// and one for each chunk. There is a line feed between lines, and none at the end. It is a
    /// summary, without parameters and error causes; [`write_report`](Self::write_report) writes
    /// all. This calls C's `malloc`, `realloc` and `free`, also without the feature `alloc`.
    ///
    /// ```
    /// use davgyuti::{OutputError, Packet};
    ///
    /// let bytes = *b"\x13\x88\x13\x88\x4d\x2d\xf5\x2d\x67\xdb\x78\xb5\x0b\0\0\x04";
    /// let packet = Packet::parse(&bytes)?;
    /// let mut output = [0; 100];
    /// let text = packet.write_text(&mut output)?;
    /// let header = "source=5000 destination=5000 tag=1294857517 checksum=1742436533";
    /// assert_eq!(text, format!("{header}\nCOOKIE-ACK"));
    /// let needed = text.len();
    /// assert_eq!(packet.write_text(&mut []), Err(OutputError::NoRoom { needed }));
    /// assert!(packet.write_report(&mut [0; 1000])?.ends_with("\nCOOKIE ACK\n"));
    /// assert_eq!(packet.write_canonical(&mut output)?[8..], [0, 0, 0, 0, 0x0b, 0, 0, 4]);
    /// # Ok::<(), Box<dyn std::error::Error>>(())
    /// ```
    ///
    /// # Errors
    /// [`OutputError::NoRoom`] or [`OutputError::OutOfMemory`]; `output` stays as it is.
    #[doc(alias = "dcsctp_print")]
    pub fn write_text<'b>(&self, output: &'b mut [u8]) -> Result<&'b str, OutputError> {
        let size = self.write(ffi::dcsctp_print, output)?;
        Ok(utf8(&output[..size]))
    }

    /// Writes all that the packet holds to the front of `output`, and returns it, as `sctp_dump`
    /// prints it: each line ends in a line feed, and what is inside of something is two blanks
    /// deeper. This allocates nothing.
    ///
    /// # Errors
    /// [`OutputError::NoRoom`]; `output` stays as it is.
    #[doc(alias = "dcsctp_report")]
    pub fn write_report<'b>(&self, output: &'b mut [u8]) -> Result<&'b str, OutputError> {
        let size = self.with_word().write(ffi::dcsctp_report, output)?;
        Ok(utf8(&output[..size]))
    }

    /// Returns what [`write_canonical`](Self::write_canonical) writes. This needs the feature
    /// `alloc`, and calls no `malloc` but that of the `Vec`, if the program's allocator does.
    ///
    /// # Errors
    /// [`OutputError::TooLong`] or [`OutputError::OutOfMemory`].
    #[cfg(feature = "alloc")]
    pub fn to_canonical(&self) -> Result<Vec<u8>, OutputError> {
        self.collect(ffi::dcsctp_canonical)
    }

    /// Returns what [`write_text`](Self::write_text) writes, a summary without parameters and error
    /// causes; [`Display`](core::fmt::Display) does too, and [`to_report`](Self::to_report) returns
    /// all. This needs the feature `alloc`, and calls C's `malloc` besides.
    ///
    /// ```
    /// # let bytes = *b"\x13\x88\x13\x88\x4d\x2d\xf5\x2d\x67\xdb\x78\xb5\x0b\0\0\x04";
    /// let packet = davgyuti::Packet::parse(&bytes)?;
    /// assert!(packet.to_text()?.ends_with("COOKIE-ACK") && packet.to_report()?.contains("COOKIE ACK"));
    /// assert_eq!(packet.to_canonical()?[8..12], [0; 4]);
    /// # Ok::<(), Box<dyn std::error::Error>>(())
    /// ```
    ///
    /// # Errors
    /// [`OutputError::OutOfMemory`].
    #[cfg(feature = "alloc")]
    pub fn to_text(&self) -> Result<String, OutputError> {
        self.collect(ffi::dcsctp_print).map(text)
    }

    /// Returns what [`write_report`](Self::write_report) writes: all that the packet holds,
    /// parameters and error causes too. This needs the feature `alloc`, and calls no `malloc` but
    /// that of the `String`, if the program's allocator does.
    ///
    /// # Errors
    /// [`OutputError::OutOfMemory`].
    #[cfg(feature = "alloc")]
    pub fn to_report(&self) -> Result<String, OutputError> {
        self.with_word().collect(ffi::dcsctp_report).map(text)
    }

    /// The packet with a word, with which a report compares the field also where any is accepted.
    fn with_word(self) -> Self {
        let is_given = !self.policy.any_checksum || self.word != Word::default();
        let word = if is_given { self.word } else { crate::word(self.bytes) };
        Self { word, ..self }
    }

    /// Calls the function, and returns the size of what it writes.
    fn write(&self, function: Write, output: &mut [u8]) -> Result<usize, OutputError> {
        let Self { bytes, word, policy } = self;
        let (start, length) = (bytes.as_ptr(), bytes.len());
        let (front, room) = (output.as_mut_ptr(), output.len());
        let (mut size, policy) = (0, raw_policy(*policy, bytes));
        // SAFETY: `function` is one of dcsctp_canonical, dcsctp_print and dcsctp_report. `bytes`
        // and `output` are slices, and `policy` and `size` values here.
        let code = unsafe {
            function(start, length, word.0, &raw const policy, front, room, &raw mut size)
        };
        match code {
            0 => Ok(size),
            6 => Err(OutputError::OutOfMemory),
            7 => Err(OutputError::NoRoom { needed: size }),
            8 => Err(OutputError::TooLong),
            _ => unreachable!("of a packet, 0 and 6 to 8 are returned"),
        }
    }

    /// Returns what the function writes.
    #[cfg(feature = "alloc")]
    fn collect(&self, function: Write) -> Result<Vec<u8>, OutputError> {
        let needed = match self.write(function, &mut []) {
            Ok(size) => size,
            Err(OutputError::NoRoom { needed }) => needed,
            Err(error) => return Err(error),
        };
        let mut output = Vec::new();
        output.try_reserve_exact(needed).map_err(|_| OutputError::OutOfMemory)?;
        output.resize(needed, 0);
        let size = self.write(function, &mut output)?;
        output.truncate(size);
        Ok(output)
    }
}

/// The text that these bytes are.
fn utf8(bytes: &[u8]) -> &str {
    core::str::from_utf8(bytes).expect("texts are UTF-8")
}

/// The text that these bytes are.
#[cfg(feature = "alloc")]
fn text(bytes: Vec<u8>) -> String {
    String::from_utf8(bytes).expect("texts are UTF-8")
}

impl<'a> TryFrom<&'a [u8]> for Packet<'a> {
    type Error = Fault;

    /// As [`Packet::parse`].
    fn try_from(bytes: &'a [u8]) -> Result<Self, Fault> {
        Self::parse(bytes)
    }
}

/// As [`Packet::chunks`].
#[allow(clippy::into_iter_without_iter)]
impl<'a> IntoIterator for &Packet<'a> {
    type Item = Chunk<'a>;
    type IntoIter = Chunks<'a>;

    fn into_iter(self) -> Chunks<'a> {
        self.chunks()
    }
}

impl AsRef<[u8]> for Packet<'_> {
    fn as_ref(&self) -> &[u8] {
        self.bytes
    }
}

/// Writes the packet's [text](Packet::to_text), a summary without parameters and error causes;
/// [`to_report`](Packet::to_report) returns all.
#[cfg(feature = "alloc")]
impl core::fmt::Display for Packet<'_> {
    fn fmt(&self, f: &mut core::fmt::Formatter<'_>) -> core::fmt::Result {
        f.pad(&self.to_text().map_err(|_| core::fmt::Error)?)
    }
}

impl core::fmt::Debug for Packet<'_> {
    fn fmt(&self, f: &mut core::fmt::Formatter<'_>) -> core::fmt::Result {
        let header = self.header();
        f.debug_struct("Packet")
            .field("source_port", &header.source_port)
            .field("destination_port", &header.destination_port)
            .field("verification_tag", &format_args!("{:#010x}", header.verification_tag))
            .field("chunks", &self.chunks())
            .finish()
    }
}
