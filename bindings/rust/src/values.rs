// SPDX-License-Identifier: Apache-2.0
//! What packets are checked under, and their common header.

use crate::chunk::{FIRST_CHUNK, u16_at, u32_at};
use crate::ffi;

/// Which checksum fields are accepted, and whether padding is checked.
///
/// The default, all false, is a socket's: the field has to be the packet's CRC32c, and padding is
/// ignored. A later version may add a field, which is false by default.
///
/// ```
/// use davgyuti::Policy;
///
/// const FILTER: Policy = Policy::new().with_strict_padding(true);
/// let mut policy = FILTER;
/// policy.zero_checksum = true;
/// assert_eq!(policy, FILTER.with_zero_checksum(true));
/// ```
#[non_exhaustive]
#[derive(Clone, Copy, Default, PartialEq, Eq, Hash, Debug)]
#[allow(clippy::struct_excessive_bools)] // each is asked for by itself
pub struct Policy {
    /// Accepts every checksum field: for captures whose checksums a network card filled in later.
    pub any_checksum: bool,
    /// Accepts a field of zero as well (RFC 9653), in every packet.
    pub zero_checksum: bool,
    /// Accepts a field of zero where RFC 9653 section 5.2 allows one, not in a packet that
    /// [`needs_checksum`](crate::needs_checksum). Set it once you sent Zero Checksum Acceptable: as
    /// a client for what comes after your INIT, as a server for what comes after the COOKIE ECHO.
    pub allowed_zero_checksum: bool,
    /// Padding has to be complete and zero: for a filter that refuses bytes hidden in padding,
    /// which a receiver has to ignore (RFC 9260 section 3.2).
    pub strict_padding: bool,
}

impl Policy {
    /// Returns the default: all false.
    #[must_use]
    pub const fn new() -> Self {
        Self {
            any_checksum: false,
            zero_checksum: false,
            allowed_zero_checksum: false,
            strict_padding: false,
        }
    }
}

/// Defines the methods that change one field of a policy.
macro_rules! with {
    ($($name:ident, $field:ident;)*) => {
        impl Policy {$(
            #[doc = concat!("Returns the same with another [`", stringify!($field), "`](Self::", stringify!($field), ").")]
            ///
            /// ```
            #[doc = concat!("assert!(davgyuti::Policy::new().", stringify!($name), "(true).", stringify!($field), ");")]
            /// ```
            #[must_use]
            pub const fn $name(self, $field: bool) -> Self {
                Self { $field, ..self }
            }
        )*}
    };
}

with! {
    with_any_checksum, any_checksum;
    with_zero_checksum, zero_checksum;
    with_allowed_zero_checksum, allowed_zero_checksum;
    with_strict_padding, strict_padding;
}

/// The common header (RFC 9260 section 3.1).
///
/// ```
/// let header = davgyuti::Header::read(b"\x13\x88\x13\x89\0\0\0\x07\0\0\0\x09").unwrap();
/// assert_eq!((header.source_port, header.verification_tag), (5000, 7));
/// ```
#[derive(Clone, Copy, Default, PartialEq, Eq, Hash, Debug)]
pub struct Header {
    /// The sender's port.
    pub source_port: u16,
    /// The receiver's port.
    pub destination_port: u16,
    /// The tag that the receiver asked for; 0 with INIT. With the T bit it is the one that the
    /// receiver sends, sent back to it (RFC 9260 section 8.5.1).
    pub verification_tag: u32,
    /// The checksum field, bytes 8 to 11, most significant byte first: the
    /// [`checksum`](crate::Word::checksum) of the packet's word, if it is right.
    pub checksum: u32,
}

impl Header {
    /// Reads the common header (RFC 9260 section 3.1) of any bytes; none of fewer than 12.
    #[doc(alias = "dcsctp_header")]
    #[must_use]
    pub fn read(bytes: &[u8]) -> Option<Self> {
        let it: &[u8; FIRST_CHUNK] = bytes.first_chunk()?;
        Some(Self {
            source_port: u16_at(it, 0),
            destination_port: u16_at(it, 2),
            verification_tag: u32_at(it, 4),
            checksum: u32_at(it, 8),
        })
    }

    /// As C has it.
    pub(crate) const fn raw(&self) -> ffi::Header {
        let Self { source_port, destination_port, verification_tag, checksum } = *self;
        ffi::Header { source_port, destination_port, verification_tag, checksum }
    }
}
