// SPDX-License-Identifier: Apache-2.0
//! Lists in a packet: of parameters or error causes, and of numbers.

use crate::chunk::{Chunk, HEADER, part, split, u16_at};
use crate::debug::list_of_items;
use crate::error::WriteError;
use crate::ffi;
use crate::items::Parameters;
use crate::registered::RegisteredParameter;
use core::iter::FusedIterator;
use core::net::IpAddr;

/// A parameter or an error cause, where it lies in a packet's bytes.
#[derive(Clone, Copy)]
pub(crate) struct Item<'a> {
    pub(crate) bytes: &'a [u8],
    pub(crate) number: u16,
    pub(crate) offset: usize,
    pub(crate) value: &'a [u8],
    next: usize,
}

impl<'a> Item<'a> {
    /// Writes one with this type or code and this value to the front of `output`.
    pub(crate) fn write(
        output: &'a mut [u8],
        number: u16,
        value: &[u8],
    ) -> Result<Self, WriteError> {
        let next = HEADER + value.len();
        let length = u16::try_from(next).map_err(|_| WriteError::BadValue)?;
        let bytes = output.get_mut(..next).ok_or(WriteError::NoRoom)?;
        let (header, rest) = bytes.split_at_mut(HEADER);
        header[..2].copy_from_slice(&number.to_be_bytes());
        header[2..].copy_from_slice(&length.to_be_bytes());
        rest.copy_from_slice(value);
        Ok(Self { bytes, number, offset: 0, value: &bytes[HEADER..], next })
    }

    pub(crate) fn as_bytes(&self) -> &'a [u8] {
        part(self.bytes, self.offset, HEADER + self.value.len())
    }

    /// What the C API knows of it.
    pub(crate) const fn raw(&self) -> ffi::Parameter {
        let (value_offset, value_size) = (self.offset + HEADER, self.value.len());
        ffi::Parameter { r#type: self.number, value_offset, value_size, next: self.next }
    }
}

/// The items of a list, which ends where the bytes end.
#[derive(Clone)]
pub(crate) struct Items<'a> {
    pub(crate) bytes: &'a [u8],
    pub(crate) next: usize,
}

impl<'a> Items<'a> {
    /// Those of a chunk, from this place of its value on.
    #[inline]
    pub(crate) fn of_chunk(chunk: &Chunk<'a>, place: usize) -> Self {
        let next = chunk.offset() + HEADER + place.min(chunk.value().len());
        Self { bytes: chunk.bytes_to_end(), next }
    }

    #[inline]
    pub(crate) fn next(&mut self) -> Option<Item<'a>> {
        let Self { bytes, next: offset } = *self;
        let (number, value, next) = split(bytes, offset)?;
        self.next = next;
        Some(Item { bytes, number: u16::from_be_bytes(number), offset, value, next })
    }

    /// The bytes of those that are left.
    pub(crate) fn as_bytes(&self) -> &'a [u8] {
        self.bytes.get(self.next..).unwrap_or(&[])
    }
}

impl<'a> Parameters<'a> {
    /// Returns what is left, as their bytes and the offset of these.
    pub(crate) fn placed(&self) -> (&'a [u8], usize) {
        (self.as_bytes(), self.0.next)
    }

    /// Returns the addresses of the list, in order: those of the IPv4 Address and IPv6 Address
    /// parameters of an INIT or INIT ACK (RFC 9260 section 3.3.2.1), or of the cause Restart of an
    /// Association with New Addresses. All else is passed over, and so is an address parameter of a
    /// wrong size.
    ///
    /// ```
    /// let parameters = davgyuti::Parameters::of(b"\0\x05\0\x08\xc0\0\x02\x01\x80\0\0\x04");
    /// assert!(parameters.addresses().eq([std::net::IpAddr::from([192, 0, 2, 1])]));
    /// ```
    pub fn addresses(self) -> impl Iterator<Item = IpAddr> + 'a {
        self.filter_map(|it| match it.registered()? {
            RegisteredParameter::Ipv4Address { address }
            | RegisteredParameter::Ipv6Address { address } => Some(address),
            _ => None,
        })
    }
}

/// Defines an iterator over a list whose items have one size: `bytes` are those that are left, and
/// each item is read of its own by the function that is named.
macro_rules! list_of_numbers {
    ($(#[$about:meta])* $name:ident, $item:ty, $read:expr) => {
        $(#[$about])*
        #[derive(Clone)]
        pub struct $name<'a> {
            pub(crate) bytes: &'a [u8],
            pub(crate) size: usize,
        }

        list_of_items!($name);

        impl $name<'_> {
            #[inline]
            fn read(bytes: &[u8]) -> $item {
                let read: fn(&[u8]) -> $item = $read;
                read(bytes)
            }
        }

        impl Iterator for $name<'_> {
            type Item = $item;

            #[inline]
            fn next(&mut self) -> Option<$item> {
                let (item, rest) = self.bytes.split_at_checked(self.size)?;
                self.bytes = rest;
                Some(Self::read(item))
            }

            #[inline]
            fn size_hint(&self) -> (usize, Option<usize>) {
                let count = self.bytes.len() / self.size;
                (count, Some(count))
            }

            #[inline]
            fn nth(&mut self, n: usize) -> Option<$item> {
                let skipped = n.saturating_mul(self.size);
                self.bytes = self.bytes.get(skipped..).unwrap_or_default();
                self.next()
            }
        }

        impl DoubleEndedIterator for $name<'_> {
            #[inline]
            fn next_back(&mut self) -> Option<$item> {
                let end = self.bytes.len().checked_sub(self.size)?;
                let (rest, item) = self.bytes.split_at_checked(end)?;
                self.bytes = rest;
                Some(Self::read(item))
            }
        }

        impl ExactSizeIterator for $name<'_> {}
        impl FusedIterator for $name<'_> {}
    };
}
pub(crate) use list_of_numbers;

list_of_numbers! {
    /// Numbers of two bytes: the types of Supported Address Types (RFC 9260 section 3.3.2.1.5), the
    /// identifiers of Requested HMAC Algorithm (RFC 4895 section 3.3).
    ///
    /// ```
    /// // IPv4 and IPv6.
    /// let mut output = [0; 4];
    /// let types = davgyuti::ShortNumbers::write(&mut output, &[5, 6])?;
    /// assert!(types.eq([5, 6]) && davgyuti::ShortNumbers::of(&[0, 5, 0, 6]).eq([5, 6]));
    /// # Ok::<(), davgyuti::WriteError>(())
    /// ```
    #[doc(alias = "dcsctp_short_numbers")]
    ShortNumbers, u16, |it| u16_at(it, 0)
}

impl<'a> ShortNumbers<'a> {
    /// Returns the numbers that bytes are, the most significant byte of each first; a last one is
    /// ignored that has no second byte.
    #[must_use]
    pub const fn of(bytes: &'a [u8]) -> Self {
        Self { bytes: bytes.split_at(bytes.len() / 2 * 2).0, size: 2 }
    }

    /// Writes numbers to the front of `output`, and returns them, to be added to a packet.
    ///
    /// # Errors
    /// [`WriteError::NoRoom`].
    pub fn write(output: &'a mut [u8], numbers: &[u16]) -> Result<Self, WriteError> {
        let output = output.get_mut(..2 * numbers.len()).ok_or(WriteError::NoRoom)?;
        for (two, number) in output.chunks_exact_mut(2).zip(numbers) {
            two.copy_from_slice(&number.to_be_bytes());
        }
        Ok(Self::of(output))
    }

    /// The bytes of the numbers that are left.
    pub(crate) const fn as_bytes(&self) -> &'a [u8] {
        self.bytes
    }
}
