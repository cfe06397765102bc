# SPDX-License-Identifier: Apache-2.0
"""Parameters and error causes, where they lie, in Rust: one text for both."""
from languages.rust_words import LICENSE, call

FRONT = '''\
//! Parameters and error causes, where they lie.

use crate::builder::{ChunkBuilder, PacketBuilder, add};
use crate::chunk::{Chunk, FIRST_CHUNK, read, same_bytes};
use crate::debug::list_of_items;
use crate::error::WriteError;
use crate::list::{Item, Items};
use crate::registered::{RegisteredCause, RegisteredParameter};
use crate::types::{CauseCode, ParameterType};
use core::iter::FusedIterator;
'''

LEVEL = '''
/// The [many] of a list (RFC 9260 section [section]), up to where no whole one is: of a chunk, or
/// of what is in another one.
///
/// ```
/// # let bytes = *b"\\0\\x01\\0\\x02\\0\\0\\0\\x03\\0\\0\\0\\0[chunk]";
/// # let chunk = davgyuti::Chunk::at(&bytes, 12).unwrap();
/// let values: Vec<&[u8]> = chunk.[list]().map(|it| it.value()).collect();
/// assert_eq!(values, [b"info"]);
/// ```
#[doc(alias = "dcsctp_parameter_at")]
#[derive(Clone)]
pub struct [List]<'a>(pub(crate) Items<'a>);

list_of_items!([List]);

impl<'a> [List]<'a> {
    #[inline]
    pub(crate) fn of_chunk(chunk: &Chunk<'a>) -> Self {
        Self(Items::of_chunk(chunk, chunk.place_of_[list]()))
    }

    /// Those from an offset of the bytes on.
    pub(crate) const fn at(bytes: &'a [u8], next: usize) -> Self {
        Self(Items { bytes, next })
    }

    /// Returns the [many] that bytes are, one after the other, with their padding: to be read,
    /// or to be added as those of a type of IANA's registry, say.
    ///
    /// ```
    /// // Two, of which the last lacks its padding.
    /// let two = davgyuti::[List]::of(b"\\0\\x07\\0\\x04\\0\\x08\\0\\x05r");
    /// assert!(two.map(|it| it.value()).eq([&b""[..], b"r"]));
    /// ```
    #[must_use]
    pub const fn of(bytes: &'a [u8]) -> Self {
        Self::at(bytes, 0)
    }

    /// Returns the bytes of the [many] that are left, with the padding between them; and what
    /// follows them that is no whole one.
    ///
    /// ```
    /// let mut two = davgyuti::[List]::of(b"\\0\\x07\\0\\x04\\0\\x08\\0\\x05r");
    /// two.next();
    /// assert_eq!(two.as_bytes(), b"\\0\\x08\\0\\x05r");
    /// ```
    #[must_use]
    pub fn as_bytes(&self) -> &'a [u8] {
        self.0.as_bytes()
    }
}

impl<'a> Iterator for [List]<'a> {
    type Item = [Item]<'a>;

    #[inline]
    fn next(&mut self) -> Option<[Item]<'a>> {
        self.0.next().map([Item])
    }
}

impl FusedIterator for [List]<'_> {}

/// [A] (RFC 9260 section [section]), where it lies in a packet's bytes.
///
/// `==` and [`Hash`] are of the [number] and the value: where it lies, in which packet, and its
/// padding don't matter.
///
/// ```
/// let it = davgyuti::[List]::of(b"\\0\\x07\\0\\x08abcd").next().unwrap();
/// assert_eq!((it.[method]().0, it.value()), (7, &b"abcd"[..]));
/// ```
#[derive(Clone, Copy)]
pub struct [Item]<'a>(Item<'a>);

// The [number] and the value: the length between them is that of the value.
same_bytes!([Item]<'_>);

impl<'a> [Item]<'a> {
    /// Writes one with this [number] and this value (RFC 9260 section [section]) to the front of
    /// `output`, and returns it, to be read as one that lies in a packet.
    ///
    /// ```
    /// let mut output = [0; 100];
    /// let it = davgyuti::[Item]::write(&mut output, davgyuti::[Number](7), &[0, 0, 0, 1])?;
    /// assert_eq!(it.as_bytes(), [0, 7, 0, 8, 0, 0, 0, 1]);
    /// # Ok::<(), davgyuti::WriteError>(())
    /// ```
    ///
    /// # Errors
    /// [`WriteError::BadValue`] where it would have more than 65,535 bytes, or
    /// [`WriteError::NoRoom`].
    pub fn write(
        output: &'a mut [u8],
        [method]: [Number],
        value: &[u8],
    ) -> Result<Self, WriteError> {
        Item::write(output, [method].0, value).map(Self)
    }

    /// Returns the [number] (RFC 9260 section [section]).
    ///
    /// ```
    /// let it = davgyuti::[List]::of(b"\\0\\x07\\0\\x04").next().unwrap();
    /// assert_eq!(it.[method](), davgyuti::[Number](7));
    /// ```
    #[must_use]
    #[inline]
    pub const fn [method](&self) -> [Number] {
        [Number](self.0.number)
    }

    /// Returns the value, without padding (RFC 9260 section [section]): of a type that is bytes or a
    /// text these, which need not be UTF-8.
    ///
    /// ```
    /// let it = davgyuti::[List]::of(b"\\0\\x07\\0\\x05a\\0\\0\\0").next().unwrap();
    /// assert_eq!(it.value(), b"a");
    /// ```
    #[must_use]
    #[inline]
    pub const fn value(&self) -> &'a [u8] {
        self.0.value
    }

    /// Returns the header and the value, without padding: what is sent back of one that isn't known
    /// (RFC 9260 sections 3.3.3.1.2 and 3.3.10.8). To keep several, take
    /// [`[List]::as_bytes`], which has the padding between them.
    ///
    /// ```
    /// let it = davgyuti::[List]::of(b"\\0\\x07\\0\\x05a\\0\\0\\0").next().unwrap();
    /// assert_eq!(it.as_bytes(), b"\\0\\x07\\0\\x05a");
    /// ```
    #[must_use]
    pub fn as_bytes(&self) -> &'a [u8] {
        self.0.as_bytes()
    }

    /// Returns where it begins in the packet's bytes.
    ///
    /// ```
    /// # let bytes = *b"\\0\\x01\\0\\x02\\0\\0\\0\\x03\\0\\0\\0\\0[chunk]";
    /// # let chunk = davgyuti::Chunk::at(&bytes, 12).unwrap();
    /// assert!(chunk.[list]().map(|it| it.offset()).eq([16]));
    /// ```
    #[must_use]
    #[inline]
    pub const fn offset(&self) -> usize {
        self.0.offset
    }

    /// Returns a value that is one number of four bytes, as of [numbers]. Any value of four bytes is
    /// read so: look at the [number] first.
    ///
    /// ```
    /// let it = davgyuti::[List]::of(b"\\0\\x07\\0\\x08\\0\\0\\0\\x29").next().unwrap();
    /// assert_eq!(it.number(), Some(41));
    /// ```
    #[doc(alias = "dcsctp_number")]
    #[must_use]
    #[inline]
    pub fn number(&self) -> Option<u32> {
        Some(u32::from_be_bytes(self.0.value.try_into().ok()?))
    }

    /// Returns it by its fields, if its [number] is one of [`[Registered]`]; none where the value
    /// has a size that it can't have, or a list that is broken.
    ///
    /// ```
    /// let it = davgyuti::[List]::of([bytes]).next().unwrap();
    /// assert_eq!(it.registered(), Some(davgyuti::[Registered]::[value]));
    /// ```
    #[doc(alias = "dcsctp_[registered]")]
    #[must_use]
    pub fn registered(&self) -> Option<[Registered]<'a>> {
        let it = read!(self.0, dcsctp_[registered])?;
        [Registered]::of(self.[method](), &it)
    }
}
'''
LEVELS = {
    'parameter': {
        'many': 'parameters', 'section': '3.2.1', 'list': 'parameters', 'List': 'Parameters', 'Item': 'Parameter', 'A': 'A parameter',
        'number': 'type', 'method': 'parameter_type', 'a': 'a parameter', 'item': 'parameter', 'outer': 're_config', 'Number': 'ParameterType', 'Registered': 'RegisteredParameter',
        'registered': 'registered_parameter', 'chunk': r'\x04\0\0\x0c\0\x01\0\x08info', 'numbers': 'Zero Checksum Acceptable the method',
        'bytes': r'b"\xc0\x05\0\x08\0\0\0\x07"', 'value': 'SuccessIndication { correlation_id: 7 }'},
    'cause': {
        'many': 'error causes', 'section': '3.3.10', 'list': 'causes', 'List': 'Causes', 'Item': 'Cause', 'A': 'An error cause',
        'number': 'code', 'method': 'code', 'a': 'an error cause', 'item': 'cause', 'outer': 'error', 'Number': 'CauseCode', 'Registered': 'RegisteredCause', 'registered': 'registered_cause',
        'chunk': r'\x09\0\0\x0c\0\x0c\0\x08info', 'numbers': 'No User Data the TSN',
        'bytes': r'b"\0\x03\0\x08\0\0\x01\0"', 'value': 'StaleCookie { microseconds: 256 }'},
}


METHODS = '''
impl [Registered]<'_> {
    /// Writes it into `output`, and returns it, to be put into another one, say. It needs room for 16
    /// bytes more.
    ///
    /// ```
    /// let mut output = [0; 24];
    /// let it = davgyuti::[Registered]::[value].write(&mut output)?;
    /// assert_eq!(it.as_bytes(), [bytes]);
    /// # Ok::<(), davgyuti::WriteError>(())
    /// ```
    ///
    /// # Errors
    /// As of [`[registered]`](ChunkBuilder::[registered]).
    pub fn write<'b>(&self, output: &'b mut [u8]) -> Result<[Item]<'b>, WriteError> {
        let mut packet = PacketBuilder::begin(output, 0, 0, 0)?;
        packet.[outer]()?.[registered](self)?;
        let chunk = Chunk::at(packet.unsealed(), FIRST_CHUNK).ok_or(WriteError::BadPlace)?;
        chunk.[list]().next().ok_or(WriteError::BadPlace)
    }
}

impl ChunkBuilder<'_, '_> {
    /// Adds [a] (RFC 9260 section [section]).
    ///
    /// ```
    /// # let mut buffer = [0; 100];
    /// # let mut packet = davgyuti::PacketBuilder::begin(&mut buffer, 5000, 5001, 7)?;
    /// packet.[outer]()?.[item](davgyuti::[Number](7), b"why")?;
    /// assert_eq!(packet.as_bytes()[16..], *b"\\0\\x07\\0\\x07why\\0");
    /// # Ok::<(), davgyuti::WriteError>(())
    /// ```
    ///
    /// # Errors
    /// [`WriteError::BadValue`] or [`WriteError::NoRoom`].
    #[doc(alias = "dcsctp_add_parameter")]
{add}        self.item([method].0, [], value.len())?.copy_from_slice(value);
        Ok(self)
    }

    /// Adds [a] whose value is a number of four bytes, as of [numbers].
    ///
    /// ```
    /// # let mut buffer = [0; 100];
    /// # let mut packet = davgyuti::PacketBuilder::begin(&mut buffer, 5000, 5001, 7)?;
    /// packet.[outer]()?.number_[item](davgyuti::[Number](7), 41)?;
    /// assert_eq!(packet.as_bytes()[16..], [0, 7, 0, 8, 0, 0, 0, 41]);
    /// # Ok::<(), davgyuti::WriteError>(())
    /// ```
    ///
    /// # Errors
    /// [`WriteError::BadValue`] or [`WriteError::NoRoom`].
    #[doc(alias = "dcsctp_add_number")]
{number}        self.item([method].0, number.to_be_bytes(), 0)?;
        Ok(self)
    }

    /// Adds [a] of the rest of IANA's registry by its fields.
    ///
    /// ```
    /// # let mut buffer = [0; 100];
    /// # let mut packet = davgyuti::PacketBuilder::begin(&mut buffer, 5000, 5001, 7)?;
    /// packet.[outer]()?.[registered](&davgyuti::[Registered]::[value])?;
    /// assert_eq!(packet.as_bytes()[16..], *[bytes]);
    /// # Ok::<(), davgyuti::WriteError>(())
    /// ```
    ///
    /// # Errors
    /// Any [`WriteError`]; [`WriteError::BadValue`] also where the type does not allow it: an address
    /// of the other version of IP, a list that is broken.
    #[doc(alias = "dcsctp_add_[registered]")]
{registered}        let (raw, number) = ([item].raw(), [item].[method]().0);
        let (fields, bytes, _) = raw.parts();
        let (fields, first, count) = (&raw const fields, bytes.as_ptr(), bytes.len());
        let start = self.packet.last;
        add!(self.packet, dcsctp_add_[registered], start, number, fields, first, count)?;
        Ok(self)
    }
}
'''
RESULT = ') -> Result<&mut Self, WriteError> {'


def rust_items(table):
    texts = [LICENSE, FRONT]
    for words in LEVELS.values():
        item, method, number = words['item'], words['method'], words['Number']
        text = LEVEL + METHODS.replace('{add}', call(4, f'pub fn {item}(', ['&mut self', f'{method}: {number}', 'value: &[u8]'], RESULT)).replace(
            '{number}', call(4, f'pub fn number_{item}(', ['&mut self', f'{method}: {number}', 'number: u32'], RESULT)).replace(
            '{registered}', call(4, f'pub fn registered_{item}(', ['&mut self', f'{item}: &{words["Registered"]}'], RESULT))
        for word, value in words.items():
            text = text.replace(f'[{word}]', value)
        head = f"    pub fn write(\n        output: &'a mut [u8],\n        {words['method']}: {words['Number']},\n        value: &[u8],\n    ) -> "
        line = f"    pub fn write(output: &'a mut [u8], {words['method']}: {words['Number']}, value: &[u8]) -> Result<Self, WriteError> {{"
        texts.append(text.replace(head + 'Result<Self, WriteError> {', line) if len(line) <= 100 else text)
    return ''.join(texts)
