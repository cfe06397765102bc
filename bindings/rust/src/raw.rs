// SPDX-License-Identifier: Apache-2.0
//! The fields of the rest of IANA's registry, as C has them.

use crate::chunk::part;
use crate::ffi;
use crate::items::{Causes, Parameters};
use crate::list::ShortNumbers;
use core::net::IpAddr;

/// What C read of a value in these bytes.
pub(crate) struct Read<'a> {
    pub(crate) bytes: &'a [u8],
    pub(crate) fields: ffi::Registered,
}

impl<'a> Read<'a> {
    pub(crate) const fn counts(&self) -> [u16; 3] {
        let it = &self.fields;
        [it.short_number, it.second_short_number, it.third_short_number]
    }

    /// None where an address has another size than C says that it has.
    pub(crate) fn address(&self) -> Option<IpAddr> {
        let octets = part(self.bytes, self.fields.address_offset, self.fields.address_size);
        match <[u8; 4]>::try_from(octets) {
            Ok(it) => Some(it.into()),
            Err(_) => Some(<[u8; 16]>::try_from(octets).ok()?.into()),
        }
    }

    pub(crate) fn rest(&self) -> &'a [u8] {
        part(self.bytes, self.fields.rest_offset, self.fields.rest_size)
    }

    pub(crate) fn short_numbers(&self) -> ShortNumbers<'a> {
        ShortNumbers::of(self.rest())
    }

    fn to_end(&self) -> (&'a [u8], usize) {
        let start = self.fields.rest_offset;
        (part(self.bytes, 0, start + self.fields.rest_size), start)
    }

    pub(crate) fn parameters(&self) -> Parameters<'a> {
        let (bytes, start) = self.to_end();
        Parameters::at(bytes, start)
    }

    pub(crate) fn causes(&self) -> Causes<'a> {
        let (bytes, start) = self.to_end();
        Causes::at(bytes, start)
    }
}

/// The fields to be written, and what they lie in: an address, or the bytes that end the value.
#[derive(Default)]
pub(crate) struct Raw<'a> {
    pub(crate) fields: ffi::Registered,
    octets: [u8; 16],
    pub(crate) rest: &'a [u8],
}

impl Raw<'_> {
    pub(crate) fn put_counts(&mut self, counts: [u16; 3]) {
        let it = &mut self.fields;
        [it.short_number, it.second_short_number, it.third_short_number] = counts;
    }

    pub(crate) fn put_address(&mut self, address: IpAddr) {
        let size = if address.is_ipv4() { 4 } else { 16 };
        match address {
            IpAddr::V4(it) => self.octets[..size].copy_from_slice(&it.octets()),
            IpAddr::V6(it) => self.octets.copy_from_slice(&it.octets()),
        }
        self.fields.address_size = size;
    }

    /// Returns the struct, the bytes that its places lie in, and the parameters that have to be added
    /// after an address: C asks for these and for the address in one slice. registry/make.py sees to it
    /// that nothing else follows an address, and that of a chunk alone.
    pub(crate) fn parts(&self) -> (ffi::Registered, &[u8], &[u8]) {
        if self.fields.address_size != 0 {
            return (self.fields, &self.octets[..self.fields.address_size], self.rest);
        }
        (ffi::Registered { rest_size: self.rest.len(), ..self.fields }, self.rest, &[])
    }
}
