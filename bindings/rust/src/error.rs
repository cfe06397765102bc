// SPDX-License-Identifier: Apache-2.0
//! What can be wrong.

pub use crate::returned::{FaultKind, WriteError};
use core::error::Error;
use core::fmt;

/// Calls a function of C. Of a slice in brackets it takes the pointer and the length, as of all others
/// what is passed: a number, or a pointer to a value that is there.
macro_rules! call {
    (@ $function:ident [$($done:expr),*]) => {
        // SAFETY: a pointer with a length is of a slice, and another of a value of the caller. What is
        // written is borrowed mutably, so nothing overlaps it.
        unsafe { crate::ffi::$function($($done),*) }
    };
    (@ $function:ident [$($done:expr),*] mut [$it:expr] $(, $($rest:tt)*)?) => {
        crate::error::call!(@ $function [$($done,)* $it.as_mut_ptr(), $it.len()] $($($rest)*)?)
    };
    (@ $function:ident [$($done:expr),*] [$it:expr] $(, $($rest:tt)*)?) => {
        crate::error::call!(@ $function [$($done,)* $it.as_ptr(), $it.len()] $($($rest)*)?)
    };
    (@ $function:ident [$($done:expr),*] $it:expr $(, $($rest:tt)*)?) => {
        crate::error::call!(@ $function [$($done,)* $it] $($($rest)*)?)
    };
    ($function:ident, $($rest:tt)*) => { crate::error::call!(@ $function [] $($rest)*) };
}
pub(crate) use call;

impl FaultKind {
    /// The kind of a code that a check returned; none for 0.
    #[inline]
    pub(crate) fn of(code: u32) -> Option<Self> {
        (code != 0).then(|| Self::of_number(code).expect("a check returns 0 to 5"))
    }
}

impl From<Fault> for FaultKind {
    fn from(fault: Fault) -> Self {
        fault.kind
    }
}

/// The first fault of bytes that are no packet, from the left: what it is, and where.
///
/// The size is checked first, then the checksum, then the chunks.
///
/// ```
/// use davgyuti::{Fault, FaultKind, Packet};
///
/// let fault = Packet::parse(&[0; 4]).unwrap_err();
/// assert_eq!(fault, Fault { kind: FaultKind::Size, offset: 4 });
/// assert_eq!(fault.to_string(), "not the size of a packet at byte 4");
/// ```
#[derive(Clone, Copy, PartialEq, Eq, Hash, Debug)]
pub struct Fault {
    /// What is wrong.
    pub kind: FaultKind,
    /// Where, in bytes from the first. For [`FaultKind::Size`] the number of bytes, or 65,535 if
    /// that is less; for [`FaultKind::Checksum`] 8; for [`FaultKind::Length`] and
    /// [`FaultKind::Value`] where the chunk, parameter or error cause begins; for
    /// [`FaultKind::Padding`] the first wrong byte, or the end of the bytes.
    pub offset: usize,
}

impl fmt::Display for Fault {
    fn fmt(&self, f: &mut fmt::Formatter<'_>) -> fmt::Result {
        write!(f, "{} at byte {}", self.kind, self.offset)
    }
}

impl Error for Fault {}

/// Why a packet wasn't written as text, or in its canonical form.
#[derive(Clone, Copy, PartialEq, Eq, Hash, Debug)]
#[non_exhaustive]
pub enum OutputError {
    /// An allocation failed.
    OutOfMemory,
    /// The output is too small.
    NoRoom {
        /// The size that is needed, in bytes.
        needed: usize,
    },
    /// The canonical form would have more than 65,532 bytes.
    TooLong,
}

impl fmt::Display for OutputError {
    fn fmt(&self, f: &mut fmt::Formatter<'_>) -> fmt::Result {
        match self {
            Self::OutOfMemory => f.pad("out of memory"),
            Self::NoRoom { needed } => write!(f, "no room: {needed} bytes are needed"),
            Self::TooLong => f.pad("no canonical packet is as long"),
        }
    }
}

impl Error for OutputError {}

impl WriteError {
    /// The result of a code that a function returned that writes.
    pub(crate) fn check(code: u32) -> Result<(), Self> {
        match code {
            0 => Ok(()),
            _ => Err(Self::of_number(code).expect("a function that writes returns 0, 7, 9 or 10")),
        }
    }
}

/// Why a State Cookie [isn't opened](crate::open_cookie) (RFC 9260 section 5.1.5).
#[derive(Clone, Copy, PartialEq, Eq, Hash, Debug)]
pub enum CookieError {
    /// It was sealed under the key, and is no longer good.
    Stale {
        /// For how many microseconds it hasn't been good: of these the cause
        /// [Stale Cookie](crate::RegisteredCause::StaleCookie) has the lower 32 bits (RFC 9260
        /// section 3.3.10.3).
        staleness: u64,
    },
    /// It wasn't sealed under the key: the packet is discarded, without an answer.
    Invalid,
}

impl CookieError {
    /// Returns the number that the C API has for it: 1 or 2.
    #[must_use]
    pub const fn code(self) -> u32 {
        match self {
            Self::Stale { .. } => 1,
            Self::Invalid => 2,
        }
    }
}

impl fmt::Display for CookieError {
    fn fmt(&self, f: &mut fmt::Formatter<'_>) -> fmt::Result {
        match self {
            Self::Stale { staleness } => write!(f, "stale cookie, for {staleness} microseconds"),
            Self::Invalid => f.pad("invalid cookie"),
        }
    }
}

impl Error for CookieError {}

/// Defines how an error here is one of input and output.
#[cfg(feature = "std")]
macro_rules! into_io {
    ($($name:ident, $kind:ident;)*) => {$(
        impl From<$name> for std::io::Error {
            #[doc = concat!("Returns one of the kind `", stringify!($kind), "` around it. This needs the feature `std`.")]
            fn from(error: $name) -> Self {
                Self::new(std::io::ErrorKind::$kind, error)
            }
        }
    )*};
}

#[cfg(feature = "std")]
into_io! {
    Fault, InvalidData;
    WriteError, InvalidInput;
}

/// A number that has no name: what the conversions from `u32` return.
#[derive(Clone, Copy, PartialEq, Eq, Hash, Debug)]
pub struct UnknownNumber(pub u32);

impl fmt::Display for UnknownNumber {
    fn fmt(&self, f: &mut fmt::Formatter<'_>) -> fmt::Result {
        write!(f, "unknown number {}", self.0)
    }
}

impl Error for UnknownNumber {}
