// SPDX-License-Identifier: Apache-2.0
//! What `{:?}` shows: names, numbers and lists, and of long bytes the beginning. And what `==` of
//! lists compares.

use crate::types::ChunkType;
use core::fmt::{Debug, Formatter, Result};

/// How many bytes are shown.
const SHOWN: usize = 32;

/// Bytes, shown as Rust writes them: `b"abc"`; of many the first, and how many they are.
pub(crate) struct Bytes<'a>(pub(crate) &'a [u8]);

impl Debug for Bytes<'_> {
    fn fmt(&self, f: &mut Formatter<'_>) -> Result {
        let (count, shown) = (self.0.len(), self.0.get(..SHOWN).unwrap_or(self.0));
        write!(f, "b\"{}\"", shown.escape_ascii())?;
        if count > SHOWN { write!(f, ".. of {count} bytes") } else { Ok(()) }
    }
}

/// Has `{:?}` of an iterator show the items that are left, and `==` compare them.
macro_rules! list_of_items {
    ($name:ident) => {
        impl core::fmt::Debug for $name<'_> {
            fn fmt(&self, f: &mut core::fmt::Formatter<'_>) -> core::fmt::Result {
                f.debug_list().entries(self.clone()).finish()
            }
        }

        impl PartialEq for $name<'_> {
            fn eq(&self, other: &Self) -> bool {
                self.clone().eq(other.clone())
            }
        }

        impl Eq for $name<'_> {}
    };
}
pub(crate) use list_of_items;

/// The types of chunks that Supported Extensions has, a byte for each.
pub(crate) struct ChunkTypes<'a>(pub(crate) &'a [u8]);

impl Debug for ChunkTypes<'_> {
    fn fmt(&self, f: &mut Formatter<'_>) -> Result {
        f.debug_list().entries(self.0.iter().copied().map(ChunkType)).finish()
    }
}
