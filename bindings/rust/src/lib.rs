// SPDX-License-Identifier: Apache-2.0
#![doc = include_str!("../README.md")]
#![no_std]
#![warn(missing_docs)]

#[cfg(feature = "alloc")]
extern crate alloc;
#[cfg(feature = "std")]
extern crate std;

mod auth;
mod builder;
mod chunk;
mod debug;
mod error;
mod ffi;
mod items;
mod kinds;
mod list;
#[cfg(feature = "alloc")]
mod owned;
mod packet;
#[cfg(feature = "processor-crc32c")]
mod processor;
mod raw;
mod receive;
mod registered;
mod returned;
mod rule;
mod rules;
mod text;
mod types;
mod values;
mod writes;

pub use auth::{Cookie, is_listed, open_cookie, seal_cookie, shared_key, sign_auth, verify_auth};
pub use builder::{ChunkBuilder, MAX_PACKET, PacketBuilder};
pub use chunk::{Chunk, Chunks, FIRST_CHUNK};
pub use error::{CookieError, Fault, FaultKind, OutputError, UnknownNumber, WriteError};
pub use items::{Cause, Causes, Parameter, Parameters};
pub use kinds::{
    Content, Data, DuplicateTsns, ForwardTsn, GapAckBlock, GapAckBlocks, Init, MissingParameters,
    NextTsns, ReConfig, ReConfigResult, ResetStreams, Sack, SkippedStream, SkippedStreams,
    TAG_REFLECTED,
};
pub use list::ShortNumbers;
#[cfg(feature = "alloc")]
pub use owned::{OwnedChunk, OwnedPacket};
pub use packet::{
    Packet, Word, check, clean_blocks, first_fault, needs_checksum, seal, set_tag, word,
};
pub use receive::{
    Association, adds_addresses, init_fault, init_refusal, out_of_the_blue, unrecognized_chunk,
    unrecognized_parameter, verify_tag,
};
pub use registered::{RegisteredCause, RegisteredChunk, RegisteredParameter};
pub use returned::{Action, Answer, InitFault, Refusal, TagVerdict};
pub use rule::{Known, Rules, broken_rules};
pub use rules::Rule;
pub use types::{CauseCode, ChunkType, ParameterType};
pub use values::{Header, Policy};

/// The version of this crate, and of the library in it.
pub const VERSION: &str = env!("CARGO_PKG_VERSION");

/// Returns the library's version as a number: the major one times 65,536, the minor one times 256,
/// and the patch.
///
/// ```
/// // 0.1.0
/// assert_eq!(davgyuti::version_number(), 0x0100);
/// ```
#[doc(alias = "dcsctp_version_number")]
#[must_use]
pub fn version_number() -> u32 {
    // SAFETY: it takes nothing.
    unsafe { ffi::dcsctp_version_number() }
}
