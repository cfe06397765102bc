// SPDX-License-Identifier: Apache-2.0
//! What is authenticated, under keys of the caller: chunks after AUTH (RFC 4895), and State Cookies
//! (RFC 9260 section 5.1.3).

use crate::error::{CookieError, WriteError, call};
use crate::ffi;
use crate::types::ChunkType;

/// Returns whether a chunk of this type has to come after AUTH: `chunk_list` is the value of the
/// receiver's Chunk List, a type in each byte, in which INIT, INIT ACK, SHUTDOWN COMPLETE and AUTH
/// are ignored (RFC 4895 section 3.2).
///
/// ```
/// use davgyuti::ChunkType;
///
/// let chunk_list = [ChunkType::ASCONF, ChunkType::INIT].map(u8::from);
/// assert!(davgyuti::is_listed(&chunk_list, ChunkType::ASCONF));
/// assert!(!davgyuti::is_listed(&chunk_list, ChunkType::INIT));
/// ```
#[doc(alias = "dcsctp_is_listed")]
#[must_use]
pub fn is_listed(chunk_list: &[u8], chunk_type: ChunkType) -> bool {
    call!(dcsctp_is_listed, [chunk_list], chunk_type.0)
}

/// Writes an association shared key to the front of `output`, and returns it (RFC 4895 section
/// 6.1): the endpoint pair shared key, which may be empty, and then the key vectors of both ends in
/// the order that the section gives, whichever is passed first.
///
/// A key vector is the parameters Random, Chunk List and Requested HMAC Algorithm that an end sent,
/// in this order, each with its header and without padding.
///
/// ```
/// let mut output = [0; 8];
/// assert_eq!(davgyuti::shared_key(&mut output, b"pair", b"2", b"1")?, b"pair12");
/// # Ok::<(), davgyuti::WriteError>(())
/// ```
///
/// # Errors
/// [`WriteError::NoRoom`] where the output has fewer bytes than these three; it stays as it is.
#[doc(alias = "dcsctp_shared_key")]
pub fn shared_key<'a>(
    output: &'a mut [u8],
    pair_key: &[u8],
    one: &[u8],
    other: &[u8],
) -> Result<&'a mut [u8], WriteError> {
    let mut size = 0;
    let at = &raw mut size;
    WriteError::check(call!(dcsctp_shared_key, mut [output], at, [pair_key], [one], [other]))?;
    Ok(&mut output[..size])
}

/// Returns whether the HMAC of an AUTH chunk is right under an association shared key (RFC 4895
/// section 6.3).
///
/// `bytes` are those of the packet from the AUTH chunk on, up to its end. It is false also where no
/// AUTH is there, its HMAC identifier is another than 1 (SHA-1) and 3 (SHA-256), or its HMAC has
/// another length than theirs, 20 and 32 bytes.
///
/// ```
/// use davgyuti::{Packet, PacketBuilder, RegisteredChunk};
///
/// let mut buffer = [0; 100];
/// let mut packet = PacketBuilder::begin(&mut buffer, 5000, 5001, 7)?;
/// let start = packet.size();
/// packet.registered(&RegisteredChunk::Auth { key: 0, hmac_identifier: 3, hmac: &[0; 32] })?;
/// packet.cookie_ack()?;
/// let packet = packet.unsealed();
/// davgyuti::sign_auth(b"key", &mut packet[start..])?;
/// davgyuti::seal(packet)?;
///
/// let auth = Packet::parse(packet)?.chunks().next().unwrap();
/// assert!(davgyuti::verify_auth(b"key", &packet[auth.offset()..]));
/// assert!(!davgyuti::verify_auth(b"other key", &packet[auth.offset()..]));
/// # Ok::<(), Box<dyn std::error::Error>>(())
/// ```
#[doc(alias = "dcsctp_verify_auth")]
#[must_use]
pub fn verify_auth(key: &[u8], bytes: &[u8]) -> bool {
    call!(dcsctp_verify_auth, [key], [bytes])
}

/// Writes the HMAC into an AUTH chunk, whose field has to be as long, under an association shared
/// key (RFC 4895 section 6.2); all other bytes stay.
///
/// `bytes` are those of the packet from the AUTH chunk on, up to its end. Add all that AUTH is to
/// authenticate first, and [seal](crate::seal) the packet after this. [`verify_auth`] has an
/// example.
///
/// # Errors
/// [`WriteError::BadPlace`], and nothing changes, where [`verify_auth`] returns false whatever the
/// HMAC is.
#[doc(alias = "dcsctp_sign_auth")]
pub fn sign_auth(key: &[u8], bytes: &mut [u8]) -> Result<(), WriteError> {
    let is_signed = call!(dcsctp_sign_auth, [key], mut [bytes]);
    if is_signed { Ok(()) } else { Err(WriteError::BadPlace) }
}

/// What a State Cookie says: what its sender needs to set up the association, and for how long (RFC
/// 9260 section 5.1.3). *Local* is the end that seals and opens it. [`seal_cookie`] has an example.
#[derive(Clone, Copy, Default, PartialEq, Eq, Hash, Debug)]
pub struct Cookie<'a> {
    /// When it was sealed, in microseconds on your clock.
    pub created: u64,
    /// For how long it is good, in microseconds.
    pub lifespan: u64,
    /// The initiate tag of the INIT ACK.
    pub local_tag: u32,
    /// The initiate tag of the INIT.
    pub peer_tag: u32,
    /// The Local Tie-Tag (RFC 9260 section 5.2.2): 0 where the INIT came without an association.
    pub local_tie_tag: u32,
    /// The Peer's Tie-Tag (RFC 9260 section 5.2.2): 0 where the INIT came without an association.
    pub peer_tie_tag: u32,
    /// The initial TSN of the INIT ACK.
    pub local_initial_tsn: u32,
    /// The initial TSN of the INIT.
    pub peer_initial_tsn: u32,
    /// The port of the local end.
    pub local_port: u16,
    /// The port of the peer.
    pub peer_port: u16,
    /// The number of streams on which the local end sends.
    pub outbound_streams: u16,
    /// The number of streams on which the peer sends.
    pub inbound_streams: u16,
    /// Further bytes of yours, of any length: AUTH's key vectors, say, or the parameters of the
    /// peer's INIT by [`Parameters::as_bytes`](crate::Parameters::as_bytes), with its addresses,
    /// which [`Parameters::of`](crate::Parameters::of) reads back.
    pub extra: &'a [u8],
}

/// What a cookie says, here or in C, with the numbers of the other.
#[rustfmt::skip]
macro_rules! same_numbers {
    ($cookie:path, $other:expr, $($more:tt)*) => {{
        let it = $other;
        let (created, lifespan, local_tag, peer_tag) = (it.created, it.lifespan, it.local_tag, it.peer_tag);
        let (local_tie_tag, peer_tie_tag) = (it.local_tie_tag, it.peer_tie_tag);
        let (local_initial_tsn, peer_initial_tsn) = (it.local_initial_tsn, it.peer_initial_tsn);
        let (local_port, peer_port) = (it.local_port, it.peer_port);
        let (outbound_streams, inbound_streams) = (it.outbound_streams, it.inbound_streams);
        $cookie {
            created, lifespan, local_tag, peer_tag, local_tie_tag, peer_tie_tag, local_initial_tsn, peer_initial_tsn,
            local_port, peer_port, outbound_streams, inbound_streams, $($more)*
        }
    }};
}

/// Writes a State Cookie to the front of `output`, and returns it: 80 bytes, with an HMAC over what
/// it says (RFC 9260 section 5.1.3), and the extra ones. Let the key be 32 random bytes that nobody
/// else knows.
///
/// ```
/// use davgyuti::{Cookie, CookieError};
///
/// let says = Cookie { created: 5, lifespan: 10, extra: &[192, 0, 2, 1], ..Cookie::default() };
/// let mut output = [0; 100];
/// let sealed = davgyuti::seal_cookie(&mut output, b"key", &says)?;
/// assert_eq!(sealed.len(), 80 + 4);
/// assert_eq!(davgyuti::open_cookie(b"key", sealed, 15), Ok(says));
/// assert_eq!(davgyuti::open_cookie(b"key", sealed, 17), Err(CookieError::Stale { staleness: 2 }));
/// assert_eq!(davgyuti::open_cookie(b"other key", sealed, 15), Err(CookieError::Invalid));
/// # Ok::<(), davgyuti::WriteError>(())
/// ```
///
/// # Errors
/// [`WriteError::NoRoom`] where the output has fewer bytes; it stays as it is.
#[doc(alias = "dcsctp_seal_cookie")]
pub fn seal_cookie<'a>(
    output: &'a mut [u8],
    key: &[u8],
    cookie: &Cookie,
) -> Result<&'a mut [u8], WriteError> {
    let says = same_numbers!(ffi::Cookie, cookie, ..ffi::Cookie::default());
    let (mut size, says, extra) = (0, &raw const says, cookie.extra);
    let at = &raw mut size;
    WriteError::check(call!(dcsctp_seal_cookie, mut [output], at, [key], says, [extra]))?;
    Ok(&mut output[..size])
}

/// Returns what a State Cookie says that was sealed under the key and is good at a time, in
/// microseconds on the clock by which it was sealed (RFC 9260 section 5.1.5).
///
/// It is good to the end of its lifespan, and before it was created, on a clock that was set back.
/// That its ports and its local tag are those of the packet is for you to compare.
/// [`seal_cookie`] has an example.
///
/// # Errors
/// [`CookieError::Stale`] of one that is no longer good, and [`CookieError::Invalid`] of all other
/// bytes.
#[doc(alias = "dcsctp_open_cookie")]
pub fn open_cookie<'a>(key: &[u8], bytes: &'a [u8], now: u64) -> Result<Cookie<'a>, CookieError> {
    let (mut says, mut staleness) = (ffi::Cookie::default(), 0);
    let (at, late) = (&raw mut says, &raw mut staleness);
    match call!(dcsctp_open_cookie, [key], [bytes], now, at, late) {
        0 => {
            let extra = &bytes[says.extra_offset..][..says.extra_size];
            Ok(same_numbers!(Cookie, says, extra))
        }
        1 => Err(CookieError::Stale { staleness }),
        _ => Err(CookieError::Invalid),
    }
}
