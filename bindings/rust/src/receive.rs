// SPDX-License-Identifier: Apache-2.0
//! What RFC 9260 asks of whoever receives a packet, before an association's state matters.

use crate::error::call;
use crate::ffi;
use crate::items::Parameters;
use crate::returned::{Action, Answer, InitFault, Refusal, TagVerdict};
use crate::types::{ChunkType, ParameterType};

/// The case of a number that a function returned.
fn case<T>(it: Option<T>) -> T {
    it.expect("the number of a case is returned")
}

impl Action {
    /// Returns whether the chunk or the parameter is reported.
    #[must_use]
    pub const fn reports(self) -> bool {
        matches!(self, Self::StopAndReport | Self::SkipAndReport)
    }

    /// Returns whether the next one is processed.
    #[must_use]
    pub const fn skips(self) -> bool {
        matches!(self, Self::Skip | Self::SkipAndReport)
    }
}

/// What you know of an association before you look at the tag of a packet (RFC 9260 section 8.5).
#[derive(Clone, Copy, PartialEq, Eq, Hash, Debug)]
pub struct Association {
    /// The initiate tag that you sent.
    pub own_tag: u32,
    /// The initiate tag that the peer sent, if it has sent one.
    pub peer_tag: Option<u32>,
    /// Whether you are in the state COOKIE-WAIT or COOKIE-ECHOED.
    pub awaits_cookie: bool,
}

/// Returns what is done with a chunk of a type that your program doesn't know, by the type's two
/// highest-order bits (RFC 9260 section 3.2).
///
/// ```
/// use davgyuti::{Action, ChunkType};
///
/// assert_eq!(davgyuti::unrecognized_chunk(ChunkType(0x3f)), Action::Stop);
/// let action = davgyuti::unrecognized_parameter(davgyuti::ParameterType(0xc005));
/// assert!(action.skips() && action.reports());
/// ```
#[doc(alias = "dcsctp_unrecognized_chunk")]
#[must_use]
pub fn unrecognized_chunk(chunk_type: ChunkType) -> Action {
    case(Action::of_number(call!(dcsctp_unrecognized_chunk, chunk_type.0)))
}

/// Returns what is done with a parameter of a type that your program doesn't know, by the type's two
/// highest-order bits (RFC 9260 section 3.2.1).
#[doc(alias = "dcsctp_unrecognized_parameter")]
#[must_use]
pub fn unrecognized_parameter(parameter_type: ParameterType) -> Action {
    case(Action::of_number(call!(dcsctp_unrecognized_parameter, parameter_type.0)))
}

/// Returns what is done with a packet of an association, by its verification tag (RFC 9260 sections
/// 8.5 and 8.5.1).
///
/// Of the bytes only the common header, the types of the chunks and the T bit are looked at, up to
/// the first chunk whose length is impossible; without a common header they are discarded.
/// [Check](crate::check) them first.
///
/// ```
/// use davgyuti::{Association, TagVerdict};
///
/// // A COOKIE ACK under the tag 7.
/// let bytes = *b"\x13\x88\x13\x88\0\0\0\x07\0\0\0\0\x0b\0\0\x04";
/// let mut association = Association { own_tag: 7, peer_tag: Some(9), awaits_cookie: true };
/// assert_eq!(davgyuti::verify_tag(&bytes, &association), TagVerdict::Accept);
/// association.own_tag = 8;
/// assert_eq!(davgyuti::verify_tag(&bytes, &association), TagVerdict::Discard);
/// ```
#[doc(alias = "dcsctp_verify_tag")]
#[must_use]
pub fn verify_tag(bytes: &[u8], association: &Association) -> TagVerdict {
    let known = ffi::Association {
        own_tag: association.own_tag,
        peer_tag: association.peer_tag.unwrap_or_default(),
        has_peer_tag: association.peer_tag.is_some(),
        awaits_cookie: association.awaits_cookie,
    };
    case(TagVerdict::of_number(call!(dcsctp_verify_tag, [bytes], &raw const known)))
}

/// Returns what is done with a packet that belongs to no association (RFC 9260 section 8.4); looks
/// at what [`verify_tag`] looks at. `is_unicast` says whether the packet is to and from unicast
/// addresses. Ask only of bytes that [`check`](crate::check) accepts: others may be answered too.
///
/// ```
/// use davgyuti::Answer;
///
/// // A SHUTDOWN ACK.
/// let bytes = *b"\0\x01\0\x02\0\0\0\x07\0\0\0\0\x08\0\0\x04";
/// assert_eq!(davgyuti::out_of_the_blue(&bytes, true), Answer::ShutdownComplete);
/// assert_eq!(davgyuti::out_of_the_blue(&bytes, false), Answer::Discard);
/// ```
#[doc(alias = "dcsctp_out_of_the_blue")]
#[must_use]
pub fn out_of_the_blue(bytes: &[u8], is_unicast: bool) -> Answer {
    case(Answer::of_number(call!(dcsctp_out_of_the_blue, [bytes], is_unicast)))
}

/// Returns what is wrong with a packet that carries INIT (RFC 9260 section 3.3.2), or INIT ACK
/// (section 3.3.3) where `is_ack` is true; none where it has none of these. Of its parameters
/// State Cookie and Host Name Address alone are looked for.
///
/// ```
/// use davgyuti::{Init, InitFault, PacketBuilder};
///
/// let mut buffer = [0; 100];
/// let mut packet = PacketBuilder::begin(&mut buffer, 5000, 5001, 0)?;
/// packet.init(&Init { initiate_tag: 7, a_rwnd: 1499, ..Init::default() })?;
/// let fault = davgyuti::init_fault(packet.as_bytes(), false);
/// assert_eq!(fault, Some(InitFault::SmallWindow));
/// # Ok::<(), davgyuti::WriteError>(())
/// ```
#[doc(alias = "dcsctp_init_fault")]
#[must_use]
pub fn init_fault(bytes: &[u8], is_ack: bool) -> Option<InitFault> {
    let number = call!(dcsctp_init_fault, [bytes], is_ack);
    (number != 0).then(|| case(InitFault::of_number(number)))
}

/// Returns what is done with the packet of an INIT or INIT ACK, by its fault (RFC 9260 sections
/// 3.3.2, 3.3.3, 5.1 and 8.5.1), and of an INIT ACK by whether you are in the state COOKIE-WAIT.
///
/// ```
/// use davgyuti::{InitFault, Refusal};
///
/// let refusal = davgyuti::init_refusal(InitFault::TagZero, false, false);
/// assert_eq!(refusal, Refusal::Discard);
/// let refusal = davgyuti::init_refusal(InitFault::TagZero, true, true);
/// assert_eq!(refusal, Refusal::DestroyAndAbort);
/// ```
#[doc(alias = "dcsctp_init_refusal")]
#[must_use]
pub fn init_refusal(fault: InitFault, is_ack: bool, in_cookie_wait: bool) -> Refusal {
    let number = fault.number();
    case(Refusal::of_number(call!(dcsctp_init_refusal, number, is_ack, in_cookie_wait)))
}

/// Returns whether an INIT adds addresses to an association that is there already (RFC 9260 section
/// 5.2.2): an ABORT under its initiate tag answers it, with
/// [`ChunkBuilder::new_addresses`](crate::ChunkBuilder::new_addresses), and the association stays as
/// it is.
///
/// `parameters` are the INIT's, and `known` the association's addresses, as parameters: the bytes of
/// each IPv4 Address and IPv6 Address, one after the other. The address that the packet came from is
/// not in the INIT: look at it yourself.
///
/// Each of the INIT's addresses is compared with each known one, both of which may be the peer's:
/// bound how many you keep.
///
/// ```
/// use davgyuti::Parameters;
///
/// let known = *b"\0\x05\0\x08\xc0\0\x02\x01"; // 192.0.2.1
/// assert!(!davgyuti::adds_addresses(&Parameters::of(&known), &known));
/// let other = Parameters::of(b"\0\x05\0\x08\xc0\0\x02\x02"); // 192.0.2.2
/// assert!(davgyuti::adds_addresses(&other, &known));
/// ```
#[doc(alias = "dcsctp_adds_addresses")]
#[must_use]
pub fn adds_addresses(parameters: &Parameters, known: &[u8]) -> bool {
    let (list, _) = parameters.placed();
    call!(dcsctp_adds_addresses, [list], [known])
}
