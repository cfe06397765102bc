# SPDX-License-Identifier: Apache-2.0
"""What RFC 9260 asks of whoever receives a packet, before an association's state matters."""

from __future__ import annotations

from ctypes import byref
from typing import Any

from . import _header as c
from ._kinds import Init
from ._library import functions, number, sized, struct_of, written
from ._numbers import Action, Answer, InitFault, Refusal, Rule, TagVerdict
from ._values import Buffer, Header
from ._writing import listed, seal


def unrecognized_chunk(type: int) -> Action:
    """Returns what is done with a chunk of a type that your program doesn't know, by its two highest-order bits (RFC 9260
    section 3.2)."""
    return Action(functions.dcsctp_unrecognized_chunk(number(type, 8, "type")))


def unrecognized_parameter(type: int) -> Action:
    """Returns what is done with a parameter of a type that your program doesn't know, by its two highest-order bits (RFC 9260
    section 3.2.1)."""
    return Action(functions.dcsctp_unrecognized_parameter(number(type, 16, "type")))


def verify_tag(data: Buffer, own_tag: int, peer_tag: int | None, *, awaits_cookie: bool) -> TagVerdict:
    """Returns what is done with a packet of an association, by its verification tag (RFC 9260 sections 8.5 and 8.5.1). The tags
    are the initiate tags that you and the peer sent, None where the peer has sent none yet; `awaits_cookie` says whether you
    are in the state COOKIE-WAIT or COOKIE-ECHOED.

    Of the bytes only the common header, the types of the chunks and the T bit are looked at, up to the first chunk whose length
    is impossible; without a common header they are discarded. `check` them first."""
    tag = 0 if peer_tag is None else number(peer_tag, 32, "peer_tag")
    association = c.Association(number(own_tag, 32, "own_tag"), tag, peer_tag is not None, bool(awaits_cookie))
    return TagVerdict(functions.dcsctp_verify_tag(*sized(data), byref(association)))


def out_of_the_blue(data: Buffer, *, is_unicast: bool) -> Answer:
    """Returns what is done with a packet that belongs to no association (RFC 9260 section 8.4); looks at what `verify_tag` looks
    at. `is_unicast` says whether the packet is to and from unicast addresses.

    `check` the bytes first: others may be answered too."""
    return Answer(functions.dcsctp_out_of_the_blue(*sized(data), bool(is_unicast)))


def reply(header: Header, answer: Answer) -> bytes:
    """Returns the packet that Answer.SHUTDOWN_COMPLETE or Answer.ABORT sends back to the sender of a packet with this header (RFC
    9260 section 8.4): with the ports swapped, the tag reflected, the T bit, and its CRC32c. No end that does as
    `out_of_the_blue` says answers it. Raises BadValue for another answer."""
    return _sealed(functions.dcsctp_reply, 16, header, number(answer, 32, "answer"))


def init_fault(data: Buffer, *, is_ack: bool) -> InitFault:
    """Returns what is wrong with a packet that carries INIT (RFC 9260 section 3.3.2), or INIT ACK (section 3.3.3) where `is_ack`
    is true. Of its parameters State Cookie and Host Name Address alone are looked for.

    `check` the bytes first, and ask only of a packet with this chunk: the result is InitFault.NOT_ALONE too where there is none,
    or no packet."""
    return InitFault(functions.dcsctp_init_fault(*sized(data), bool(is_ack)))


def init_refusal(fault: InitFault, *, is_ack: bool, in_cookie_wait: bool) -> Refusal:
    """Returns what is done with the packet of an INIT or INIT ACK, by its fault (RFC 9260 sections 3.3.2, 3.3.3, 5.1 and 8.5.1),
    and of an INIT ACK by whether you are in the state COOKIE-WAIT. It is Refusal.DISCARD for what is no fault."""
    fault_number = number(fault, 32, "fault")
    return Refusal(functions.dcsctp_init_refusal(fault_number, bool(is_ack), bool(in_cookie_wait)))


def init_abort(header: Header, initiate_tag: int, fault: InitFault) -> bytes:
    """Returns the packet with the ABORT that says this fault, to the sender of an INIT or INIT ACK with this initiate tag in a
    packet with this header (RFC 9260 sections 3.3.2 and 3.3.3); with its CRC32c.

    Its cause is Missing Mandatory Parameter or Invalid Mandatory Parameter; it has none for InitFault.NOT_ALONE and
    InitFault.TOO_SHORT, which no ABORT answers. Its tag is the initiate tag; where that is 0, the packet's own, with the T bit
    (section 8.5.1). Raises BadValue for what is no fault."""
    fault_number = number(fault, 32, "fault")
    return _sealed(functions.dcsctp_init_abort, 28, header, number(initiate_tag, 32, "initiate_tag"), fault_number)


def adds_addresses(init: Init, known: Buffer) -> bool:
    """Returns whether an INIT adds addresses to an association that is there already (RFC 9260 section 5.2.2): an ABORT under its
    initiate tag answers it, with `ChunkWriter.new_addresses`, and the association stays as it is. `known` are the association's
    addresses, as parameters: the bytes of each IPv4 Address and IPv6 Address, one after the other. The address that the packet
    came from isn't in the INIT: look at it yourself.

    Each of the INIT's addresses is compared with each known one, both of which may be the peer's: bound how many you keep."""
    return bool(functions.dcsctp_adds_addresses(*sized(listed(init)[0]), *sized(known)))


def broken_rules(data: Buffer, *, refuses_zero: bool = False, has_data: bool = False, has_i_data: bool = False) -> tuple[Rule, ...]:
    """Returns the rules that a packet breaks, in their order. Its common header and its chunks are looked at, up to the first chunk
    whose length is impossible: a field that isn't there breaks no rule. Its CRC32c is computed here.

    What you know of its association: `refuses_zero` says that the end to which it goes sent INIT or INIT ACK without Zero Checksum
    Acceptable (RFC 9653 section 4); `has_data` and `has_i_data`, that an end sent DATA, or I-DATA."""
    known = c.Known(bool(refuses_zero), bool(has_data), bool(has_i_data))
    bits = functions.dcsctp_broken_rules(*sized(data), byref(known))
    return tuple(it for it in Rule if bits & it)


def _sealed(function: Any, room: int, header: Header, *arguments: int) -> bytes:
    """What a function writes to the sender of a packet with this header, with its CRC32c."""
    return seal(written(function, room, byref(struct_of(c.Header, header)), *arguments))
