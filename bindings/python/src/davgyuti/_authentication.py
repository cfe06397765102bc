# SPDX-License-Identifier: Apache-2.0
"""What is authenticated, under keys of the caller: chunks after AUTH (RFC 4895), and State Cookies (RFC 9260 section 5.1.3)."""

from __future__ import annotations

from ctypes import byref, c_uint64
from dataclasses import dataclass
from itertools import chain

from . import _header as c
from ._library import functions, number, sized, struct_of, written
from ._numbers import CookieState
from ._values import Buffer, CookieError, Referable

# Before the place of a cookie's further bytes are its numbers.
_PLACE = -2


def is_listed(chunk_list: Buffer, type: int) -> bool:
    """Returns whether a chunk of this type has to come after AUTH: the list is the value of the receiver's Chunk List, a type in
    each byte, in which INIT, INIT ACK, SHUTDOWN COMPLETE and AUTH are ignored (RFC 4895 section 3.2)."""
    return bool(functions.dcsctp_is_listed(*sized(chunk_list), number(type, 8, "type")))


def shared_key(pair_key: Buffer, one: Buffer, other: Buffer) -> bytes:
    """Returns an association shared key (RFC 4895 section 6.1): the endpoint pair shared key, which may be empty, and then the
    key vectors of both ends in the order that the section gives, whichever is passed first. A key vector is the parameters
    Random, Chunk List and Requested HMAC Algorithm that an end sent, in this order, each with its header and without padding."""
    parts = [sized(it) for it in (pair_key, one, other)]
    room = sum(len(data) for data, _ in parts)
    return written(functions.dcsctp_shared_key, room, *chain.from_iterable(parts))


def verify_auth(key: Buffer, data: Buffer) -> bool:
    """Returns whether the HMAC of an AUTH chunk is right under an association shared key (RFC 4895 section 6.3). The bytes are
    those of the packet from the AUTH on, up to its end: `data[auth.offset :]`. False also where no AUTH is there, its HMAC
    identifier is another than 1 (SHA-1) and 3 (SHA-256), or its HMAC has another length than theirs, 20 and 32 bytes."""
    return bool(functions.dcsctp_verify_auth(*sized(key), *sized(data)))


@dataclass(slots=True, unsafe_hash=True, kw_only=True)
class Cookie(Referable):
    """What a State Cookie says: what its sender needs to set up the association, and for how long (RFC 9260 section 5.1.3).
    *Local* is the end that seals and opens it."""

    created: int
    """When, in microseconds on your clock."""
    lifespan: int
    """In microseconds."""
    local_tag: int
    """The initiate tag of the INIT ACK."""
    peer_tag: int
    """That of the INIT."""
    local_tie_tag: int = 0
    """The Local Tie-Tag (RFC 9260 section 5.2.2): 0 where the INIT came without an association."""
    peer_tie_tag: int = 0
    """The Peer's Tie-Tag, likewise."""
    local_initial_tsn: int
    """The initial TSN of the INIT ACK."""
    peer_initial_tsn: int
    """That of the INIT."""
    local_port: int
    peer_port: int
    outbound_streams: int
    """On which the local end sends."""
    inbound_streams: int
    extra: bytes = b""
    """Further bytes of yours, of any length: the peer's addresses, the parameters of its INIT, AUTH's key vectors."""


def seal_cookie(key: Buffer, cookie: Cookie) -> bytes:
    """Returns a State Cookie with an HMAC over what it says (RFC 9260 section 5.1.3): 80 bytes, and the extra ones. Let the key
    be 32 random bytes that nobody else knows."""
    extra, count = sized(cookie.extra)
    says = struct_of(c.Cookie, cookie, _PLACE)
    return written(functions.dcsctp_seal_cookie, 80 + count, *sized(key), byref(says), extra, count)


def open_cookie(key: Buffer, cookie: Buffer, now: int) -> Cookie:
    """Returns what a State Cookie says that was sealed under the key and is good at a time, in microseconds on the clock by which
    it was sealed (RFC 9260 section 5.1.5). It is good to the end of its lifespan, and before it was created, on a clock that was
    set back. Raises CookieError of one that is stale, and of all other bytes.

    That its ports and its local tag are those of the packet is for you to compare."""
    data, count = sized(cookie)
    out, staleness = c.Cookie(), c_uint64()
    time = number(now, 64, "now")
    state = functions.dcsctp_open_cookie(*sized(key), data, count, time, byref(out), byref(staleness))
    if state == CookieState.INVALID:
        raise CookieError(CookieState.INVALID)
    start, size = out.extra_offset, out.extra_size
    says = Cookie(**{name: getattr(out, name) for name, _ in c.Cookie._fields_[:_PLACE]}, extra=data[start : start + size])
    if state == CookieState.STALE:
        raise CookieError(CookieState.STALE, staleness.value, says)
    return says
