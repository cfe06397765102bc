// SPDX-License-Identifier: Apache-2.0
//! usage: responder KEY TAG TSN TIE-TAGS
//!
//! A responder to start from: the side of an association that is called (RFC 9260), and takes user
//! data. Each line of the input is a time in microseconds and a packet in hexadecimal; what answers
//! it is printed likewise, or an empty line. KEY, in hexadecimal, is that of the cookies; TAG, not
//! 0, and TSN are numbers of the association, and TIE-TAGS 16 digits. Let them be random.
//!
//! No byte is written by hand, and [`Responder`] has no I/O and no clock: packets and the time go
//! in, and packets come out. Left out: user data that is sent, and with it timers; messages put
//! together, and streams in order; paths. There is one association at a time.
//! `examples/c/responder.c` in the repository answers the same; it calls as well, and takes COOKIE
//! ECHO behind an AUTH, which gets no answer here.

use State::{Closed, Established, ShutdownAckSent};
use davgyuti::{
    Action, Answer, CauseCode, Chunk, ChunkBuilder, ChunkType, Chunks, Content, Cookie,
    CookieError, Data, FIRST_CHUNK, GapAckBlock, Header, Init, MAX_PACKET, Packet, PacketBuilder,
    Parameter, ParameterType, Parameters, ReConfig, ReConfigResult, Refusal, RegisteredCause,
    RegisteredChunk, RegisteredParameter, ShortNumbers, TagVerdict, WriteError,
};
use std::fmt::Write;
use std::io::{self, BufRead};

const COOKIE_LIFE: u64 = 60_000_000; // in microseconds, as all times
const MOST_BLOCKS: usize = 64;
const MOST_DUPLICATES: usize = 16;
const SHA_1: u16 = 1;
const SHA_256: u16 = 3;
const WINDOW: u32 = 1 << 20;
const OUTBOUND_STREAMS: u16 = 1;
const INBOUND_STREAMS: u16 = 64;
const ADDRESSES: [ParameterType; 2] = [ParameterType::IPV4_ADDRESS, ParameterType::IPV6_ADDRESS];
const KNOWN: [ParameterType; 6] = [
    ParameterType::IPV4_ADDRESS,
    ParameterType::IPV6_ADDRESS,
    ParameterType::COOKIE_PRESERVATIVE,
    ParameterType::HOST_NAME_ADDRESS,
    ParameterType::SUPPORTED_ADDRESS_TYPES,
    ParameterType::FORWARD_TSN_SUPPORTED,
];
const OF_AUTH: [ParameterType; 3] =
    [ParameterType::RANDOM, ParameterType::CHUNK_LIST, ParameterType::REQUESTED_HMAC_ALGORITHM];
const EXTENSIONS: [ChunkType; 5] = [
    ChunkType::RE_CONFIG,
    ChunkType::I_DATA,
    ChunkType::FORWARD_TSN,
    ChunkType::I_FORWARD_TSN,
    ChunkType::AUTH,
];

#[derive(Clone, Copy, Default, PartialEq, Eq)]
enum State {
    #[default]
    Closed,
    Established,
    ShutdownAckSent,
}

/// What the next association has: draw it anew once there is one. The tag isn't 0.
#[derive(Clone, Default)]
struct Next {
    tag: u32,
    tsn: u32,
    random: [u8; 32],
    tie_tags: [u8; 8],
}

/// What the caller sets.
#[derive(Clone, Default)]
struct Settings {
    /// Who knows it can forge cookies.
    key: Vec<u8>,
    /// The types of chunks that count after AUTH alone (RFC 4895), not COOKIE ECHO. If it is empty,
    /// there is no AUTH.
    listed: Vec<u8>,
    /// The endpoint pair shared key, which may be empty.
    pair_key: Vec<u8>,
    pair_key_identifier: u16,
}

/// The association: nothing is kept of an INIT until its cookie comes back.
#[derive(Clone, Default)]
struct Association {
    local_tag: u32,
    peer_tag: u32,
    local_port: u16,
    peer_port: u16,
    /// What a cookie has in the place of its tags, which nobody else may learn (section 5.2.2).
    tie_tags: [u8; 8],
    /// Of the peer: the parameters in which it named them.
    addresses: Vec<u8>,
    shared_key: Vec<u8>,
    peer_listed: Vec<u8>,
    hmac: u16,
    cumulative_tsn: u32,
    next_request: u32,
    last_result: u32,
    blocks: Vec<GapAckBlock>,
    /// Since the last SACK.
    duplicates: Vec<u32>,
}

#[derive(Clone, Default)]
struct Responder {
    settings: Settings,
    next: Next,
    state: State,
    association: Association,
}

/// A packet that came, and the one that answers. What has no room in that is as if lost.
struct Exchange<'a, 'b> {
    bytes: &'a [u8],
    packet: PacketBuilder<'b>,
    /// Gets each TSN once, as it comes.
    take_data: &'a mut dyn FnMut(&Data),
    is_sack_due: bool,
    is_authenticated: bool,
}

impl Responder {
    /// Takes a packet, and returns the one that answers it, or nothing.
    fn receive(&mut self, now: u64, bytes: &[u8], take_data: &mut dyn FnMut(&Data)) -> Vec<u8> {
        let Ok(packet) = Packet::parse(bytes) else { return Vec::new() };
        self.answer(now, &packet, take_data).unwrap_or_default()
    }

    fn answer(
        &mut self,
        now: u64,
        packet: &Packet,
        take_data: &mut dyn FnMut(&Data),
    ) -> Result<Vec<u8>, WriteError> {
        let header = packet.header();
        if header.source_port == 0 || header.destination_port == 0 {
            return Ok(Vec::new());
        }
        match self.verdict(packet) {
            TagVerdict::Accept => return self.answer_chunks(packet, take_data),
            TagVerdict::Discard => return Ok(Vec::new()),
            TagVerdict::OutOfTheBlue => match davgyuti::out_of_the_blue(packet.as_bytes(), true) {
                answer @ (Answer::ShutdownComplete | Answer::Abort) => {
                    let mut buffer = [0; 16];
                    let reply = PacketBuilder::reply(&mut buffer, &header, answer)?;
                    return Ok(reply.seal().to_vec());
                }
                Answer::Discard => return Ok(Vec::new()),
                _ => {}
            },
            TagVerdict::Establish => {}
        }
        match packet.chunks().next().map(|it| it.content()) {
            Some(Content::Init(init, parameters)) => {
                self.answer_init(now, packet, &init, &parameters)
            }
            Some(Content::CookieEcho(sealed)) => {
                match self.open_association(now, &header, sealed)? {
                    None => self.answer_chunks(packet, take_data),
                    Some(refusal) => Ok(refusal),
                }
            }
            _ => Ok(Vec::new()),
        }
    }

    fn verdict(&self, packet: &Packet) -> TagVerdict {
        if self.state == Closed || !self.has_its_ports(&packet.header()) {
            return TagVerdict::OutOfTheBlue;
        }
        let association = davgyuti::Association {
            own_tag: self.association.local_tag,
            peer_tag: Some(self.association.peer_tag),
            awaits_cookie: false,
        };
        davgyuti::verify_tag(packet.as_bytes(), &association)
    }

    fn has_its_ports(&self, header: &Header) -> bool {
        header.source_port == self.association.peer_port
            && header.destination_port == self.association.local_port
    }

    /// INIT ACK, also to a peer that begins anew; or the ABORT that says what is wrong with the
    /// INIT, if it asks for one.
    fn answer_init(
        &self,
        now: u64,
        packet: &Packet,
        init: &Init,
        parameters: &Parameters,
    ) -> Result<Vec<u8>, WriteError> {
        let (header, is_there) = (packet.header(), self.state != Closed);
        let (local_port, peer_port) = (header.destination_port, header.source_port);
        let has_auth = !self.settings.listed.is_empty();
        let mut buffer = vec![0; MAX_PACKET];
        if is_there && (!self.has_its_ports(&header) || self.next.tag == self.association.local_tag)
        {
            return Ok(Vec::new());
        }
        if let Some(fault) = davgyuti::init_fault(packet.as_bytes(), false) {
            if davgyuti::init_refusal(fault, false, false) != Refusal::Abort {
                return Ok(Vec::new());
            }
            let tag = init.initiate_tag;
            let abort = PacketBuilder::init_abort(&mut buffer, &header, tag, fault)?;
            return Ok(abort.seal().to_vec());
        }
        if self.state == ShutdownAckSent {
            // Section 9.2.
            let mut packet = self.begin(&mut buffer)?;
            packet.shutdown_ack()?;
            return self.finish(&packet);
        }
        let cookie = Cookie {
            created: now,
            lifespan: lifespan(parameters),
            local_tag: self.next.tag,
            peer_tag: init.initiate_tag,
            local_tie_tag: 0,
            peer_tie_tag: 0,
            local_initial_tsn: self.next.tsn,
            peer_initial_tsn: init.initial_tsn,
            local_port,
            peer_port,
            outbound_streams: OUTBOUND_STREAMS,
            inbound_streams: init.outbound_streams,
            extra: &self.kept(parameters)?,
        };
        let mut packet =
            PacketBuilder::begin(&mut buffer, local_port, peer_port, init.initiate_tag)?;
        let known = &self.association.addresses;
        if is_there && davgyuti::adds_addresses(parameters, known) {
            // Section 5.2.2.
            packet.chunk(ChunkType::ABORT, 0, &[])?.new_addresses(parameters, known)?;
            return Ok(packet.seal().to_vec());
        }
        let is_wrong =
            |it: Parameter| it.parameter_type() == ParameterType::RANDOM && it.value().len() != 32;
        if has_auth && parameters.clone().any(is_wrong) {
            // RFC 4895 section 6.1.
            packet.chunk(ChunkType::ABORT, 0, &[])?.cause(CauseCode::PROTOCOL_VIOLATION, &[])?;
            return Ok(packet.seal().to_vec());
        }
        let mut init_ack = packet.init_ack(&Init {
            initiate_tag: self.next.tag,
            a_rwnd: WINDOW,
            outbound_streams: OUTBOUND_STREAMS,
            inbound_streams: INBOUND_STREAMS,
            initial_tsn: self.next.tsn,
        })?;
        if has_auth {
            self.add_own_auth(&mut init_ack)?;
        }
        let mut sealed = vec![0; MAX_PACKET];
        let sealed = davgyuti::seal_cookie(&mut sealed, &self.settings.key, &cookie)?;
        let extensions = &EXTENSIONS.map(u8::from)[..if has_auth { 5 } else { 4 }];
        init_ack
            .parameter(ParameterType::STATE_COOKIE, sealed)?
            .parameter(ParameterType::SUPPORTED_EXTENSIONS, extensions)?
            .parameter(ParameterType::FORWARD_TSN_SUPPORTED, &[])?;
        report(parameters, &mut init_ack)?;
        Ok(packet.seal().to_vec())
    }

    /// Adds this end's parameters of AUTH, in the order of a key vector (RFC 4895 section 6.1).
    fn add_own_auth(&self, chunk: &mut ChunkBuilder) -> Result<(), WriteError> {
        let mut hmacs = [0; 4]; // the first is preferred
        let hmacs = ShortNumbers::write(&mut hmacs, &[SHA_256, SHA_1])?;
        chunk
            .parameter(ParameterType::RANDOM, &self.next.random)?
            .parameter(ParameterType::CHUNK_LIST, &self.settings.listed)?
            .registered_parameter(&RegisteredParameter::RequestedHmacAlgorithm { hmacs })?;
        Ok(())
    }

    /// What the cookie for an INIT holds after its numbers, a list of parameters: the Tie-Tags, if
    /// there is an association; the parameters of AUTH of both ends; and the peer's addresses.
    fn kept(&self, parameters: &Parameters) -> Result<Vec<u8>, WriteError> {
        let mut buffer = vec![0; MAX_PACKET];
        let mut packet = PacketBuilder::begin(&mut buffer, 0, 0, 0)?;
        let mut list = packet.chunk(ChunkType::HEARTBEAT, 0, &[])?;
        if self.state != Closed {
            list.parameter(ParameterType::HEARTBEAT_INFO, &self.association.tie_tags)?;
        }
        if !self.settings.listed.is_empty() {
            self.add_own_auth(&mut list)?;
            copy(parameters, &OF_AUTH, &mut list)?;
        }
        copy(parameters, &ADDRESSES, &mut list)?;
        let list = Chunk::at(packet.as_bytes(), FIRST_CHUNK).ok_or(WriteError::BadPlace)?;
        Ok(list.value().to_vec())
    }

    /// Opens the association of a cookie, also if the peer begins anew; one that is open stays.
    /// Returns none, or else what answers where it isn't open.
    fn open_association(
        &mut self,
        now: u64,
        header: &Header,
        sealed: &[u8],
    ) -> Result<Option<Vec<u8>>, WriteError> {
        const NOTHING: Option<Vec<u8>> = Some(Vec::new());
        let mut buffer = vec![0; MAX_PACKET];
        let Ok(cookie) = davgyuti::open_cookie(&self.settings.key, sealed, 0) else {
            return Ok(NOTHING);
        };
        let (local_port, peer_port) = (cookie.local_port, cookie.peer_port);
        if header.source_port != peer_port
            || header.destination_port != local_port
            || header.verification_tag != cookie.local_tag
        {
            return Ok(NOTHING);
        }
        let (is_there, it) = (self.state != Closed, &self.association);
        let is_local = is_there && cookie.local_tag == it.local_tag;
        let is_peers = is_there && cookie.peer_tag == it.peer_tag;
        if is_local && is_peers {
            // However old the cookie is (section 5.2.4, action D).
            return Ok(None);
        }
        let state = davgyuti::open_cookie(&self.settings.key, sealed, now);
        if let Err(CookieError::Stale { staleness }) = state {
            let mut packet =
                PacketBuilder::begin(&mut buffer, local_port, peer_port, cookie.peer_tag)?;
            let microseconds = staleness.try_into().unwrap_or(u32::MAX);
            packet.error()?.registered_cause(&RegisteredCause::StaleCookie { microseconds })?;
            return Ok(Some(packet.seal().to_vec()));
        }
        let kept = Parameters::of(cookie.extra);
        let is_tie = |parameter: Parameter| {
            parameter.parameter_type() == ParameterType::HEARTBEAT_INFO
                && parameter.value() == it.tie_tags
        };
        let is_tied = kept.clone().any(is_tie);
        let is_next = cookie.local_tag == self.next.tag;
        if !is_local && (!is_next || (is_there && (is_peers || !is_tied))) {
            // Neither action A nor B, and none of a new association.
            return Ok(NOTHING);
        }
        if self.state == ShutdownAckSent {
            let mut packet = self.begin(&mut buffer)?;
            packet.shutdown_ack()?;
            packet.error()?.cause(CauseCode::COOKIE_RECEIVED_WHILE_SHUTTING_DOWN, &[])?;
            return self.finish(&packet).map(Some);
        }
        self.state = Established;
        self.association = Association {
            local_tag: cookie.local_tag,
            peer_tag: cookie.peer_tag,
            local_port,
            peer_port,
            tie_tags: if is_next { self.next.tie_tags } else { it.tie_tags },
            cumulative_tsn: cookie.peer_initial_tsn.wrapping_sub(1),
            next_request: cookie.peer_initial_tsn, // RFC 6525 section 5.1.1
            addresses: kept.clone().filter_map(address).flatten().copied().collect(),
            ..Association::default()
        };
        self.open_auth(kept)?;
        Ok(None)
    }

    /// Takes the parameters of AUTH, first the three of this end: without padding they are the key
    /// vectors (RFC 4895 section 6.1).
    fn open_auth(&mut self, kept: Parameters) -> Result<(), WriteError> {
        let is_of_auth = |it: &Parameter| {
            let kind = it.parameter_type();
            kind != ParameterType::HEARTBEAT_INFO && !ADDRESSES.contains(&kind)
        };
        let kept: Vec<Parameter> = kept.filter(is_of_auth).collect();
        let (own, peer) = kept.split_at(kept.len().min(3));
        let it = &mut self.association;
        for parameter in peer {
            match parameter.registered() {
                Some(RegisteredParameter::ChunkList { types }) => it.peer_listed = types.to_vec(),
                Some(RegisteredParameter::RequestedHmacAlgorithm { mut hmacs }) => {
                    it.hmac = hmacs.find(|hmac| [SHA_1, SHA_256].contains(hmac)).unwrap_or(0);
                }
                _ => {}
            }
        }
        if it.hmac != 0 && peer.iter().any(|it| it.parameter_type() == ParameterType::RANDOM) {
            let [own, peer] = [own, peer]
                .map(|them| them.iter().flat_map(|it| it.as_bytes().to_vec()).collect::<Vec<u8>>());
            let mut output = vec![0; MAX_PACKET];
            let pair_key = &self.settings.pair_key;
            it.shared_key = davgyuti::shared_key(&mut output, pair_key, &own, &peer)?.to_vec();
        }
        Ok(())
    }

    fn begin<'b>(&self, buffer: &'b mut [u8]) -> Result<PacketBuilder<'b>, WriteError> {
        let it = &self.association;
        PacketBuilder::begin(buffer, it.local_port, it.peer_port, it.peer_tag)
    }

    /// The packet, with AUTH before the first of its chunks that the peer listed (RFC 4895 section
    /// 6.2); nothing, if it has no chunk.
    fn finish(&self, packet: &PacketBuilder) -> Result<Vec<u8>, WriteError> {
        let it = &self.association;
        let is_listed = |chunk: &Chunk| {
            !it.shared_key.is_empty() && davgyuti::is_listed(&it.peer_listed, chunk.chunk_type())
        };
        if packet.size() == FIRST_CHUNK {
            return Ok(Vec::new());
        }
        let mut buffer = vec![0; MAX_PACKET];
        let (mut signed, mut start) = (self.begin(&mut buffer)?, None);
        for chunk in Chunks::of(packet.as_bytes()) {
            if start.is_none() && is_listed(&chunk) {
                start = Some(signed.size());
                let (key, hmac_identifier) = (self.settings.pair_key_identifier, it.hmac);
                let hmac = &[0; 32][..if it.hmac == SHA_1 { 20 } else { 32 }];
                signed.registered(&RegisteredChunk::Auth { key, hmac_identifier, hmac })?;
            }
            signed.copy(&chunk)?;
        }
        let signed = signed.unsealed();
        if let Some(start) = start {
            davgyuti::sign_auth(&it.shared_key, &mut signed[start..])?;
        }
        davgyuti::seal(signed)?;
        Ok(signed.to_vec())
    }

    fn answer_chunks(
        &mut self,
        packet: &Packet,
        take_data: &mut dyn FnMut(&Data),
    ) -> Result<Vec<u8>, WriteError> {
        let mut buffer = vec![0; MAX_PACKET];
        let mut exchange = Exchange {
            bytes: packet.as_bytes(),
            packet: self.begin(&mut buffer)?,
            take_data,
            is_sack_due: false,
            is_authenticated: false,
        };
        for chunk in packet.chunks() {
            if !self.take_chunk(&mut exchange, &chunk)? {
                break;
            }
        }
        if exchange.is_sack_due && self.state != Closed {
            let it = &mut self.association;
            exchange.packet.sack(it.cumulative_tsn, WINDOW, &it.blocks, &it.duplicates)?;
            it.duplicates.clear();
        }
        self.finish(&exchange.packet)
    }

    /// Returns whether the chunks after it are looked at (RFC 4895 section 6.3).
    fn take_chunk(&mut self, exchange: &mut Exchange, chunk: &Chunk) -> Result<bool, WriteError> {
        let listed = &self.settings.listed;
        if !listed.is_empty() && chunk.chunk_type() == ChunkType::AUTH {
            return self.take_auth(exchange, chunk);
        }
        if !exchange.is_authenticated && davgyuti::is_listed(listed, chunk.chunk_type()) {
            return Ok(true);
        }
        self.answer_chunk(exchange, chunk)
    }

    fn take_auth(&self, exchange: &mut Exchange, chunk: &Chunk) -> Result<bool, WriteError> {
        let Some(RegisteredChunk::Auth { key, hmac_identifier: hmac, .. }) = chunk.registered()
        else {
            return Ok(false);
        };
        if exchange.is_authenticated {
            return Ok(false);
        }
        if ![SHA_1, SHA_256].contains(&hmac) {
            let cause = RegisteredCause::UnsupportedHmacIdentifier { hmac };
            exchange.packet.error()?.registered_cause(&cause)?;
            return Ok(false);
        }
        let shared_key = &self.association.shared_key;
        exchange.is_authenticated = key == self.settings.pair_key_identifier
            && !shared_key.is_empty()
            && davgyuti::verify_auth(shared_key, &exchange.bytes[chunk.offset()..]);
        Ok(exchange.is_authenticated)
    }

    fn answer_chunk(&mut self, exchange: &mut Exchange, chunk: &Chunk) -> Result<bool, WriteError> {
        let packet = &mut exchange.packet;
        match chunk.content() {
            Content::CookieEcho(_) => {
                let is_first = chunk.offset() == FIRST_CHUNK;
                if is_first {
                    packet.cookie_ack()?;
                }
                return Ok(is_first);
            }
            Content::Data(data) | Content::IData(data) => {
                return self.take_user_data(exchange, &data);
            }
            Content::ForwardTsn(it) | Content::IForwardTsn(it) => {
                self.association.skip(it.new_cumulative_tsn);
                exchange.is_sack_due = true;
            }
            Content::ReConfig(parameters) => self.association.respond(packet, parameters)?,
            Content::Heartbeat(mut parameters) => match parameters.next() {
                Some(it) if it.parameter_type() == ParameterType::HEARTBEAT_INFO => {
                    packet.heartbeat_ack(it.value())?;
                }
                _ => {}
            },
            Content::Shutdown { .. } => {
                self.state = ShutdownAckSent;
                packet.shutdown_ack()?;
            }
            Content::ShutdownAck => {
                self.state = Closed;
                packet.shutdown_complete(false)?;
                return Ok(false);
            }
            Content::ShutdownComplete { .. } | Content::Abort { .. } => {
                self.state = Closed;
                return Ok(false);
            }
            Content::Other => {
                // Unknown: reported, and perhaps the last that is looked at (section 3.2).
                let action = davgyuti::unrecognized_chunk(chunk.chunk_type());
                if matches!(action, Action::StopAndReport | Action::SkipAndReport) {
                    packet.error()?.cause(CauseCode::UNRECOGNIZED_CHUNK, chunk.as_bytes())?;
                }
                return Ok(matches!(action, Action::Skip | Action::SkipAndReport));
            }
            _ => {}
        }
        Ok(true)
    }

    /// What is too far away, or would make too many gaps, is as if lost.
    fn take_user_data(&mut self, exchange: &mut Exchange, data: &Data) -> Result<bool, WriteError> {
        if data.payload.is_empty() {
            // Section 6.2.
            self.state = Closed;
            let mut abort = exchange.packet.chunk(ChunkType::ABORT, 0, &[])?;
            abort.number_cause(CauseCode::NO_USER_DATA, data.tsn)?;
            return Ok(false);
        }
        exchange.is_sack_due = true;
        let it = &mut self.association;
        let offset = it.offset(data.tsn);
        let is_covered = |block: &GapAckBlock| {
            offset.is_some_and(|offset| block.start <= offset && offset <= block.end)
        };
        if it.is_past(data.tsn) || it.blocks.iter().any(is_covered) {
            if it.duplicates.len() < MOST_DUPLICATES {
                it.duplicates.push(data.tsn);
            }
            return Ok(true);
        }
        let has_room = offset == Some(1) || it.blocks.len() + 1 < MOST_BLOCKS;
        if let Some(offset) = offset.filter(|_| has_room) {
            it.take_offsets(offset, offset);
            (exchange.take_data)(data);
        }
        Ok(true)
    }
}

impl Association {
    /// Whether a TSN is the cumulative one, or comes before it.
    const fn is_past(&self, tsn: u32) -> bool {
        tsn.wrapping_sub(self.cumulative_tsn).wrapping_sub(1) >= i32::MAX.unsigned_abs()
    }

    /// How far a TSN is from the cumulative one, if a gap ack block can say it.
    fn offset(&self, tsn: u32) -> Option<u16> {
        tsn.wrapping_sub(self.cumulative_tsn).try_into().ok()
    }

    /// The cumulative TSN moves over those that have come without a gap.
    fn take_offsets(&mut self, first: u16, last: u16) {
        self.blocks.push(GapAckBlock::new(first, last));
        let count = davgyuti::clean_blocks(&mut self.blocks).len();
        self.blocks.truncate(count);
        if self.blocks[0].start == 1 {
            let moved = self.blocks.remove(0).end;
            self.cumulative_tsn = self.cumulative_tsn.wrapping_add(moved.into());
            for it in &mut self.blocks {
                *it = GapAckBlock::new(it.start - moved, it.end - moved);
            }
        }
    }

    /// RFC 3758 section 3.6.
    fn skip(&mut self, new_cumulative_tsn: u32) {
        if self.is_past(new_cumulative_tsn) {
            return;
        }
        if let Some(offset) = self.offset(new_cumulative_tsn) {
            self.take_offsets(1, offset);
        } else {
            self.cumulative_tsn = new_cumulative_tsn;
            self.blocks.clear();
        }
    }

    /// Answers requests (RFC 6525 sections 4.4 and 5.2); the last one once more, as before. The own
    /// streams carry nothing, and stay.
    fn respond(
        &mut self,
        packet: &mut PacketBuilder,
        parameters: Parameters,
    ) -> Result<(), WriteError> {
        use ReConfigResult::{BadSequenceNumber, Denied, InProgress, Performed};
        let mut responses = Vec::new();
        for request in parameters.filter_map(|it| it.re_config()) {
            let (number, result) = match request {
                ReConfig::OutgoingSsnReset { request_number, last_tsn, .. } => {
                    let is_past = self.is_past(last_tsn);
                    (request_number, if is_past { Performed } else { InProgress })
                }
                ReConfig::AddOutgoingStreams { request_number, .. } => (request_number, Performed),
                ReConfig::IncomingSsnReset { request_number, .. }
                | ReConfig::SsnTsnReset { request_number }
                | ReConfig::AddIncomingStreams { request_number, .. } => (request_number, Denied),
                _ => continue,
            };
            if number == self.next_request {
                self.last_result = result.number();
                if result != InProgress {
                    self.next_request = number.wrapping_add(1);
                }
                responses.push((number, result));
            } else if number.wrapping_add(1) == self.next_request {
                let last = ReConfigResult::of(self.last_result).unwrap_or(BadSequenceNumber);
                responses.push((number, last));
            } else {
                responses.push((number, BadSequenceNumber));
            }
        }
        if !responses.is_empty() {
            let mut chunk = packet.re_config()?;
            for (response_number, result) in responses {
                chunk.re_config(&ReConfig::Response {
                    response_number,
                    result,
                    next_tsns: None,
                })?;
            }
        }
        Ok(())
    }
}

/// Adds the parameters of the first type to a list, then those of the next one.
fn copy(
    parameters: &Parameters,
    types: &[ParameterType],
    list: &mut ChunkBuilder,
) -> Result<(), WriteError> {
    for &kind in types {
        for it in parameters.clone().filter(|it| it.parameter_type() == kind) {
            list.parameter(kind, it.value())?;
        }
    }
    Ok(())
}

/// The bytes of a parameter, if it is an address.
fn address(parameter: Parameter<'_>) -> Option<&[u8]> {
    match parameter.registered()? {
        RegisteredParameter::Ipv4Address { .. } | RegisteredParameter::Ipv6Address { .. } => {
            Some(parameter.as_bytes())
        }
        _ => None,
    }
}

/// How long the cookie for an INIT is good: longer, if that asks for it (section 3.3.2.1.3), but
/// not too long.
fn lifespan(parameters: &Parameters) -> u64 {
    let increment = parameters.clone().find_map(|it| match it.registered() {
        Some(RegisteredParameter::CookiePreservative { milliseconds }) => Some(milliseconds),
        _ => None,
    });
    COOKIE_LIFE + COOKIE_LIFE.min(1000 * u64::from(increment.unwrap_or(0)))
}

/// Adds the parameters that aren't known and are reported, up to one at which to stop (section
/// 3.2.1).
fn report(parameters: &Parameters, init_ack: &mut ChunkBuilder) -> Result<(), WriteError> {
    for it in parameters.clone().filter(|it| !KNOWN.contains(&it.parameter_type())) {
        let action = davgyuti::unrecognized_parameter(it.parameter_type());
        if matches!(action, Action::StopAndReport | Action::SkipAndReport) {
            init_ack.parameter(ParameterType::UNRECOGNIZED_PARAMETER, it.as_bytes())?;
        }
        if matches!(action, Action::Stop | Action::StopAndReport) {
            break;
        }
    }
    Ok(())
}

/// The bytes of hexadecimal digits.
fn of_hex(digits: &str) -> Option<Vec<u8>> {
    let pairs = digits.as_bytes().chunks(2);
    pairs.map(|it| u8::from_str_radix(std::str::from_utf8(it).ok()?, 16).ok()).collect()
}

/// The answer to a line with a time and a packet.
fn answer_line(responder: &mut Responder, line: &str) -> Option<String> {
    let (now, digits) = line.split_once(' ')?;
    let answer = responder.receive(now.parse().ok()?, &of_hex(digits)?, &mut |_| {});
    let mut text = String::new();
    answer.iter().try_for_each(|it| write!(text, "{it:02x}")).ok()?;
    Some(text)
}

fn main() {
    let words: Vec<String> = std::env::args().skip(1).collect();
    let [key, tag, tsn, ties] = &words[..] else { panic!("usage: responder KEY TAG TSN TIE-TAGS") };
    let settings =
        Settings { key: of_hex(key).expect("KEY in hexadecimal"), ..Settings::default() };
    let (tag, tsn) = (tag.parse().expect("TAG"), tsn.parse().expect("TSN"));
    let tie_tags = of_hex(ties).and_then(|it| it.try_into().ok()).expect("TIE-TAGS");
    let next = Next { tag, tsn, random: [0; 32], tie_tags };
    let mut responder = Responder { settings, next, ..Responder::default() };
    for line in io::stdin().lock().lines() {
        let line = line.expect("a line of text");
        println!("{}", answer_line(&mut responder, &line).expect("a time, and digits"));
    }
}

#[cfg(test)]
mod tests {
    use super::{
        Closed, Init, MAX_PACKET, Next, PacketBuilder, ParameterType, Responder, Settings,
        answer_line, of_hex,
    };

    fn of_word(word: &str) -> Vec<u8> {
        of_hex(word.trim_matches('-')).unwrap()
    }

    /// The answers are those of the responder in C, which usrsctp took; and of Python, which laid
    /// them out from the RFCs.
    #[test]
    fn rows() {
        let (mut responder, mut saved) = (Responder::default(), Responder::default());
        let mut answers = 0;
        for (index, line) in include_str!("responder.txt").lines().enumerate() {
            let words: Vec<&str> = line.split(' ').collect();
            match words[..] {
                ["new", identifier, pair_key, listed, key] => {
                    let settings = Settings {
                        key: of_word(key),
                        listed: of_word(listed),
                        pair_key: of_word(pair_key),
                        pair_key_identifier: identifier.parse().unwrap(),
                    };
                    responder = Responder { settings, ..Responder::default() };
                }
                ["next", tag, tsn, random, ties] => {
                    let [tag, tsn] = [tag, tsn].map(|it| u32::from_str_radix(it, 16).unwrap());
                    let random = of_word(random).try_into().unwrap_or_default();
                    let tie_tags = of_word(ties).try_into().unwrap();
                    responder.next = Next { tag, tsn, random, tie_tags };
                }
                ["save"] => saved = responder.clone(),
                ["restore"] => responder = saved.clone(),
                ["forget"] => responder.state = Closed,
                ["#", ..] => {}
                [_, _, answer] => {
                    let (question, _) = line.rsplit_once(' ').unwrap();
                    let found = answer_line(&mut responder, question).unwrap();
                    assert_eq!(found, answer.trim_matches('-'), "line {}", index + 1);
                    answers += u32::from(answer != "-");
                }
                _ => panic!("{line}"),
            }
        }
        assert!(answers > 150, "{answers}");
    }

    /// An INIT whose unknown parameters no INIT ACK has room for.
    #[test]
    fn large_init() {
        let mut buffer = vec![0; MAX_PACKET];
        let mut packet = PacketBuilder::begin(&mut buffer, 5000, 5001, 0).unwrap();
        let numbers = Init {
            initiate_tag: 1,
            a_rwnd: 1500,
            outbound_streams: 1,
            inbound_streams: 1,
            initial_tsn: 1,
        };
        let mut init = packet.init(&numbers).unwrap();
        for _ in 0..16_000 {
            init.parameter(ParameterType(0xc100), &[]).unwrap();
        }
        let packet = packet.seal();
        assert_eq!(Responder::default().receive(0, packet, &mut |_| {}), []);
    }
}
