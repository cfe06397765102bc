// SPDX-License-Identifier: Apache-2.0
//! usage: multihomed KEY ADDRESS ...
//!
//! Answers as a host with these addresses does whose peer adds and deletes addresses while it talks.
//! Each line of the input is the address that a packet came from, and the packet in hexadecimal;
//! what answers it is printed likewise, or an empty line. KEY, in hexadecimal, is the key of the
//! association (RFC 4895 section 6.1).
//!
//! - INIT gets an INIT ACK with the host's addresses, a State Cookie, and the parameters that aren't
//!   known and ask to be reported.
//! - ASCONF after an AUTH that is right gets an ASCONF ACK after an AUTH, with an answer to each
//!   request.
//!
//! It is no association: the cookie says nothing, and nothing is sent again.

use davgyuti::{
    Causes, Chunk, ChunkBuilder, Content, FIRST_CHUNK, Header, Init, MAX_PACKET, Packet,
    PacketBuilder, Parameter, ParameterType, Parameters, RegisteredCause, RegisteredChunk,
    RegisteredParameter, WriteError, seal, sign_auth, unrecognized_parameter, verify_auth,
};
use std::fmt::Write;
use std::io::{self, BufRead};
use std::net::IpAddr;

const SHA_256: u16 = 3;
const KNOWN: [ParameterType; 8] = [
    ParameterType::IPV4_ADDRESS,
    ParameterType::IPV6_ADDRESS,
    ParameterType::COOKIE_PRESERVATIVE,
    ParameterType::SUPPORTED_ADDRESS_TYPES,
    ParameterType::SUPPORTED_EXTENSIONS,
    ParameterType::RANDOM,
    ParameterType::CHUNK_LIST,
    ParameterType::REQUESTED_HMAC_ALGORITHM,
];

/// What is kept of this side and of its peer.
struct Host {
    key: Vec<u8>,
    own: Vec<IpAddr>,
    peer: Vec<IpAddr>,
    tag: u32,
    next_number: u32,
    last_ack: Vec<u8>,
}

impl Host {
    const fn new(key: Vec<u8>, own: Vec<IpAddr>) -> Self {
        Self { key, own, peer: Vec::new(), tag: 0, next_number: 0, last_ack: Vec::new() }
    }

    /// What answers a packet from this address; nothing, if it is none, or not one of these.
    fn answer(&mut self, source: IpAddr, bytes: &[u8]) -> Vec<u8> {
        let packet = match Packet::parse(bytes) {
            Ok(it) => it,
            Err(fault) => {
                eprintln!("{fault}");
                return Vec::new();
            }
        };
        let (header, chunks) = (packet.header(), packet.chunks().collect::<Vec<_>>());
        let answer = match chunks[..] {
            [init] => match init.content() {
                Content::Init(init, parameters)
                    if header.verification_tag == 0 && init.initiate_tag != 0 =>
                {
                    self.init_ack(source, &header, &init, parameters)
                }
                _ => return Vec::new(),
            },
            [auth, chunk] if self.is_right(bytes, &auth) => match chunk.registered() {
                Some(RegisteredChunk::Asconf { sequence_number, parameters, .. }) => {
                    self.asconf_ack(source, &header, sequence_number, parameters)
                }
                _ => return Vec::new(),
            },
            _ => return Vec::new(),
        };
        answer.unwrap_or_else(|error| {
            eprintln!("{error}");
            Vec::new()
        })
    }

    fn init_ack(
        &mut self,
        source: IpAddr,
        header: &Header,
        init: &Init,
        parameters: Parameters,
    ) -> Result<Vec<u8>, WriteError> {
        (self.tag, self.next_number) = (init.initiate_tag, init.initial_tsn);
        self.peer = vec![source];
        for it in parameters.clone() {
            if let Some(
                RegisteredParameter::Ipv4Address { address }
                | RegisteredParameter::Ipv6Address { address },
            ) = it.registered()
            {
                self.peer.push(address);
            }
        }
        let mut buffer = vec![0; MAX_PACKET];
        let mut packet = self.begin(header, &mut buffer)?;
        let mut init_ack = packet.init_ack(&Init {
            initiate_tag: 0x0da7_3798,
            a_rwnd: 0x2_0000,
            outbound_streams: 4,
            inbound_streams: 4,
            initial_tsn: 0x66e3_87ab,
        })?;
        for &address in &self.own {
            init_ack.registered_parameter(&match address {
                IpAddr::V4(_) => RegisteredParameter::Ipv4Address { address },
                IpAddr::V6(_) => RegisteredParameter::Ipv6Address { address },
            })?;
        }
        init_ack.parameter(ParameterType::STATE_COOKIE, b"abcd")?;
        // RFC 9260 section 3.2.1: what isn't known is reported, or not; and perhaps the last.
        for it in parameters.filter(|it| !KNOWN.contains(&it.parameter_type())) {
            let action = unrecognized_parameter(it.parameter_type());
            if action.reports() {
                let parameters = Parameters::of(it.as_bytes());
                let unknown = RegisteredParameter::UnrecognizedParameter { parameters };
                init_ack.registered_parameter(&unknown)?;
            }
            if !action.skips() {
                break;
            }
        }
        Ok(packet.seal().to_vec())
    }

    /// RFC 5061 section 5.2: each ASCONF has the next number; the last one may come again.
    fn asconf_ack(
        &mut self,
        source: IpAddr,
        header: &Header,
        sequence_number: u32,
        requests: Parameters,
    ) -> Result<Vec<u8>, WriteError> {
        if sequence_number == self.next_number {
            let mut buffer = vec![0; MAX_PACKET];
            let mut packet = self.begin(header, &mut buffer)?;
            let parameters = Parameters::of(&[]);
            let ack = RegisteredChunk::AsconfAck { sequence_number, parameters };
            let mut ack = packet.registered(&ack)?;
            for request in requests {
                self.grant(source, &request, &mut ack)?;
            }
            self.next_number = sequence_number.wrapping_add(1);
            let ack = Chunk::at(packet.as_bytes(), FIRST_CHUNK).ok_or(WriteError::BadPlace)?;
            self.last_ack = self.authenticated(header, &ack)?;
        } else if sequence_number.wrapping_add(1) != self.next_number {
            return Ok(Vec::new());
        }
        Ok(self.last_ack.clone())
    }

    /// Does what is asked for, and adds the answer; none where it isn't a request.
    fn grant(
        &mut self,
        source: IpAddr,
        request: &Parameter,
        ack: &mut ChunkBuilder,
    ) -> Result<(), WriteError> {
        let parameters = Parameters::of(request.as_bytes());
        let (number, refusal) = match request.registered() {
            Some(RegisteredParameter::AddIpAddress { correlation_id: number, address }) => {
                self.peer.push(address);
                (number, None)
            }
            Some(RegisteredParameter::DeleteIpAddress { correlation_id: number, address }) => {
                if self.peer.iter().all(|&it| it == address) {
                    let refusal = RegisteredCause::DeleteLastRemainingIpAddress { parameters };
                    (number, Some(refusal))
                } else if address == source {
                    (number, Some(RegisteredCause::DeleteSourceIpAddress { parameters }))
                } else {
                    self.peer.retain(|&it| it != address);
                    (number, None)
                }
            }
            Some(RegisteredParameter::SetPrimaryAddress { correlation_id: number, address })
                if self.peer.contains(&address) =>
            {
                self.peer.sort_by_key(|&it| it != address);
                (number, None)
            }
            _ => return Ok(()),
        };
        let mut buffer = [0; 100];
        match refusal {
            None => {
                let success = RegisteredParameter::SuccessIndication { correlation_id: number };
                ack.registered_parameter(&success)?;
            }
            Some(cause) => {
                let causes = Causes::of(cause.write(&mut buffer)?.as_bytes());
                let refused =
                    RegisteredParameter::ErrorCauseIndication { correlation_id: number, causes };
                ack.registered_parameter(&refused)?;
            }
        }
        Ok(())
    }

    fn begin<'a>(
        &self,
        header: &Header,
        buffer: &'a mut [u8],
    ) -> Result<PacketBuilder<'a>, WriteError> {
        PacketBuilder::begin(buffer, header.destination_port, header.source_port, self.tag)
    }

    /// The packet with this chunk after an AUTH.
    fn authenticated(&self, header: &Header, chunk: &Chunk) -> Result<Vec<u8>, WriteError> {
        let mut buffer = vec![0; MAX_PACKET];
        let mut packet = self.begin(header, &mut buffer)?;
        let start = packet.size();
        let hmac = &[0; 32];
        packet.registered(&RegisteredChunk::Auth { key: 0, hmac_identifier: SHA_256, hmac })?;
        packet.copy(chunk)?;
        let packet = packet.unsealed();
        sign_auth(&self.key, &mut packet[start..])?;
        seal(packet)?;
        Ok(packet.to_vec())
    }

    fn is_right(&self, bytes: &[u8], auth: &Chunk) -> bool {
        matches!(auth.registered(), Some(RegisteredChunk::Auth { hmac_identifier: SHA_256, .. }))
            && verify_auth(&self.key, &bytes[auth.offset()..])
    }
}

/// The bytes of hexadecimal digits.
fn of_hex(digits: &str) -> Option<Vec<u8>> {
    let pairs = digits.as_bytes().chunks(2);
    pairs.map(|it| u8::from_str_radix(std::str::from_utf8(it).ok()?, 16).ok()).collect()
}

/// The answer to a line of the input.
fn answer_line(host: &mut Host, line: &str) -> Option<String> {
    let (source, digits) = line.split_once(' ')?;
    let answer = host.answer(source.parse().ok()?, &of_hex(digits)?);
    let mut text = String::new();
    answer.iter().try_for_each(|it| write!(text, "{it:02x}")).ok()?;
    Some(text)
}

fn main() {
    let mut words = std::env::args().skip(1);
    let key = words.next().and_then(|it| of_hex(&it)).expect("KEY in hexadecimal");
    let mut host = Host::new(key, words.map(|it| it.parse().expect("an address")).collect());
    for line in io::stdin().lock().lines() {
        let line = line.expect("a line of text");
        println!("{}", answer_line(&mut host, &line).expect("an address, and digits"));
    }
}

#[cfg(test)]
mod tests {
    use super::{Host, answer_line, of_hex};

    /// The answers are those that Python laid out from the RFCs.
    #[test]
    fn conversation() {
        let own = ["203.0.113.1", "2001:db8:1::1"].map(|it| it.parse().unwrap());
        let mut host = Host::new((0..20).collect(), own.to_vec());
        let lines = include_str!("multihomed.txt").lines().filter(|it| !it.starts_with('#'));
        let mut count = 0;
        for line in lines {
            let (question, answer) = line.rsplit_once(' ').unwrap();
            let answer = if answer == "-" { "" } else { answer };
            assert_eq!(answer_line(&mut host, question).as_deref(), Some(answer), "{line}");
            count += 1;
        }
        assert!(count > 12, "{count}");
    }

    /// Of an ASCONF after an AUTH each bit counts.
    #[test]
    fn a_wrong_hmac() {
        let lines = include_str!("multihomed.txt").lines().filter(|it| !it.starts_with('#'));
        let mut packets = lines.map(|it| of_hex(it.split(' ').nth(1).unwrap()).unwrap());
        let mut host = Host::new((0..20).collect(), Vec::new());
        let source = "192.0.2.1".parse().unwrap();
        assert!(!host.answer(source, &packets.next().unwrap()).is_empty());
        let asconf = packets.nth(2).unwrap();
        for at in 12..asconf.len() {
            let mut wrong = asconf.clone();
            wrong[at] ^= 1;
            davgyuti::seal(&mut wrong).unwrap();
            assert!(host.answer(source, &wrong).is_empty(), "{at}");
        }
        assert!(!host.answer(source, &asconf).is_empty());
    }
}
