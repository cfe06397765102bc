// SPDX-License-Identifier: Apache-2.0
//! Bytes and what they mean: the vectors of registry/vectors, which all packages read and write, and
//! a further file of kinds that the variable VECTORS names.

#[path = "../common/mod.rs"]
mod common;
mod json;
#[rustfmt::skip]
mod kinds;
mod random;

use common::{bytes, shared};
use davgyuti::{
    Answer, Association, Chunk, ChunkType, Chunks, Header, Init, InitFault, Known, Packet,
    PacketBuilder, ParameterType, Parameters, Policy, Rule, TAG_REFLECTED, Word, WriteError,
};
use json::Json;
use std::fmt::Debug;

/// Adds what isn't added by its fields alone: with the first of its list by a method, and the others
/// after it; and what is no kind.
fn add_own(packet: &mut PacketBuilder, it: &Json) -> Result<(), WriteError> {
    let first_is =
        |list: &str, kind: &str| it.items(list).next().is_some_and(|it| it.kind() == kind);
    match it.kind() {
        "HEARTBEAT" | "HEARTBEAT_ACK" => {
            let is_ack = it.kind() == "HEARTBEAT_ACK";
            let mut items = it.items("parameters");
            let mut chunk = if first_is("parameters", "HEARTBEAT_INFO") {
                let info = items.next().unwrap().bytes("info");
                if is_ack { packet.heartbeat_ack(&info)? } else { packet.heartbeat(&info)? }
            } else {
                let it = if is_ack { ChunkType::HEARTBEAT_ACK } else { ChunkType::HEARTBEAT };
                packet.chunk(it, 0, &[])?
            };
            items.try_for_each(|it| kinds::add_parameter(&mut chunk, it))
        }
        "ABORT" => {
            let mut items = it.items("causes");
            let tag_reflected = it.is("tag_reflected");
            let reason =
                items.clone().next().map(|it| it.get("reason").map(|_| it.bytes("reason")));
            let mut chunk = match reason.flatten().map(String::from_utf8) {
                Some(Ok(reason)) => {
                    items.next();
                    packet.abort(tag_reflected, &reason)?
                }
                _ => {
                    packet.chunk(ChunkType::ABORT, u8::from(tag_reflected) * TAG_REFLECTED, &[])?
                }
            };
            items.try_for_each(|it| kinds::add_cause(&mut chunk, it))
        }
        _ => {
            let (number, flags) = (ChunkType(it.number("type")), it.number("flags"));
            packet.chunk(number, flags, &it.bytes("value")).map(|_| ())
        }
    }
}

/// The chunks of a packet that is written, from the port 5000 to the port 5001.
fn written<T>(
    add: impl FnOnce(&mut PacketBuilder) -> Result<T, WriteError>,
) -> Result<(Vec<u8>, T), WriteError> {
    let mut buffer = vec![0xa5; 65_536];
    let mut packet = PacketBuilder::begin(&mut buffer, 5000, 5001, 0x0102_0304)?;
    let added = add(&mut packet)?;
    Ok((packet.as_bytes()[12..].to_vec(), added))
}

fn fault(bytes: &[u8], policy: Policy) -> Option<Json> {
    let fault =
        Packet::parse_with(bytes, Word::from_crc32c(7), policy.with_any_checksum(true)).err()?;
    let name = Json::Text(format!("{:?}", fault.kind).to_lowercase());
    Some(Json::List(vec![name, Json::Number(fault.offset.try_into().unwrap())]))
}

/// Each line of a file of vectors, and its number.
fn lines(text: &str) -> impl Iterator<Item = (usize, Json)> {
    text.lines().enumerate().map(|(at, line)| (at + 1, Json::parse(line)))
}

fn compare_kinds(text: &str) {
    for (at, line) in lines(text) {
        let chunks = line.bytes("bytes");
        let packet = [&bytes("1388 1389 01020304 00000000"), &chunks[..]].concat();
        assert_eq!(fault(&packet, Policy::new()).as_ref(), line.get("fault"), "line {at}");
        if let Some(Json::List(fault)) = line.get("fault") {
            // (what isn't whole isn't read)
            let at: usize = fault[1].as_number();
            for it in Chunks::of(&packet) {
                let parameter = it.parameters().find(|it| it.offset() == at);
                let cause = it.causes().find(|it| it.offset() == at).map(|it| kinds::cause(&it));
                let chunk = (it.offset() == at).then(|| kinds::content(&it));
                let found = chunk.or(cause).or(parameter.map(|it| kinds::parameter(&it)));
                assert!(found.is_none_or(|it| it.kind().is_empty()), "{}", line.text("bytes"));
            }
            continue;
        }
        let strict = fault(&packet, Policy::new().with_strict_padding(true));
        assert_eq!(strict.as_ref(), line.get("strict"), "line {at}: strict");
        let read = Json::List(Chunks::of(&packet).map(|it| kinds::content(&it)).collect());
        assert_eq!(Some(&read), line.get("chunks"), "line {at}");
        let again = written(|packet| {
            line.items("chunks").try_for_each(|it| kinds::add_content(packet, it))
        });
        let wanted = line.get("written").map_or(chunks, |_| line.bytes("written"));
        assert_eq!(
            Json::from(&again.unwrap().0[..]),
            Json::from(&wanted[..]),
            "line {at}: written"
        );
    }
}

#[test]
fn kinds_are_read_and_written() {
    compare_kinds(&shared("registry/vectors/kinds.jsonl"));
    if let Ok(path) = std::env::var("VECTORS") {
        compare_kinds(&std::fs::read_to_string(path).unwrap());
    }
}

/// The value of the only chunk, or of the only one of its list, whose header ends at an offset.
fn value_at(chunks: &[u8], end: usize) -> Vec<u8> {
    let length = u16::from_be_bytes([chunks[end - 2], chunks[end - 1]]);
    chunks[end..end - 4 + usize::from(length)].to_vec()
}

#[test]
fn registered_values_are_read_and_written() {
    for (at, line) in lines(&shared("registry/vectors/registered.jsonl")) {
        let number: u16 = line.number("type");
        let header = |value: &[u8], front: [u8; 2]| {
            let length = u16::try_from(4 + value.len()).unwrap();
            [&front, &length.to_be_bytes()[..], value].concat()
        };
        let fields = line.get("fields").unwrap();
        if line.get("value").is_some() {
            let value = line.bytes("value");
            let front = number.to_be_bytes();
            let read = match line.text("level") {
                "chunk" => Chunk::at(&header(&value, [front[1], 0]), 0)
                    .and_then(|it| it.registered().map(|it| kinds::chunk_fields(&it))),
                "parameter" => Parameters::of(&header(&value, front))
                    .next()
                    .and_then(|it| it.registered().map(|it| kinds::parameter_fields(&it))),
                _ => davgyuti::Causes::of(&header(&value, front))
                    .next()
                    .and_then(|it| it.registered().map(|it| kinds::cause_fields(&it))),
            };
            assert_eq!(read.unwrap_or(Json::Null), *fields, "line {at}");
        }
        if *fields == Json::Null {
            continue;
        }
        let again = match line.text("level") {
            "chunk" => {
                let it = kinds::chunk_of(number, fields);
                assert_eq!(u16::from(it.chunk_type().0), number);
                written(|packet| packet.registered(&it).map(|_| ())).map(|it| value_at(&it.0, 4))
            }
            "parameter" => {
                let it = kinds::parameter_of(number, fields);
                assert_eq!(it.parameter_type().0, number);
                written(|packet| packet.re_config()?.registered_parameter(&it).map(|_| ()))
                    .map(|it| value_at(&it.0, 8))
            }
            _ => {
                let it = kinds::cause_of(number, fields);
                assert_eq!(it.code().0, number);
                written(|packet| packet.error()?.registered_cause(&it).map(|_| ()))
                    .map(|it| value_at(&it.0, 8))
            }
        };
        if line.get("refused").is_some() {
            assert_eq!(again, Err(WriteError::BadValue), "line {at}");
        } else {
            let wanted =
                line.bytes(if line.get("written").is_some() { "written" } else { "value" });
            assert_eq!(again, Ok(wanted), "line {at}: written");
        }
    }
}

/// The identifier of a case: `NotAlone` is `NOT_ALONE`.
fn identifier(it: impl Debug) -> Json {
    let name = format!("{it:?}");
    let split = name.char_indices().map(|(at, it)| match it {
        'A'..='Z' if at > 0 => format!("_{it}"),
        _ => it.to_uppercase().to_string(),
    });
    Json::Text(split.collect())
}

/// The case of an identifier.
fn case<T: Debug + Copy, const N: usize>(cases: [T; N], it: &Json) -> Option<T> {
    cases.into_iter().find(|case| identifier(case) == *it)
}

#[rustfmt::skip]
const FAULTS: [InitFault; 8] = [
    InitFault::NotAlone, InitFault::TooShort, InitFault::TagZero, InitFault::SmallWindow, InitFault::NoOutboundStreams,
    InitFault::NoInboundStreams, InitFault::NoStateCookie, InitFault::HostNameAddress,
];
#[rustfmt::skip]
const ANSWERS: [Answer; 5] =
    [Answer::Discard, Answer::Init, Answer::CookieEcho, Answer::ShutdownComplete, Answer::Abort];

/// What adds, and where it stops.
fn stopped(added: Result<(Vec<u8>, Option<usize>), WriteError>) -> (Json, Json) {
    let (chunks, end) = added.unwrap();
    let end = end.map_or(Json::Null, |it| Json::Number(it.try_into().unwrap()));
    (Json::from(&chunks[..]), end)
}

/// What a call returns, and where the program stops, if the vector says so; none of what can't be
/// asked here.
fn returned(it: &Json) -> Option<(Json, Json)> {
    let packet = it.get("packet").map(|_| it.bytes("packet")).unwrap_or_default();
    let first = Chunks::of(&packet).next();
    // (the offsets are those in the list)
    let list = first.map_or(Parameters::of(&[]), |it| Parameters::of(it.parameters().as_bytes()));
    let header = it.get("header").map(|it| {
        let (source_port, destination_port) =
            (it.number("source_port"), it.number("destination_port"));
        let verification_tag = it.number("verification_tag");
        Header { source_port, destination_port, verification_tag, checksum: 0 }
    });
    let mut buffer = [0xa5; 100];
    let sealed = |packet: Result<PacketBuilder, WriteError>| match packet {
        Ok(it) => Json::from(&it.seal()[..]),
        Err(error) => {
            assert_eq!(error, WriteError::BadValue);
            Json::Null
        }
    };
    let known = || it.numbers("known").into_iter().map(ParameterType).collect::<Vec<_>>();
    let returns = match it.text("call") {
        "unrecognized_chunk" => {
            identifier(davgyuti::unrecognized_chunk(ChunkType(it.number("type"))))
        }
        "unrecognized_parameter" => {
            identifier(davgyuti::unrecognized_parameter(ParameterType(it.number("type"))))
        }
        "verify_tag" => {
            let peer_tag = it.some("peer_tag").map(Json::as_number);
            let (own_tag, awaits_cookie) = (it.number("own_tag"), it.is("awaits_cookie"));
            let association = Association { own_tag, peer_tag, awaits_cookie };
            identifier(davgyuti::verify_tag(&packet, &association))
        }
        "out_of_the_blue" => identifier(davgyuti::out_of_the_blue(&packet, it.is("is_unicast"))),
        "reply" => {
            let answer = case(ANSWERS, it.get("answer")?)?;
            sealed(PacketBuilder::reply(&mut buffer, &header?, answer))
        }
        "init_fault" => {
            let fault = davgyuti::init_fault(&packet, it.is("is_ack"));
            fault.map_or(Json::Text("NO_FAULT".into()), identifier)
        }
        "init_refusal" => {
            let fault = case(FAULTS, it.get("fault")?)?;
            identifier(davgyuti::init_refusal(fault, it.is("is_ack"), it.is("in_cookie_wait")))
        }
        "init_abort" => {
            let (tag, fault) = (it.number("initiate_tag"), case(FAULTS, it.get("fault")?)?);
            sealed(PacketBuilder::init_abort(&mut buffer, &header?, tag, fault))
        }
        "adds_addresses" => Json::from(davgyuti::adds_addresses(&list, &it.bytes("known"))),
        "add_new_addresses" => {
            let added = written(|packet| {
                let mut abort = packet.chunk(ChunkType::ABORT, 0, &[])?;
                abort.new_addresses(&list, &it.bytes("known")).map(|_| ())
            });
            Json::from(&added.unwrap().0[..])
        }
        "add_unrecognized_parameters" => {
            return Some(stopped(written(|packet| {
                packet.init_ack(&Init::default())?.unrecognized_parameters(&list, &known())
            })));
        }
        "add_unrecognized_parameters_error" => {
            return Some(stopped(written(|packet| {
                packet.unrecognized_parameters_error(&list, &known())
            })));
        }
        "add_unrecognized_chunks" => {
            let known: Vec<_> = it.numbers("known").into_iter().map(ChunkType).collect();
            return Some(stopped(written(|it| it.unrecognized_chunks(&packet, &known))));
        }
        "broken_rules" => {
            let (has_data, has_i_data) = (it.is("has_data"), it.is("has_i_data"));
            let known = Known { refuses_zero: it.is("refuses_zero"), has_data, has_i_data };
            let rules = davgyuti::broken_rules(&packet, &known);
            assert!(Rule::ALL.into_iter().filter(|it| rules.contains(*it)).eq(rules.clone()));
            Json::List(rules.map(identifier).collect())
        }
        other => panic!("{other}"),
    };
    Some((returns, Json::Null))
}

#[test]
fn calls_return_what_they_have_to() {
    let mut asked = 0;
    for (at, line) in lines(&shared("registry/vectors/calls.jsonl")) {
        if let Some((returns, end)) = returned(&line) {
            assert_eq!(Some(&returns), line.get("returns"), "line {at}");
            assert_eq!(&end, line.get("end").unwrap_or(&Json::Null), "line {at}");
            asked += 1;
        }
    }
    assert!(asked > 0);
}
