// SPDX-License-Identifier: Apache-2.0
/** Reads, checks, prints and writes SCTP packets (RFC 9260), over WebAssembly.

    Bytes are copied into the memory of WebAssembly and out of it; only a `value`, a `payload`, the `bytes` of a part and what
    `registeredChunk` and the like give as bytes are views of the bytes that were given, as is what `openCookie` does. Numbers are
    plain values, and bigints where they have 64 bits. What isn't of the type that is said here throws a TypeError; a number that
    doesn't fit its field throws a RangeError. A field or an option that isn't named here is ignored, also a misspelt one. Each call
    that takes bytes or a list throws a WriteError of NO_MEMORY where WebAssembly has no memory for them. Sections without another
    name are those of RFC 9260. */

import {
  Action, Answer, CauseCode, CauseContent, CauseFields, CauseKinds, ChunkContent, ChunkFields, ChunkType, CookieState, Data, GapAckBlock,
  InitFault, Kinds, KnownContent, ParameterContent, ParameterFields, ParameterKinds, ParameterType, ReConfig, Refusal, Result, Rule, Sack,
  TagVerdict,
} from './kinds.js';
// Types, names and numbers, and what the kinds of chunks, parameters and error causes hold.
export * from './kinds.js';

/** Begins with dcsctp.wasm, in a browser, before the first other call: with its bytes, a `WebAssembly.Module` of them, the `Response` of
    a `fetch`, or a promise of one of these. Once it has begun, as in node from the first, it does nothing. Rejects what isn't that. */
export function init(wasm: object): Promise<void>;
/** The version of this package, and of dcsctp.wasm. */
export const version: string;
/** The same, from dcsctp.wasm: major * 65536 + minor * 256 + patch. */
export function versionNumber(): number;

// ---- constants and names

type Of<T, K extends keyof T = keyof T> = T[K];

/** The offset of a packet's first chunk. */
export const FIRST_CHUNK: 12;
/** The flag of ABORT and SHUTDOWN COMPLETE, the T bit: the verification tag isn't the one that the receiver expects, but the
    one that it writes into its own packets, sent back to it (section 8.5.1). Other chunks' bits mean something else. */
export const TAG_REFLECTED: 1;
/** What a result means, in a few words. */
export function resultText(code: number): string;
/** The name of a type of chunk, as the standards write it; "chunk type 77 (0x4d)", say, for one without a name. */
export function chunkName(type: number): string;
/** The same of a type of parameter; "parameter type 32774 (0x8006)", say. */
export function parameterName(type: number): string;
/** The same of a code of an error cause; "cause code 99 (0x0063)", say. */
export function causeName(code: number): string;
/** Whether a type of chunk has a name. */
export function isKnownChunk(type: unknown): type is ChunkType;
/** Whether a type of parameter has one. This isn't what you may take for recognized in an INIT: list that yourself. */
export function isKnownParameter(type: unknown): type is ParameterType;
/** Whether a code of an error cause has one. */
export function isKnownCause(code: unknown): code is CauseCode;

/** The bytes are no packet: the first fault, from the left. Its message says both. What a Worker posts of it arrives as a plain
    Error: post what `firstFault` gives. */
export class Fault extends Error {
  constructor(code: FaultCode, offset: number);
  /** What is wrong: 1 to 5 of Result. */
  readonly code: FaultCode;
  /** Where, in bytes from the first: of a wrong length or value where the chunk, parameter or error cause begins; for
      FAULT_CHECKSUM 8; of wrong padding its first byte, or the end of the bytes; for FAULT_SIZE how many there are, or 65,535
      if that is less. */
  readonly offset: number;
}
/** Nothing was written, and all is as it was before. Its message says why. */
export class WriteError extends Error {
  constructor(code: WriteError['code'], message?: string);
  /** Why: 6 to 10 of Result. */
  readonly code: Exclude<Result, 0 | FaultCode>;
}
/** The codes of a Fault. */
export type FaultCode = Of<typeof Result, Extract<keyof typeof Result, `FAULT_${string}`>>;

// ---- reading a whole packet

/** Which checksum fields are accepted, and whether padding is checked. What is left out is false. */
export interface Policy {
  /** Accepts every checksum field. */
  anyChecksum?: boolean;
  /** Accepts a field of zero as well (RFC 9653), in every packet. */
  zeroChecksum?: boolean;
  /** Accepts a field of zero where RFC 9653 section 5.2 allows one, not where `needsChecksum`: for an association in which you
      sent Zero Checksum Acceptable. */
  allowedZeroChecksum?: boolean;
  /** Padding has to be complete and zero. */
  strictPadding?: boolean;
  /** What the checksum field has to be; if left out, `word(bytes)`, which isn't computed where `anyChecksum` is true, but by `report`. */
  word?: Word;
}
declare const isWord: unique symbol;
/** What a packet's checksum field has to be, made by `word` alone: the packet's own field isn't one. */
export interface Word {
  readonly [isWord]: true;
  /** As the field is read, most significant byte first. */
  readonly number: number;
}
/** A packet that `read` read. */
export interface ReadPacket {
  header: Header;
  chunks: Chunk[];
}
/** Checks a packet, and reads its header and its chunks: the fastest way to read. Throws the first Fault where the bytes aren't a packet
    (sections 3 and 6.8). */
export function read(bytes: Uint8Array, policy?: Policy): ReadPacket;

declare const isChecked: unique symbol;
/** Bytes that `check` accepted. Only their type says so: what you change afterwards has to be checked anew. */
export type Packet = Uint8Array & { readonly [isChecked]: true };
/** Checks a packet alone. Throws as `read` does. */
export function check(bytes: Uint8Array, policy?: Policy): asserts bytes is Packet;
/** What the first fault is and where, as a Fault has it; null where the bytes are a packet. Nothing is thrown, which takes longest where
    packets are refused. */
export function firstFault(bytes: Uint8Array, policy?: Policy): Pick<Fault, 'code' | 'offset'> | null;
/** The canonical packet, unsealed: two packets have the same one if and only if they mean the same. Throws as `read` does, and a
    WriteError of TOO_LONG. */
export function canonical(bytes: Uint8Array, policy?: Policy): Uint8Array;
/** A line for the header, and one for each chunk; there is none at the end. */
export function text(bytes: Uint8Array, policy?: Policy): string;
/** All that the packet holds, as `sctp_dump --payload` prints it; each line ends in a line feed. */
export function report(bytes: Uint8Array, policy?: Policy): string;
/** Computes what a packet's checksum field has to be, its CRC32c (section 6.8). For fewer than 12 bytes it has no meaning. */
export function word(bytes: Uint8Array): Word;

/** Whether a packet has to have its CRC32c also where a checksum of zero was negotiated (RFC 9653 section 5.2): it has INIT, COOKIE
    ECHO or ASCONF; or ABORT or SHUTDOWN COMPLETE with TAG_REFLECTED. */
export function needsChecksum(bytes: Uint8Array): boolean;

// ---- reading the parts of a packet

/** The common header (section 3.1). */
export interface Header {
  sourcePort: number;
  destinationPort: number;
  verificationTag: number;
  /** As it lies there, most significant byte first. */
  checksum: number;
}
/** The common header of a packet. */
export function header(bytes: Packet): Header;
/** The same of any bytes; null for fewer than 12. */
export function header(bytes: Uint8Array): Header | null;

/** A chunk (section 3.2) of any bytes. Where they aren't a packet, what is said of its kind may be left out. Its fields are getters,
    as are those of its parameters and error causes: `{ ...chunk }` and `structuredClone` don't copy them. JSON and node's inspection
    have them, and its items; in JSON bytes are text in hexadecimal. Numbers are those that were read; a list is read when it is first
    asked for, of the bytes as they were or as they are now, and a view is of the bytes, of no bytes where it is empty. */
export interface UncheckedChunk extends ChunkContent {
  type: number;
  /** As `chunkName` has it. */
  name: string;
  flags: number;
  /** Where it begins in the bytes, where its value does, and where the next chunk begins. */
  offset: number;
  valueOffset: number;
  next: number;
  /** What follows its header of four bytes, without padding: a view of the bytes. */
  value: Uint8Array;
  /** Its header and its value: a view of the bytes. The cause Unrecognized Chunk Type has to hold them (section 3.3.10.6). */
  bytes: Uint8Array;
}
/** The numbers below N. */
type Below<N extends number, All extends number[] = []> = All['length'] extends N ? All[number] : Below<N, [...All, All['length']]>;
/** A chunk of a packet: its `type` says what it has. */
export type Chunk = UncheckedChunk & (KnownContent | { type: Exclude<Below<256>, KnownContent['type']> });
/** The chunks of a packet, each read when it is asked for. */
export function chunks(bytes: Packet): IterableIterator<Chunk>;
/** The same of any bytes, of which the first 65,535 are looked at. They end where no whole chunk is. */
export function chunks(bytes: Uint8Array): IterableIterator<UncheckedChunk>;

/** Reads a SACK (section 3.3.4) into an object of yours, and returns that: it then has what `chunk.sack` has, in lists and blocks of its
    own. Keep one object, `{}` at first, to read many SACKs: its lists and the blocks in them are used again, and only what a list has
    more than before is made; what it has less is let go. So copy what is to stay, and have each block in one place only. What another
    chunk's `sack` gave is changed if it is passed, and only then. */
export function readSack(chunk: UncheckedChunk & { sack: Sack }, sack: Partial<Sack>): Sack;
/** The same of any chunk. Of one that has no `sack` it returns undefined, and changes nothing. */
export function readSack(chunk: UncheckedChunk, sack: Partial<Sack>): Sack | undefined;

/** The chunk that the bytes are, without a packet around it, and with or without its padding: as SDP has an INIT in
    `a=sctp-init`, and the cause Unrecognized Chunk Type any chunk. Its `bytes` write it. Throws a Fault whose offset is into
    these bytes; with FAULT_LENGTH where the chunk ends if something follows it. */
export function readChunk(bytes: Uint8Array): Chunk;

type Bits = Pick<Data, 'isUnordered' | 'isBeginning' | 'isEnd' | 'immediateAck'>;
/** The bits of user data as the number in its chunk: E 1, B 2, U 4, I 8. */
export function dataFlags(data: Partial<Bits>): number;
/** The same user data with the bits of this number; its other bits are reserved. */
export function withFlags<T extends object>(data: T, flags: number): T & Bits;

/** The types of parameters that are a ReConfig. */
export type ReConfigType = ReConfig['type'];
/** What a parameter and an error cause have. */
interface Item {
  /** As `parameterName` or `causeName` has it. */
  name: string;
  /** What follows its header of four bytes, without padding: a view of the bytes. */
  value: Uint8Array;
  /** Its header and its value: a view of the bytes. Unrecognized Parameter (section 3.3.3.1.2) and the cause Unrecognized
      Parameters (section 3.3.10.8) have to hold them. */
  bytes: Uint8Array;
  /** Where it and the next one begin in the packet's bytes. */
  offset: number;
  next: number;
}
/** A parameter (section 3.2.1). */
export type Parameter = Item & ParameterContent;
/** The parameters of a chunk that `chunks` gave; of a type without any there are none. */
export function parameters(chunk: UncheckedChunk): IterableIterator<Parameter>;

/** A parameter of this type with a copy of this value, as one that was read; its offset is 0. Throws a WriteError of BAD_VALUE
    where it would have more than 65,535 bytes. */
export function parameter(type: number, value?: Uint8Array): Parameter;
/** The same of the fields of its value, as `addParameter` and `addRegisteredParameter` take them. */
export function parameter<T extends keyof ParameterKinds>(type: T, fields: ParameterKinds[T]): Parameter;
export function parameter<T extends keyof ParameterFields>(type: T, fields: Given<ParameterFields[T]>): Parameter;

/** An error cause (section 3.3.10). */
export type Cause = Item & CauseContent;
/** The error causes of ABORT or ERROR; of another type there are none. */
export function causes(chunk: UncheckedChunk): IterableIterator<Cause>;

/** An error cause of this code with a copy of this value, likewise. */
export function cause(code: number, value?: Uint8Array): Cause;
export function cause<T extends keyof CauseKinds>(code: T, fields: CauseKinds[T]): Cause;
export function cause<T extends keyof CauseFields>(code: T, fields: Given<CauseFields[T]>): Cause;

type Flagged<F> = F & { flags: number };
/** What a chunk of a type in ChunkFields holds, and its flags; the names are those of registry/sctp.txt. An `address` is text, and
    its octets are `addressBytes`; the items of a list are read one level deep, and each by `registeredParameter` or
    `registeredCause`. Null for another type than that, and where the value has a size that its type doesn't allow, or a list that is
    broken: `check` looks at none of these values. Views are of the chunk's value. */
export function registeredChunk<T extends keyof ChunkFields>(chunk: UncheckedChunk, type: T): Flagged<ChunkFields[T]> | null;
export function registeredChunk(chunk: UncheckedChunk): Flagged<ChunkFields[keyof ChunkFields]> | null;
/** The same of a parameter of a type in ParameterFields. */
export function registeredParameter<T extends keyof ParameterFields>(parameter: Parameter, type: T): ParameterFields[T] | null;
export function registeredParameter(parameter: Parameter): ParameterFields[keyof ParameterFields] | null;
/** The same of an error cause of a code in CauseFields. */
export function registeredCause<T extends keyof CauseFields>(cause: Cause, code: T): CauseFields[T] | null;
export function registeredCause(cause: Cause): CauseFields[keyof CauseFields] | null;
/** The addresses of IPv4 Address and IPv6 Address parameters, as text and in order. All else is passed over, and so is one of a wrong
    size. */
export function addresses(parameters: Iterable<Parameter>): string[];

// ---- changing a packet in place

/** Writes the CRC32c into the checksum field, and returns the bytes. Throws a WriteError of BAD_PLACE, and changes nothing, for
    fewer than 12. */
export function seal(bytes: Uint8Array): Uint8Array;
/** Writes the verification tag, and returns the bytes, which have to be sealed anew. Throws as `seal` does. */
export function setTag(bytes: Uint8Array, verificationTag: number): Uint8Array;

// ---- writing a packet

type Needed<T, K extends keyof T> = Pick<T, K> & Partial<T>;
type Fixed = number | string | [number, number, number];
type AsGiven<T> = T extends string ? string | Uint8Array
  : T extends Item[] ? Iterable<Pick<Item, 'bytes'>> : T extends Fixed | Uint8Array ? T : Iterable<number>;
/** Fields of a value that is written: an address is text or its octets, and of the items of a list the `bytes` are taken. What ends
    the value is empty if it is left out. */
export type Given<F> = { [K in keyof F as F[K] extends Fixed ? K : never]: AsGiven<F[K]> }
  & { [K in keyof F as F[K] extends Fixed ? never : K]?: AsGiven<F[K]> };

export interface Builder extends Kinds {}
/** Builds a packet, chunk by chunk: what is added by its fields is in `Kinds`, and by `reset` the next packet begins. A call that
    can't add throws a WriteError, NO_ROOM or BAD_VALUE, and changes nothing. Whether RFC 9260 lets the values be sent, or `check`
    would accept the packet, isn't checked. */
export class Builder {
  /** Begins a packet. `room` is the most bytes that it may have, 65,532 if left out. Throws NO_ROOM for less than 12. */
  constructor(options: { sourcePort: number; destinationPort: number; verificationTag: number; room?: number });
  /** How many bytes the packet has. */
  readonly size: number;
  /** How many it may have. */
  readonly room: number;

  /** Adds a chunk of any type. */
  addChunk(type: number, flags?: number, value?: Uint8Array): this;
  /** Adds HEARTBEAT (section 3.3.5), with this as its Heartbeat Info. */
  addHeartbeat(info: Uint8Array): this;
  /** Adds HEARTBEAT ACK (section 3.3.6), with the Heartbeat Info of the HEARTBEAT. */
  addHeartbeatAck(info: Uint8Array): this;
  /** Adds ABORT with the cause User-Initiated Abort, whose reason is text or its UTF-8. Throws BAD_VALUE where it is neither. */
  addAbort(reason?: string | Uint8Array, options?: { tagReflected?: boolean }): this;
  /** Adds a parameter to the last chunk. As all that adds to it this throws BAD_PLACE where there is no chunk. */
  addParameter(type: number, value?: Uint8Array): this;
  /** The same by the fields of its value: one of RE-CONFIG, or Zero Checksum Acceptable. */
  addParameter<T extends keyof ParameterKinds>(type: T, fields: ParameterKinds[T]): this;
  /** Adds an error cause to the last chunk. */
  addCause(code: number, value?: Uint8Array): this;
  /** The same by the fields of its value: Missing Mandatory Parameter, or No User Data. */
  addCause<T extends keyof CauseKinds>(code: T, fields: CauseKinds[T]): this;

  /** Adds a chunk of a type in ChunkFields; its flags are 0 if they are left out. As the next two it throws BAD_VALUE for another
      type, an address of another size, and a list that is broken. */
  addRegisteredChunk<T extends keyof ChunkFields>(type: T, fields: Given<ChunkFields[T]> & { flags?: number }): this;
  /** Adds a parameter of a type in ParameterFields to the last chunk: to an INIT, or to the requests of an ASCONF. */
  addRegisteredParameter<T extends keyof ParameterFields>(type: T, fields: Given<ParameterFields[T]>): this;
  /** Adds an IPv4 Address or IPv6 Address parameter for each address, as text, to the last chunk (RFC 9260 section 3.3.2.1). Throws
      what `addRegisteredParameter` does; those before the one that it throws for are then added. */
  addAddresses(addresses: Iterable<string>): this;
  /** Adds an error cause of a code in CauseFields to the last chunk. */
  addRegisteredCause<T extends keyof CauseFields>(code: T, fields: Given<CauseFields[T]>): this;

  /** Adds to an INIT ACK, the last chunk, an Unrecognized Parameter (section 3.3.3.1.2) for each parameter of an INIT that came whose
      type isn't known and is to be reported (section 3.2.2): whole and in order, up to the first at which processing stops, and with
      it. All, or nothing: throws NO_ROOM where there is no room for all. `known` are the types that your program knows. Returns where
      it stops: the `offset` of the parameter at which processing stops; null if it stops at none. */
  addUnrecognizedParameters(init: Pick<UncheckedChunk, 'value' | 'valueOffset'>, known: Iterable<number>): number | null;
  /** Adds an ERROR with a cause Unrecognized Parameters (section 3.3.10.8) for each parameter of an INIT ACK that came, or of another
      chunk but INIT, likewise; no ERROR if there is none. The packet is the one that answers: that of an INIT ACK begins with COOKIE
      ECHO. */
  addUnrecognizedParametersError(chunk: UncheckedChunk, known: Iterable<number>): number | null;
  /** Adds to an ABORT, the last chunk, the cause Restart of an Association with New Addresses (section 3.3.10.11), with the addresses
      that an INIT adds to those of an association, `known`, as they are in the INIT: see `addsAddresses`. */
  addNewAddresses(init: UncheckedChunk, known: Uint8Array): this;
  /** Adds an ERROR with a cause Unrecognized Chunk Type (section 3.3.10.6) for each chunk of a packet that came whose type isn't known
      and is to be reported (section 3.2): whole and in order, up to the first at which processing stops, and with it; no ERROR if
      there is none. All, or nothing, likewise. Returns the `offset` of the chunk at which processing stops; null if it stops at
      none. */
  addUnrecognizedChunks(bytes: Uint8Array, known: Iterable<number>): number | null;

  /** Begins another packet in the memory of this one, with the same room, and with the ports and the tag that are given: faster than a
      Builder for each. */
  reset(options?: { sourcePort?: number; destinationPort?: number; verificationTag?: number }): this;
  /** Takes the last chunk back, with what was added to it. Throws BAD_PLACE where there is none. */
  removeLast(): this;
  /** A copy of the last chunk; null where there is none. Its `bytes` are all that is sent of one without a packet around it. */
  lastChunk(): UncheckedChunk | null;
  /** The packet, with its CRC32c, or with zero as its checksum where `checksum` is false. More can be added afterwards. */
  finish(options?: { checksum?: boolean }): Uint8Array;
}

// ---- what is asked of whoever receives a packet
//
// Of the bytes only the common header, the types of the chunks and the T bit are looked at, up to the first chunk whose length is
// impossible; without a common header they are discarded. Check them first.

/** Returns what is done with a chunk whose type your association doesn't know, by its two highest-order bits (section 3.2). */
export function unrecognizedChunk(type: number): Action;
/** The same of a parameter (section 3.2.1). */
export function unrecognizedParameter(type: number): Action;
/** Returns whether the chunk or the parameter is reported. */
export function actionReports(action: Action): boolean;
/** Returns whether the next one is processed. */
export function actionSkips(action: Action): boolean;

/** What is known of an association before the tag of a packet is looked at. */
export interface Association {
  /** The initiate tag that you sent, and the one that the peer sent. */
  ownTag: number;
  peerTag: number;
  /** Whether the peer has sent one. */
  hasPeerTag: boolean;
  /** Whether you are in the state COOKIE-WAIT or COOKIE-ECHOED. */
  awaitsCookie: boolean;
}
/** Returns what is done with a packet, by its verification tag (sections 8.5 and 8.5.1). */
export function verifyTag(bytes: Uint8Array, association: Association): TagVerdict;

/** Returns what is done with a packet that belongs to no association (section 8.4). `isUnicast` says whether it is to and from unicast
    addresses. Ask only of a packet that `check` accepts: other bytes may be answered too. */
export function outOfTheBlue(bytes: Uint8Array, isUnicast: boolean): Answer;
/** Returns what is sent back to the sender of a packet with this header: the tag reflected, with the T bit. Seal it. Throws a
    WriteError of BAD_VALUE for another answer than SHUTDOWN_COMPLETE and ABORT. */
export function reply(header: Header, answer: Answer): Uint8Array;

/** Returns the fault of an INIT (section 3.3.2), or of an INIT ACK (section 3.3.3) where `isAck` is true. Of the parameters State
    Cookie and Host Name Address alone are looked for. */
export function initFault(bytes: Uint8Array, isAck: boolean): InitFault;
/** Returns what is done with a packet whose INIT or INIT ACK has this fault (sections 3.3.2, 3.3.3, 5.1 and 8.5.1); of an INIT ACK by
    whether you are in the state COOKIE-WAIT. */
export function initRefusal(fault: InitFault, isAck: boolean, inCookieWait: boolean): Refusal;
/** Returns the packet with the ABORT that says a fault to the sender of an INIT or INIT ACK with this initiate tag in a packet with
    this header. Its cause is Missing Mandatory Parameter or Invalid Mandatory Parameter; it has none for NOT_ALONE and TOO_SHORT, which
    no ABORT answers. Its tag is the initiate tag; where that is 0, the packet's own, with the T bit. Seal it. Throws a WriteError of
    BAD_VALUE for NO_FAULT. */
export function initAbort(header: Header, initiateTag: number, fault: InitFault): Uint8Array;
/** Returns whether an INIT adds addresses to an association that is there already (section 5.2.2): an ABORT under its initiate tag
    answers it, with `addNewAddresses`, and the association stays as it is. `known` are the association's addresses, as parameters: the
    `bytes` of each IPv4 Address and IPv6 Address, one after the other. The address that the packet came from isn't in the INIT: look
    at it yourself. Each of the INIT's addresses is compared with each known one, both of which may be the peer's: bound how many
    you keep. */
export function addsAddresses(init: UncheckedChunk, known: Uint8Array): boolean;

/** Returns the name of a rule, as sctp_dump writes it: words with hyphens; "unknown" for a number that is no rule's. */
export function ruleName(rule: number): string;
/** Returns what breaks a rule, in a few words; "unknown" for a number that is no rule's. */
export function ruleText(rule: number): string;
/** What is known of the association that a packet belongs to; what is left out is false. */
export interface Known {
  /** Whether the end that it goes to sent INIT or INIT ACK without Zero Checksum Acceptable (RFC 9653 section 4). */
  refusesZero?: boolean;
  /** Whether an end sent DATA. */
  hasData?: boolean;
  /** Whether an end sent I-DATA. */
  hasIData?: boolean;
}
/** Returns the rules that a packet breaks, in the order of their numbers. Its common header and its chunks are looked at, up to the
    first chunk whose length is impossible: a field that isn't there breaks no rule. Its CRC32c is computed here. */
export function brokenRules(bytes: Uint8Array, known?: Known): Rule[];

// ---- what is authenticated, under keys of yours
//
// Chunks after AUTH (RFC 4895) and State Cookies (section 5.1.3), by HMACs with SHA-1 or SHA-256. A key has any length. Two HMACs are
// compared to their end, wherever they differ; nothing is proved of the time that this takes.

/** Returns whether a chunk of a type has to come after AUTH: `chunkList` is the value of the receiver's Chunk List, in which INIT, INIT
    ACK, SHUTDOWN COMPLETE and AUTH are ignored (RFC 4895 section 3.2). */
export function isListed(chunkList: Uint8Array, type: number): boolean;
/** Returns an association shared key (RFC 4895 section 6.1): the endpoint pair shared key, which may be empty, and then the key vectors
    of both ends in the order that the section gives, whichever is passed first. A key vector is the parameters Random, Chunk List and
    Requested HMAC Algorithm that an end sent, in this order: the `bytes` of each. */
export function sharedKey(pairKey: Uint8Array, one: Uint8Array, other: Uint8Array): Uint8Array;
/** Returns whether the HMAC of an AUTH chunk is right under an association shared key (RFC 4895 section 6.3). The bytes are those of the
    packet from the AUTH chunk on, up to its end. False also where no AUTH is there, its HMAC identifier is another than 1 and 3, or its
    HMAC is not as long as that of SHA-1 or SHA-256. */
export function verifyAuth(key: Uint8Array, bytes: Uint8Array): boolean;
/** Writes the HMAC into an AUTH chunk, whose field has to be as long (RFC 4895 section 6.2), and returns the bytes: those of the packet
    from the AUTH chunk on, which is sealed after this. Throws a WriteError of BAD_VALUE, and changes nothing, where `verifyAuth` would
    return false whatever the HMAC is. */
export function signAuth(key: Uint8Array, bytes: Uint8Array): Uint8Array;

/** What a State Cookie says: what its sender needs to set up the association, and for how long (section 5.1.3). Local is the end that
    seals and opens it. */
export interface Cookie {
  /** In microseconds, on your clock. */
  created: bigint;
  /** In microseconds. */
  lifespan: bigint;
  /** The initiate tags of the INIT ACK and of the INIT. */
  localTag: number;
  peerTag: number;
  /** The Local Tie-Tag and the Peer's (section 5.2.2): 0 where the INIT came without an association. */
  localTieTag: number;
  peerTieTag: number;
  /** The initial TSNs of the INIT ACK and of the INIT. */
  localInitialTsn: number;
  peerInitialTsn: number;
  localPort: number;
  peerPort: number;
  /** On which the local end sends. */
  outboundStreams: number;
  inboundStreams: number;
  /** Further bytes of yours, of any length: the peer's addresses, the parameters of its INIT, AUTH's key vectors. */
  extra: Uint8Array;
}
/** Returns a State Cookie, with an HMAC under a key that nobody else knows. */
export function sealCookie(key: Uint8Array,
  cookie: Needed<Cookie, Exclude<keyof Cookie, 'localTieTag' | 'peerTieTag' | 'extra'>>): Uint8Array;
/** Opens a State Cookie at a time in microseconds, on the clock by which it was sealed. It is good from before it was created, on a clock
    that was set back, to the end of its life. Its further bytes are a view of these. Of one that is stale `staleness` says for how many
    microseconds it hasn't been good: the cause Stale Cookie has the lower 32 bits (section 3.3.10.3). */
export function openCookie(key: Uint8Array, bytes: Uint8Array, now: bigint):
  | { state: Of<typeof CookieState, 'GOOD'>; cookie: Cookie; staleness?: undefined }
  | { state: Of<typeof CookieState, 'STALE'>; cookie: Cookie; staleness: bigint }
  | { state: Of<typeof CookieState, 'INVALID'>; cookie?: undefined; staleness?: undefined };

// ---- the blocks of a SACK that is to be sent

/** The fewest blocks that cover the same offsets, in order (section 3.3.4); a block that ends before its start has none. */
export function cleanBlocks(blocks: Iterable<GapAckBlock>): GapAckBlock[];

// What is not exported above is no part of the interface.
export {};
