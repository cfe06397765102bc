// SPDX-License-Identifier: Apache-2.0
// The library as WebAssembly: its one instance, and what lies in its memory. It is no part of the package's interface.
'use strict';

const version = '0.1.0';

let compiled, wasm, held, heldBytes;
// How many instances there were before this one, each of them left by an exception.
let left = 0;

const isLoaded = () => compiled !== undefined;

/** Takes dcsctp.wasm, once. */
function load(module, instance = new WebAssembly.Instance(module)) {
  if (isLoaded())
    return;
  const [major, minor, patch] = version.split('.').map(Number);
  if (instance.exports.dcsctp_version_number?.() !== major * 65536 + minor * 256 + patch)
    throw new Error(`this isn't the dcsctp.wasm of version ${version}`);
  compiled = module;
  wasm = instance.exports;
  hold();
}

/** Has views of the memory as it is now. */
function hold() {
  held = new DataView(wasm.memory.buffer);
  heldBytes = new Uint8Array(wasm.memory.buffer);
}

/** An exception, as of a stack that is full, leaves the memory as it is: so a new instance comes. */
function leave(error) {
  if (!isLoaded())
    throw new Error('init(wasm) comes first, and is awaited');
  // (what can fail where a stack is full comes first)
  const { exports } = new WebAssembly.Instance(compiled), { buffer } = exports.memory;
  const view = new DataView(buffer), bytes = new Uint8Array(buffer);
  wasm = exports;
  held = view;
  heldBytes = bytes;
  left++;
  throw error;
}

/** Calls a function. */
function call(name, ...words) {
  try {
    return wasm[name](...words);
  } catch (error) {
    return leave(error);
  }
}

/** Calls the function that packets are read by, with their word, which is computed if it isn't given. (By its own name a function takes
    a fifth of the time.) */
function firstFaultOf(bytes, length, word, policy, offset) {
  try {
    return wasm.dcsctp_first_fault(bytes, length, word ?? wasm.dcsctp_word(bytes, length), policy, offset);
  } catch (error) {
    return leave(error);
  }
}

/** The memory as it is now. A call can make it grow: that leaves an older view no bytes. (To ask the memory takes longer.) */
function view() {
  if (heldBytes.length === 0)
    hold();
  return held;
}

/** The memory as bytes, likewise. */
function memory() {
  if (heldBytes.length === 0)
    hold();
  return heldBytes;
}

// (most sizes are small, and to make one takes time)
const SIZES = Array.from({ length: 4096 }, (_, i) => BigInt(i));

/** A size as the functions take it. */
const big = size => (size < 4096 ? SIZES[size] : BigInt(size));

/** A block of the memory, with room for what lies in it. Its place changes where it has to grow. */
class Block {
  #at = 0n;
  #from = 0;
  #room = 0;
  #instance = -1;

  /** Has room for so many bytes from now on; returns whether it has. What was in it is lost where it had less. */
  reserve(size) {
    const isHeld = this.#instance === left, old = this.#at;
    if (isHeld && size <= this.#room)
      return true;
    // (in this order, as a stack can be full at each call)
    this.#instance = -1;
    this.#room = 0;
    if (isHeld)
      call('free', old);
    let room = 4096;
    while (room < size + 16)
      room *= 2;
    this.#at = call('malloc', BigInt(room - 16));
    this.#from = Number(this.#at);
    if (this.#from === 0)
      return false;
    this.#room = room - 16;
    this.#instance = left;
    return true;
  }

  /** Whether what was put into it is there. */
  get isHeld() {
    return this.#instance === left;
  }

  /** Where it begins, as the functions take it. */
  get at() {
    return this.#at;
  }

  /** The same as a number. */
  get from() {
    return this.#from;
  }

  get room() {
    return this.#room;
  }

  put(bytes) {
    memory().set(bytes, this.#from);
  }

  /** Its bytes between two places, where they lie. */
  bytes(from, to) {
    return new Uint8Array(view().buffer, this.#from + from, to - from);
  }
}

// ---- structs, as C lays them out

const MOST = { u8: 0xff, u16: 0xffff, u32: 0xffffffff };

function refuse(value, name, wanted) {
  let said = Object(value) === value ? Object.prototype.toString.call(value) : String(value);
  if (typeof value === 'string')
    said = JSON.stringify(value.slice(0, 40)) + (value.length > 40 ? '..' : '');
  if (typeof value === 'bigint')
    said += 'n';
  throw new TypeError(`${name} is ${said}, and not ${wanted}`);
}

/** Refuses what isn't a number of a type. */
function number(value, type, name) {
  if (typeof value !== 'number')
    refuse(value, name, 'a number');
  const most = MOST[type] ?? Number.MAX_SAFE_INTEGER;
  if (!Number.isInteger(value) || value < 0 || value > most)
    throw new RangeError(`${name} is ${String(value)}, and not an integer from 0 to ${most}`);
  return value;
}

// (to ask for these alone takes less time)
const u16 = (value, name) => (typeof value === 'number' && (value & 0xffff) === value ? value : number(value, 'u16', name));
const u32 = (value, name) => (typeof value === 'number' && value >>> 0 === value ? value : number(value, 'u32', name));

/** Refuses what isn't a number of 64 bits, which is a bigint. */
function bigNumber(value, name) {
  if (typeof value !== 'bigint')
    refuse(value, name, 'a bigint');
  if (BigInt.asUintN(64, value) !== value)
    throw new RangeError(`${name} is ${value}n, and not an integer from 0 to 2^64 - 1`);
  return value;
}

function truth(value, name) {
  if (typeof value !== 'boolean')
    refuse(value, name, 'true or false');
  return value;
}

function record(value, name) {
  if (typeof value !== 'object' || value === null)
    refuse(value, name, 'an object');
  return value;
}

/** Refuses what can't be gone through, and text. */
function isList(value, name) {
  if (typeof value === 'string' || typeof value?.[Symbol.iterator] !== 'function')
    refuse(value, name, 'a list');
  return value;
}

/** Refuses what is no Uint8Array, be it that of another window or context. */
function isBytes(value, name) {
  if (!ArrayBuffer.isView(value) || value[Symbol.toStringTag] !== 'Uint8Array')
    refuse(value, name, 'a Uint8Array');
  return value;
}

/** Of the types of fields the size, and what checks, reads and writes one. */
const TYPES = {
  bool: [1, truth, (v, at) => v.getUint8(at) !== 0, (v, at, it) => v.setUint8(at, it ? 1 : 0)],
  u8: [1, (it, name) => number(it, 'u8', name), (v, at) => v.getUint8(at), (v, at, it) => v.setUint8(at, it)],
  u16: [2, u16, (v, at) => v.getUint16(at, true), (v, at, it) => v.setUint16(at, it, true)],
  u32: [4, u32, (v, at) => v.getUint32(at, true), (v, at, it) => v.setUint32(at, it, true)],
  u64: [8, bigNumber, (v, at) => v.getBigUint64(at, true), (v, at, it) => v.setBigUint64(at, it, true)],
  // (the memory's addresses have 32 bits)
  size: [8, (it, name) => number(it, 'size', name), (v, at) => v.getUint32(at, true), (v, at, it) => v.setBigUint64(at, big(it), true)],
};

/** A struct of these fields: an object in JavaScript. Its fields are read and written at an address. */
class Struct {
  constructor(types) {
    this.size = 0;
    let most = 1;
    this.fields = Object.entries(types).map(([name, type]) => {
      const [size, check, get, set] = TYPES[type], at = Math.ceil(this.size / size) * size;
      this.size = at + size;
      most = Math.max(most, size);
      return { name, at, check, get, set };
    });
    this.size = Math.ceil(this.size / most) * most;
  }

  read(at) {
    const memory = view();
    return Object.fromEntries(this.fields.map(it => [it.name, it.get(memory, at + it.at)]));
  }

  /** The values of the fields, each of its type. Reading an object can run code of its own, so this comes first. */
  values(object, name) {
    record(object, name);
    return this.fields.map(it => it.check(object[it.name], it.name));
  }

  write(at, values) {
    const memory = view();
    this.fields.forEach((it, i) => it.set(memory, at + it.at, values[i]));
  }
}

// ---- lists of numbers

/** More numbers than a chunk has room for: here a list of the caller's is left, which may have no end. */
const TOO_MANY = 32_768;

/** The items of a list, each of which a function takes, and no more than this. */
function numbersOf(items, name, check, most = TOO_MANY) {
  const what = `an item of ${name}`, all = [];
  for (const it of isList(items, name)) {
    if (all.push(check(it, what)) === most)
      break;
  }
  return all;
}

/** How many of the items of a list that was given may be used again. */
const keptOf = (list, length) => (Array.isArray(list) ? Math.min(list.length, length) : 0);

/** A list of the caller's, which is as long as this from now on; or else a new one. */
function keptList(list, length, filler) {
  if (!Array.isArray(list))
    return new Array(length);
  // (to set the length takes as long as to add or take away some items)
  if (Math.abs(list.length - length) > 8)
    list.length = length;
  while (list.length > length)
    list.pop();
  while (list.length < length)
    list.push(filler);
  return list;
}

/** Reads so many numbers at a place, into a list that was given, or a new one. */
function u32sIn(view, at, count, given) {
  const all = keptList(given, count, 0);
  for (let i = 0; i < count; i++, at += 4)
    all[i] = view.getUint32(at);
  return all;
}

function u16sIn(view, at, count) {
  const all = new Array(count);
  for (let i = 0; i < count; i++, at += 2)
    all[i] = view.getUint16(at);
  return all;
}

const writeU16s = (view, at, all) => all.forEach((it, i) => view.setUint16(at + 2 * i, it));
const writeU32s = (view, at, all) => all.forEach((it, i) => view.setUint32(at + 4 * i, it));

// davgyuti.mjs says who takes it from where.
const library = {
  version, isLoaded, load, call, firstFaultOf, view, big, refuse, number, u16, u32, bigNumber, truth, record, isList, isBytes, Block, Struct,
  TOO_MANY, numbersOf, keptOf, keptList, u16sIn, u32sIn, writeU16s, writeU32s,
};
if (this)
  module.exports = library;
else
  globalThis[Symbol.for('davgyuti')] = library;
