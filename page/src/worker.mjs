// SPDX-License-Identifier: Apache-2.0
// The Worker: runs the program over the inputs, and posts what it prints, in batches: a Blob of whole lines, packed, and a row
// for each. A Worker that is stopped loses nothing that it posted.
import { Fates, isMessage } from './fates.mjs';
import { COLUMNS, parsed, Rows } from './keys.mjs';
import { compressed, packInto } from './packed.mjs';
import { run } from './program.mjs';
import { formOf, HEAD, signsOf } from './signs.mjs';

/** This many bytes of packed lines are a batch; one that is waited for is smaller. */
const BATCH = 1 << 20;
/** So many bytes of a file are read at once: each time, the browser's other process is waited for. */
const PIECE = 4 << 20;

const decoder = new TextDecoder();

/** Reads a file piece by piece. */
class FileInput {
  /** @param {Blob} file */
  constructor(file) {
    this.file = file;
    this.at = 0;
    this.held = new Uint8Array();
    this.reader = new FileReaderSync();
  }

  /** @param {number} size */
  read(size) {
    if (!this.held.length) {
      this.held = new Uint8Array(this.reader.readAsArrayBuffer(this.file.slice(this.at, this.at + Math.max(size, PIECE))));
      this.at += this.held.length;
    }
    const bytes = this.held.subarray(0, size);
    this.held = this.held.subarray(size);
    return bytes;
  }
}

/** These bytes, with room for so many.
    @param {Uint8Array} bytes
    @param {number} size */
function withRoom(bytes, size) {
  if (size <= bytes.length)
    return bytes;
  const room = new Uint8Array(2 * size);
  room.set(bytes);
  return room;
}

/** Collects what the program prints. */
class Output {
  /** What isn't a whole line yet, and its size. */
  bytes = new Uint8Array();
  size = 0;
  /** The lines of a batch, and their size. */
  packed = new Uint8Array();
  done = 0;
  /** A number for each row, by the columns.
      @type {Record<string, number[]>} */
  columns = {};
  /** @type {unknown[]} */
  objects = [];
  /** @type {string[]} */
  texts = [];
  rows = new Rows();
  fates = new Fates();
  batch = 0;
  read = 0;
  last = performance.now();

  constructor() {
    this.clear();
  }

  clear() {
    this.columns = Object.fromEntries(Object.keys(COLUMNS).map(name => [name, []]));
    this.texts = [];
    this.objects = [];
    this.done = 0;
  }

  /** @param {Uint8Array} bytes */
  write(bytes) {
    const from = this.size;
    this.size += bytes.length;
    this.bytes = withRoom(this.bytes, this.size);
    this.bytes.set(bytes, from);
    this.takeLines(from);
    if (this.done > BATCH || performance.now() - this.last > 200)
      this.post();
  }

  /** @param {number} from */
  takeLines(from) {
    const bytes = this.bytes.subarray(0, this.size);
    let at = 0;
    for (let end = bytes.indexOf(10, from); end >= 0; end = bytes.indexOf(10, at)) {
      this.takeLine(bytes.subarray(at, end));
      at = end + 1;
    }
    if (at) {
      bytes.copyWithin(0, at);
      this.size -= at;
    }
  }

  /** @param {Uint8Array} line */
  takeLine(line) {
    this.packed = withRoom(this.packed, this.done + line.length + 1);
    const from = this.done, [textEnd, end] = packInto(line, this.packed, from);
    let object;
    try {
      object = parsed(decoder.decode(this.packed.subarray(from, textEnd)));
    } catch {
      return;
    }
    const row = this.rows.row(object);
    if (!row) {
      if (isMessage(object))
        this.fates.add(object);
      else if (object)
        this.objects.push(object);
      return;
    }
    [row.batch, row.offset, row.size] = [this.batch, from, end - from];
    this.done = end;
    for (const name in this.columns)
      this.columns[name].push(row[name] ?? 0);
    this.texts.push(row.text ?? '');
  }

  /** Posts the lines of a batch. */
  post() {
    this.last = performance.now();
    /** @type {Columns} */
    const columns = /** @type {any} */ (Object.fromEntries(Object.entries(COLUMNS).map(([name, type]) => [name, type.from(this.columns[name])])));
    const { flows, summaries, notes } = this.rows, { fates } = this;
    postMessage({
      lines: new Blob([compressed(this.packed.subarray(0, this.done))]), columns, objects: this.objects, read: this.read,
      flows: flows.take(), summaries: summaries.take(), notes: notes.take(),
      texts: this.texts, messages: fates.take(), fates: fates.counts,
    }, Object.values(columns).map(it => it.buffer));
    this.batch++;
    this.clear();
  }
}

/** The inputs by their names, which are the program's last arguments. */
function inputsOf(files, output) {
  const counted = input => ({
    /** @param {number} size */
    read(size) {
      const bytes = input.read(size);
      output.read += bytes.length;
      return bytes;
    },
  });
  return new Map(files.map(([name, file]) => [name, counted(new FileInput(file))]));
}

/** The first bytes of a file, or none if it can't be read.
    @param {Blob} file
    @param {number} size */
function headOf(file, size) {
  try {
    return new FileInput(file).read(size);
  } catch {
    return;
  }
}

/** Whether a file has lines that sctp_dump printed elsewhere.
    @param {Blob} file */
const hasLines = file => headOf(file, 1)?.[0] === 0x7b;

/** @param {Blob} file */
const isCompressed = file => formOf(headOf(file, 6) ?? new Uint8Array()) === 'gzip';

/** What gzip compressed, up to where it is damaged, and what to say of that. Memory holds a piece of it; the rest is in Blobs.
    @param {Blob} file */
async function unpacked(file) {
  const reader = file.stream().pipeThrough(new DecompressionStream('gzip')).getReader(), parts = [];
  let held = [], size = 0, errors = '';
  const keep = () => {
    parts.push(new Blob(held));
    [held, size] = [[], 0];
  };
  try {
    for (let it = await reader.read(); !it.done; it = await reader.read()) {
      held.push(it.value);
      size += it.value.length;
      if (size > BATCH)
        keep();
    }
  } catch (error) {
    errors = `gzip: ${error}\n`;
  }
  keep();
  return [new Blob(parts), errors];
}

onmessage = async ({ data: { program, words, files } }) => {
  let errors = '';
  for (const entry of files) {
    if (isCompressed(entry[1])) {
      const [whole, wrong] = await unpacked(entry[1]);
      entry[1] = whole;
      errors += wrong;
      postMessage({ size: files.reduce((sum, [, it]) => sum + it.size, 0) });
    }
  }
  const output = new Output(), inputs = inputsOf(files, output);
  try {
    if (files.length === 1 && hasLines(files[0][1])) {
      const [input] = inputs.values();
      for (let bytes = input.read(BATCH); bytes.length; bytes = input.read(BATCH))
        output.write(bytes);
      // (the last line may not end)
      output.write(Uint8Array.of(10));
    } else {
      run(program, {
        words: [...words, ...inputs.keys()],
        open: name => inputs.get(name),
        print: bytes => output.write(bytes),
        /** @param {Uint8Array} bytes */
        report(bytes) {
          errors += decoder.decode(bytes);
        },
      });
    }
  } catch (error) {
    errors += String(error);
  }
  output.post();
  const heads = files.map(([, file]) => headOf(file, HEAD)).filter(it => it);
  postMessage({ errors, signs: [...new Set(heads.flatMap(signsOf))] });
};
