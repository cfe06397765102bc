// SPDX-License-Identifier: Apache-2.0
// Runs the program sctp_dump, which is proved, as WebAssembly. These few functions are all that it takes from a system.

export { run };

const NO_FILE = 2, FAILED = 5, BAD_FILE = 9, IS_PIPE = 29; // as Linux numbers errors
const NAMES = { [NO_FILE]: 'No such file or directory', [FAILED]: 'Input/output error' };

/** @typedef {{ memory: WebAssembly.Memory, malloc(size: bigint): bigint, rattle_main(): number }} Exports */

/** Runs the program to its end, and returns its status. `words` are its arguments; `open(name)` returns an input, or
    undefined if there is none of that name; `open('-')` is standard input. An input's `read(size)` returns at most so many
    bytes, and none at its end. `print` and `report` take the bytes of standard output and standard error, which hold until
    they return. */
function run(module, { words, open, print, report }) {
  const encoded = ['sctp_dump', ...words].map(it => new TextEncoder().encode(it));
  const inputs = [open('-'), undefined, undefined];
  let errno = 0, features = 0n;

  const bytesAt = (at, size) => new Uint8Array(memory.buffer, Number(at), Number(size));
  const failed = (error, result) => {
    errno = error;
    return result;
  };
  const write = (file, at, size) => {
    const bytes = bytesAt(at, size);
    if (file !== 1 && file !== 2)
      return failed(BAD_FILE, -1n);
    (file === 1 ? print : report)(bytes);
    return size;
  };
  const env = {
    /** @param {number} room */
    rattle_arg(index, at, room) {
      const word = encoded[Number(index)];
      if (!word)
        return -1n;
      const kept = word.subarray(0, Number(room));
      bytesAt(at, kept.length).set(kept);
      return kept.length < word.length ? -2n : BigInt(word.length);
    },
    rattle_errno: () => errno,
    rattle_set_errno(error) {
      errno = error;
    },
    rattle_open(at) {
      const rest = new Uint8Array(memory.buffer, Number(at));
      const input = open(new TextDecoder().decode(rest.slice(0, rest.indexOf(0))));
      return input ? inputs.push(input) - 1 : failed(NO_FILE, -1);
    },
    rattle_read(file, at, size) {
      if (!inputs[file])
        return failed(BAD_FILE, -1n);
      try {
        const bytes = inputs[file].read(Number(size));
        bytesAt(at, bytes.length).set(bytes);
        return BigInt(bytes.length);
      } catch {
        return failed(FAILED, -1n);
      }
    },
    rattle_close(file) {
      inputs[file] = undefined;
      return 0;
    },
    rattle_unlink: () => failed(NO_FILE, -1),
    /** @param {number} error */
    rattle_strerror_r(error, at, room) {
      const name = new TextEncoder().encode(`${NAMES[error] ?? 'Error'}\0`);
      bytesAt(at, room).set(name.subarray(0, Number(room)));
      return 0;
    },
    rattle_write: write,
    rattle_lseek: () => failed(IS_PIPE, -1n),
    rattle_isatty: () => 0,
    rattle_signal: () => 0n,
    // The program asks whether an x86-64 has what it was compiled for: it wasn't here, so all is there.
    rattle_cpuid: () => features,
  };
  const exports = /** @type {Exports} */ (/** @type {unknown} */ (new WebAssembly.Instance(module, { env }).exports));
  const memory = exports.memory;
  features = exports.malloc(64n);
  bytesAt(features, 64).fill(255);
  return exports.rattle_main();
}
