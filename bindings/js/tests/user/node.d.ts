// SPDX-License-Identifier: Apache-2.0
// What the programs of README.md need of node's types.
interface Buffer extends Uint8Array {
  toString(encoding?: 'hex'): string;
}
declare const Buffer: {
  from(text: string, encoding: 'hex' | 'base64'): Buffer;
  from(bytes: Uint8Array): Buffer;
};
declare class TextEncoder {
  encode(text: string): Uint8Array;
}
declare const console: { log(...of: unknown[]): void };
