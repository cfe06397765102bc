// SPDX-License-Identifier: Apache-2.0
// The package for `import` of node.
import { readFileSync } from 'node:fs';
import { pathToFileURL } from 'node:url';
import library from './library.js';

// (bundled into a CommonJS module it has a file name in place of a URL)
const own = import.meta.url ?? pathToFileURL(__filename);
library.load(new WebAssembly.Module(readFileSync(new URL('./dcsctp.wasm', own))));
export * from './davgyuti.mjs';
