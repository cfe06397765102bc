// SPDX-License-Identifier: Apache-2.0
// The package for `require` of node.
'use strict';

const { readFileSync } = require('node:fs');
const { load } = require('./library.js');

load(new WebAssembly.Module(readFileSync(`${__dirname}/dcsctp.wasm`)));
module.exports = require('./davgyuti.js');
