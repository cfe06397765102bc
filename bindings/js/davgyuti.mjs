// SPDX-License-Identifier: Apache-2.0
// The package for `import`: of node by node.mjs, and else without dcsctp.wasm, which `init` takes. Its code is davgyuti.js, kinds.js and
// library.js: CommonJS modules for node and bundlers. A browser takes them for modules that export nothing: what they have is in globalThis.
import './library.js';
import './kinds.js';
import * as commonJs from './davgyuti.js';

export const {
  init, version, versionNumber, Result, FIRST_CHUNK, ChunkType, TAG_REFLECTED, ParameterType, CauseCode, ReConfigResult, resultText,
  chunkName, parameterName, causeName, isKnownChunk, isKnownParameter, isKnownCause, Fault, WriteError, check, firstFault, canonical, text, report,
  word, needsChecksum, header, chunks, read, readSack, readChunk, dataFlags, withFlags, parameters, parameter, causes, cause,
  registeredChunk, registeredParameter, registeredCause, addresses, seal, setTag, Builder, cleanBlocks, Action, unrecognizedChunk,
  unrecognizedParameter, actionReports, actionSkips, TagVerdict, verifyTag, Answer, outOfTheBlue, reply, InitFault, initFault, Refusal,
  initRefusal, initAbort, addsAddresses, Rule, ruleName, ruleText, brokenRules, isListed, sharedKey, verifyAuth, signAuth, sealCookie,
  CookieState, openCookie,
} = commonJs.default ?? globalThis[Symbol.for('davgyuti')];
