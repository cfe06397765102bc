// SPDX-License-Identifier: Apache-2.0
// What the page is made of beside its scripts: page/make.py puts it into the page; else it is fetched from the repository.

export { example, program, startWorker };

/** The bytes of a part of the page, or of a file.
    @param {string} id
    @param {string} path */
async function bytesOf(id, path) {
  const part = document.getElementById(id);
  return part ? Uint8Array.from(atob(part.textContent ?? ''), it => it.charCodeAt(0)) : (await fetch(path)).arrayBuffer();
}

const example = () => bytesOf('sample', 'sample.pcap');

/** @type {Promise<WebAssembly.Module> | undefined} */
let compiled;

/** The program, compiled once. */
const program = () => compiled ??= bytesOf('program', '../dist/sctp_dump.wasm').then(it => WebAssembly.compile(it));

/** @type {string | undefined} */
let script;

/** Starts a Worker. */
function startWorker() {
  const part = document.getElementById('worker-script');
  const url = part ? URL.createObjectURL(new Blob([part.textContent ?? ''], { type: 'text/javascript' })) : 'src/worker.mjs';
  // (where a browser asks that addresses of scripts are trusted, this one is, and no other)
  script ??= window.trustedTypes?.createPolicy('worker', { createScriptURL: () => url }).createScriptURL('') ?? url;
  // (of a page on a disk Chromium takes no module from a Blob)
  return new Worker(script, { type: part ? 'classic' : 'module' });
}
