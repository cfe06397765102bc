// SPDX-License-Identifier: Apache-2.0
// Opens captures: files, texts and links; has the Worker read them, and takes what it posts.
import { howTo, sentencesOf } from './answer.mjs';
import { packetsIn } from './copies.mjs';
import { namedApart } from './files.mjs';
import { skippedText, WORDS } from './keys.mjs';
import { example, program, startWorker } from './parts.mjs';
import { durationText } from './scale.mjs';
import { change, NOTHING, state, watch } from './state.mjs';
import { Store } from './store.mjs';
import { byId, counted, shown, targetOf } from './text.mjs';

export { openLink };

/** The page's own title. */
const TITLE = document.title;

/** Reads files as one capture, in place of what is shown.
    @param {File[]} files */
async function open(files) {
  if (!checkPort()) {
    change({ isOffered: true, problem: '' });
    byId('udp').focus();
    return;
  }
  const module = await program(), started = performance.now(), worker = startWorker();
  state.worker?.terminate();
  change({
    isOffered: false, problem: '', worker, seconds: undefined, store: new Store(), name: shown(files.map(it => it.name).join(', '), 100),
    size: files.reduce((sum, it) => sum + it.size, 0), view: 'packets', filterText: '', saved: '', row: undefined, association: undefined,
    channel: undefined, message: undefined, shown: NOTHING,
  });
  const isCurrent = () => worker === state.worker;
  /** @type {(result: Result) => void} */
  const end = result => {
    if (isCurrent())
      finish(result, (performance.now() - started) / 1000);
  };
  worker.onmessage = (/** @type {MessageEvent<Batch | Unpacked | Result>} */ { data }) => {
    if (!isCurrent())
      return;
    if ('columns' in data) {
      state.store.add(data);
      change();
    } else if ('size' in data) {
      change({ size: data.size });
    } else {
      end(data);
    }
  };
  worker.onerror = event => end({ errors: event.message ?? 'RuntimeError: the Worker', signs: [] });
  const strict = byId('strict').checked ? ['--strict'] : [], udp = byId('udp').value ? ['--udp-port', byId('udp').value] : [];
  worker.postMessage({ program: module, words: [...WORDS, ...strict, ...udp], files: namedApart(files) });
  byId('list').focus();
}

/** The program is at its end, with a result, or was stopped.
    @param {Result} [result]
    @param {number} [seconds] */
function finish(result, seconds) {
  const { worker, store, view } = state;
  worker?.terminate();
  store.finish(result, result === undefined);
  change({ worker: undefined, seconds, association: store.associations[0], channel: store.channels[0],
    message: store.messages[0], view: store.packets ? view : 'packets' });
  if (!store.packets)
    byId('answer').focus();
  document.body.dataset.done = String(performance.now());
}

watch(({ isOffered, problem, name, size, worker, seconds, store }) => {
  byId('name').textContent = name;
  document.title = name || TITLE;
  byId('again').hidden = !worker && !store.isAtEnd;
  byId('again').textContent = isOffered ? 'Back' : 'Open another';
  for (const id of ['no-text', 'no-link'])
    byId(id).hidden = id !== problem;
  byId('stop').hidden = byId('progress').hidden = !worker;
  byId('progress').max = size || 1;
  byId('progress').value = store.read;
  // (what is rewritten while the capture is read would be read out each time)
  const live = worker ? 'off' : 'polite';
  if (byId('status').ariaLive !== live)
    byId('status').ariaLive = byId('found').ariaLive = live;
  const sentences = store.isAtEnd && store.packets ? sentencesOf(store).join(' ').replaceAll('`', '') : '';
  const span = Number(store.span) > 0 ? ` over ${durationText(Number(store.span))}` : '';
  const time = seconds === undefined ? ': stopped' : `, read in ${seconds.toFixed(1)} s`;
  const said = worker ? `${counted(store.count, 'row')} …` : !store.isAtEnd ? ''
    : sentences || counted(store.packets, 'packet') + span + time + skippedText(store.summary);
  // (nor is what stays said again)
  if (byId('status').textContent !== said)
    byId('status').textContent = said;
  byId('status').className = sentences ? 'bad' : '';
});

/** Whether the port of SCTP in UDP is one, or none was given; the field says it. */
function checkPort() {
  const isRight = byId('udp').checkValidity();
  byId('udp').setAttribute('aria-invalid', !isRight);
  byId('no-port').hidden = isRight;
  byId('options').open ||= !isRight;
  return isRight;
}

// ---- what is opened

byId('file').addEventListener('change', () => {
  const files = [...byId('file').files ?? []];
  // (so that the same one can be chosen again)
  byId('file').value = '';
  openData(files);
});
byId('read').addEventListener('click', () => {
  const text = byId('text').value;
  openData([], text, 'typed text');
  if (!text.trim()) {
    change({ problem: 'no-text' });
    byId('text').focus();
  }
});
byId('udp').addEventListener('input', checkPort);
byId('how').append(howTo());
byId('example').addEventListener('click', () => location.hash === '#example' && openLink());
byId('stop').addEventListener('click', () => finish());
byId('again').addEventListener('click', () => change({ isOffered: !state.isOffered, problem: '' }));

/** Opens files, or else a text.
    @param {Iterable<File>} files */
function openData(files, text = '', name = '') {
  const chosen = [...files], given = chosen.length || !text.trim() ? chosen : [new File([text], name)];
  if (!given.length)
    return;
  // (the page's address says no other packets)
  history.replaceState(null, '', location.href.split('#')[0]);
  open(given);
}

/** Opens the packets that are in the page's address, or the example if it says so. */
async function openLink() {
  const text = packetsIn(location.hash);
  if (location.hash === '#example')
    open([new File([await example()], 'example.pcap')]);
  else if (text)
    open([new File([text], text.includes('\n') ? 'packets of the link' : 'packet of the link')]);
  else if (text === '')
    change({ isOffered: true, problem: 'no-link' });
}
addEventListener('hashchange', openLink);

document.addEventListener('paste', event => {
  if (event.clipboardData && !targetOf(event).matches('input, textarea'))
    openData(event.clipboardData.files, event.clipboardData.getData('text'), 'pasted text');
});
document.addEventListener('dragover', event => {
  event.preventDefault();
  document.body.classList.add('over-drop');
});
document.addEventListener('dragleave', event => {
  if (!event.relatedTarget)
    document.body.classList.remove('over-drop');
});
document.addEventListener('drop', event => {
  event.preventDefault();
  document.body.classList.remove('over-drop');
  if (event.dataTransfer)
    openData(event.dataTransfer.files, event.dataTransfer.getData('text'), 'dropped text');
});
