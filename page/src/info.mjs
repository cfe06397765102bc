// SPDX-License-Identifier: Apache-2.0
// What a row of the list says after the names of a packet's chunks: the fields of its line that tell most. Lines can come from
// elsewhere, so a field that isn't as the program prints it is passed over.
import { isData, isNumber, isObject, isText } from './keys.mjs';
import { counted, hex, shown } from './text.mjs';

export { rangesOf, rangeTexts, messageOf, fragmentOf, controlInfo, infoOf };

const objects = it => Array.isArray(it) ? it.filter(isObject) : [];
const quoted = text => `“${shown(text, 80)}”`;
/** Of a list the first four. */
const some = list => list.slice(0, 4).join(', ') + (list.length > 4 ? ' ..' : '');

/** Ranges of TSNs as text, the first three of them. */
function rangeTexts(ranges) {
  const texts = ranges.slice(0, 3).map(([least, most]) => least === most ? least : `${least}–${most}`);
  return texts.join(', ') + (ranges.length > 3 ? ' ..' : '');
}

/** TSNs as ranges. */
function rangesOf(tsns) {
  const ranges = [];
  for (const it of tsns) {
    const last = ranges.at(-1);
    if (last && it === (last[1] + 1) % 2 ** 32)
      last[1] = it;
    else
      ranges.push([it, it]);
  }
  return ranges;
}

/** The text of a message, or what DCEP says in it (RFC 8832).
    @param {Chunk} chunk */
function messageOf({ text, message_name, label, channel_type_name }) {
  if (isText(text))
    return quoted(text);
  if (!isText(message_name))
    return;
  const parts = [shown(message_name, 40)];
  if (isText(label))
    parts.push(quoted(label));
  if (isText(channel_type_name))
    parts.push(shown(channel_type_name, 40));
  return parts.join(' ');
}

/** @param {Chunk} chunk */
function fragmentOf({ beginning, end }) {
  if (beginning === false)
    return end === false ? 'middle fragment' : 'last fragment';
  return end === false ? 'first fragment' : undefined;
}

/** What all DATA of a packet says, messages first: they are in view where a row is short. */
function dataInfo(data) {
  const each = of => [...new Set(data.map(of))].filter(it => it !== undefined), sizes = data.map(it => it.payload_size).filter(isNumber);
  return [
    ...each(messageOf).slice(0, 3),
    `TSN ${rangeTexts(rangesOf(data.map(it => it.tsn)))}`,
    `stream ${some(each(it => it.stream))}`,
    ...each(({ ppid, ppid_name }) => ppid === undefined ? undefined : ppid_name ? shown(ppid_name, 40) : `ppid ${ppid}`).slice(0, 2),
    ...each(fragmentOf),
    ...each(it => it.unordered === true ? 'unordered' : undefined),
    ...sizes.length ? [counted(sizes.reduce((sum, it) => sum + it, 0), 'byte')] : [],
  ];
}

/** What a parameter of RE-CONFIG asks for or answers (RFC 6525 section 4). */
function resetInfo({ parameter, name, streams, result_name, new_streams }) {
  const list = objects(streams).map(it => it.stream).filter(isNumber), which = list.length ? `stream ${some(list)}` : 'all streams';
  const known = { 13: `resets ${which}`, 14: `asks to reset ${which}`, 16: isText(result_name) ? shown(result_name, 40) : undefined };
  const named = isText(name) ? shown(name, 40) : `parameter ${shown(parameter, 20)}`;
  return known[parameter] ?? (isNumber(new_streams) ? `${named} ${new_streams}` : named);
}

/** What a chunk other than DATA says.
    @param {Chunk} chunk */
function controlInfo(chunk) {
  const parts = [], { chunk: type } = chunk, add = (key, text) => isNumber(chunk[key]) && parts.push(text(chunk[key]));
  const streams = objects(chunk.streams).map(it => it.stream).filter(isNumber), blocks = [...objects(chunk.blocks), ...objects(chunk.nr_blocks)];
  const duplicates = objects(chunk.duplicates).map(it => it.tsn).filter(isNumber);
  const received = blocks.length ? ` and ${rangeTexts(blocks.map(it => [it.first_tsn, it.last_tsn]))}` : '';
  add('initiate_tag', it => `tag ${hex(it, 8)}`);
  add('initial_tsn', it => `initial TSN ${it}`);
  add('outbound_streams', it => `streams ${it} out, ${shown(String(chunk.inbound_streams), 10)} in`);
  add('cumulative_tsn_ack', it => `acknowledges ${it}${received}`);
  if (duplicates.length)
    parts.push(`${duplicates.length > 1 ? 'duplicates' : 'duplicate'} ${some(duplicates)}`);
  add('new_cumulative_tsn', it => `new TSN ${it}`);
  add('sequence_number', it => `sequence number ${it}`);
  if (streams.length)
    parts.push(`skips in stream ${some(streams)}`);
  add('a_rwnd', it => `a_rwnd ${it}`);
  if (type === 130)
    parts.push(...objects(chunk.parameters).map(resetInfo));
  parts.push(...objects(chunk.causes).map(({ cause, name, text }) =>
    [isText(name) ? shown(name, 40) : `cause ${shown(cause, 20)}`, ...isText(text) ? [quoted(text)] : []].join(' ')));
  return parts;
}

/** What a packet's line says of its chunks.
    @param {Line} line */
function infoOf({ chunks = [] }) {
  const data = chunks.filter(isData), others = chunks.filter(it => !isData(it)).slice(0, 20);
  const parts = [...data.length ? dataInfo(data) : [], ...others.flatMap(controlInfo)];
  return parts.slice(0, 12).join(' · ') + (parts.length > 12 ? ' ..' : '');
}
