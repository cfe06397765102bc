// SPDX-License-Identifier: Apache-2.0
// The types that the modules of this folder have in common. They are for tsc alone, which compares the modules with them.

// ---- lines, as docs/DUMP.md describes them: keys that the page shows as they come have no type

interface Chunk {
  chunk: number;
  name?: string;
  tsn?: number;
  initiate_tag?: number;
  tag_reflected?: boolean;
  stream?: number;
  ppid?: number;
  ppid_name?: string;
  cumulative_tsn_ack?: number;
  new_cumulative_tsn?: number;
  blocks?: { first_tsn: number; last_tsn: number }[];
  nr_blocks?: { first_tsn: number; last_tsn: number }[];
  text?: string;
  label?: string;
  message_name?: string;
  channel_type?: number;
  channel_type_name?: string;
  protocol?: string;
  reliability?: number;
  priority?: number;
  beginning?: boolean;
  end?: boolean;
  [key: string]: unknown;
}

/** The object of a line: a packet's, what was skipped, or the name of a file. A time is the text of its digits. */
interface Line {
  packet?: number;
  record?: number;
  line?: number;
  file?: string;
  skipped?: string;
  time?: string;
  direction?: Direction;
  transport?: string;
  from?: string;
  to?: string;
  source?: number;
  destination?: number;
  tag?: number;
  length?: number;
  captured?: number;
  verdict?: string;
  expected?: number;
  chunks?: Chunk[];
  fault?: { kind: string; offset: number; reason: string; section?: string; sentence?: string };
  warnings?: { rule: string; sentence: string; section: string }[];
  bytes?: string;
  association?: number;
  end?: 0 | 1;
  repeated?: number;
  late?: number;
  missing?: number;
  [key: string]: unknown;
}

type Packet = Line & { packet: number; length: number; chunks: Chunk[] };
type Direction = 'incoming' | 'outgoing';

interface End {
  addresses?: string[];
  more_addresses?: number;
  port?: number;
  tag?: number;
  direction?: Direction;
  packets?: number;
  round_trip?: { median?: number };
  [key: string]: unknown;
}

interface AssociationEvent {
  packet: number;
  chunk?: string;
  file?: string;
}

/** A time without a packet, and the packet after it. */
interface Silence extends AssociationEvent {
  nanos: number;
}

interface Association {
  association: number;
  transport?: string | null;
  ends: [End, End];
  began?: AssociationEvent;
  ended?: AssociationEvent;
  midway?: boolean;
  [key: string]: unknown;
}

/** A data channel, or the messages of a stream with one payload protocol, as the program says what it has; `channel` is its number. */
interface Channel {
  channel: number;
  channel_of: number;
  stream: number;
  others?: boolean;
  label?: string;
  label_bytes?: string;
  protocol?: string;
  protocol_bytes?: string;
  ppid?: number;
  ppid_name?: string;
  channel_type?: number;
  channel_type_name?: string;
  reliability?: number;
  payload?: string[];
  opened_by?: number;
  opened_packet?: number;
  opened_file?: string;
  acknowledged_packet?: number;
  acknowledged_file?: string;
  resets?: { end: 0 | 1; packet: number; file?: string; result?: number; result_name?: string; response_packet?: number; response_file?: string }[];
  ends: ChannelEnd[];
  [key: string]: unknown;
}

interface ChannelEnd {
  side?: string;
  addresses?: string[];
  port?: number;
  messages: number;
  bytes: number;
  repeated: number;
  abandoned: number;
  unacknowledged: number;
  delay?: { greatest?: number; greatest_packet?: number; greatest_file?: string };
  [key: string]: unknown;
}

/** A user message, as the program says what became of it; `message` is its number. */
interface Message {
  message: number;
  message_of: number;
  end: 0 | 1;
  stream: number;
  ssn?: number;
  mid?: number;
  unordered?: boolean;
  ppid?: number;
  ppid_name?: string;
  size: number;
  fragments: number;
  first_tsn: number;
  last_tsn: number;
  sent_packet: number;
  sent_file?: string;
  acknowledged_packet?: number;
  acknowledged_file?: string;
  abandoned_by?: string;
  abandoned_packet?: number;
  abandoned_file?: string;
  delay?: number;
  repeated?: number;
  first_repeated_tsn?: number;
  repeated_after?: number;
  changed_tsn?: number;
  missing?: number;
  first_missing_tsn?: number;
  first_missing_fsn?: number;
  waited_for_tsn?: number;
  waited_for_ssn?: number;
  waited_for_mid?: number;
  closed_first?: number;
  closed_last?: number;
  [key: string]: unknown;
}

/** What was counted of all files. */
interface Summary {
  packets: number;
  skipped?: number;
  [count: string]: number | undefined;
}

// ---- rows: numbers alone, for each line

type ColumnName = keyof typeof import('./keys.mjs').COLUMNS;
type FlagName = keyof typeof import('./keys.mjs').FLAGS;
type Row = Record<ColumnName, number>;
type Column = Uint8Array | Uint16Array | Uint32Array | Float64Array;
type Columns = Record<ColumnName, Column>;

/** Between which ends, with which tag. */
interface Flow {
  from?: string;
  to?: string;
  source?: number;
  destination?: number;
  tag?: number;
  direction?: Direction;
  transport?: string;
  initTag?: number;
  isReflected?: boolean;
}

interface Run {
  type: number;
  name?: string;
  count: number;
}

/** What chunks a packet has. */
interface ChunkSummary {
  runs: Run[];
  types: number[];
  names: string[];
  streams: number[];
  ppids: [number, string][];
  tsns: number[];
  missing: number;
  forward?: number;
  messages: string[];
  labels: string[];
}

// ---- the messages of the Worker

/** What it is to read: an entry of a name and its file for each. */
interface Task {
  program: WebAssembly.Module;
  words: string[];
  files: [string, Blob][];
}

/** Lines that it has read, and a row for each. */
interface Batch {
  lines: Blob;
  columns: Columns;
  objects: unknown[];
  read: number;
  flows: Flow[];
  summaries: ChunkSummary[];
  notes: string[];
  texts: string[];
  messages: Message[];
  fates: import('./store.mjs').Store['fates'];
}

/** The size of what it unpacked. */
interface Unpacked {
  size: number;
}

/** What it says at its end: what was said on standard error, and what the files' first bytes show. */
interface Result {
  errors: string;
  signs: string[];
}

// ---- the state

type View = 'packets' | 'associations' | 'channels' | 'messages' | 'diagram';

interface State {
  isOffered: boolean;
  problem: '' | 'no-text' | 'no-link';
  store: import('./store.mjs').Store;
  name: string;
  size: number;
  worker: Worker | undefined;
  seconds: number | undefined;
  view: View;
  clock: 'since' | 'previous' | 'clock';
  filterText: string;
  filter: Filter;
  passed: number[];
  row: number | undefined;
  association: Association | undefined;
  channel: Channel | undefined;
  message: Message | undefined;
  shown: { object: Line | Association | Channel | Message | Record<string, never>; row?: number };
  saved: string;
}

type RowTest = (row: number) => boolean;

interface Filter {
  unknown: string[];
  names: string[];
  test(store: import('./store.mjs').Store): RowTest;
}

/** Why there is no packet: texts with code between backquotes, and whether it helps to say how packets are recorded. */
interface Reason {
  title: string;
  texts: string[];
  isRecorded?: boolean;
}

/** Which of an association's ends sent the packet of a row that is one of its own. */
type SenderOf = (row: number) => number;

/** tsc 4.8 doesn't know it. */
interface Array<T> {
  findLast(test: (it: T) => boolean): T | undefined;
}

// ---- the document

/** Its parts that are more than an element, by their ids. */
interface Parts {
  'clock': HTMLSelectElement;
  'copy-c': HTMLButtonElement;
  'copy-hex': HTMLButtonElement;
  'copy-json': HTMLButtonElement;
  'copy-link': HTMLButtonElement;
  'copy-test': HTMLButtonElement;
  'copy-value': HTMLButtonElement;
  'earlier': HTMLButtonElement;
  'file': HTMLInputElement;
  'filter': HTMLInputElement;
  'first': HTMLButtonElement;
  'go-to': HTMLInputElement;
  'graph': HTMLElement & SVGElement;
  'last': HTMLButtonElement;
  'later': HTMLButtonElement;
  'options': HTMLDetailsElement;
  'overview': HTMLElement & SVGElement;
  'progress': HTMLProgressElement;
  'scale': HTMLSelectElement;
  'strict': HTMLInputElement;
  'text': HTMLTextAreaElement;
  'udp': HTMLInputElement;
  'which': HTMLSelectElement;
  'zoom-in': HTMLButtonElement;
  'zoom-none': HTMLButtonElement;
  'zoom-out': HTMLButtonElement;
}

type Part<Id extends string> = Id extends keyof Parts ? Parts[Id] : HTMLElement;

/** Those of HTML and of SVG; and the document makes texts of these values by itself. */
interface Element {
  readonly dataset: DOMStringMap;
  setAttribute(name: string, value: string | number | boolean): void;
}

/** What the Worker has. */
declare function postMessage(message: Batch | Unpacked | Result, transfer?: Transferable[]): void;
declare const DecompressionStream: { new(format: string): ReadableWritablePair };
declare const FileReaderSync: { new(): { readAsArrayBuffer(blob: Blob): ArrayBuffer } };
/** Of the addresses of scripts that are trusted tsc knows nothing: they are texts to it. */
interface Window {
  trustedTypes?: { createPolicy(name: string, rules: { createScriptURL(text: string): string }): { createScriptURL(text: string): string } };
}
