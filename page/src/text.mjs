// SPDX-License-Identifier: Apache-2.0
// Elements and texts. Whatever a capture holds becomes text alone: nothing here reads HTML.

export { element, byId, targetOf, shown, hex, sized, counted, copy, save };

/** An element with classes, and texts or elements in it.
    @template {keyof HTMLElementTagNameMap} Tag
    @param {Tag} tag
    @param {(string | Node | undefined)[]} parts
    @returns {HTMLElementTagNameMap[Tag]} */
function element(tag, classes = '', ...parts) {
  const it = document.createElement(tag);
  if (classes)
    it.className = classes;
  it.append(.../** @type {(string | Node)[]} */ (parts.filter(part => part !== undefined && part !== '')));
  return it;
}

/** @type {<Id extends string>(id: Id) => Part<Id>} */
const byId = id => /** @type {any} */ (document.getElementById(id));

/** What an event happened to.
    @param {Event} event */
const targetOf = event => /** @type {HTMLElement} */ (event.target);

// Control characters, and those that change the direction of a text or aren't seen, as the blank pattern of Braille.
const UNSEEN = /[\p{Cc}\p{Cf}\p{Cs}\p{Zl}\p{Zp}\p{Default_Ignorable_Code_Point}\u2800]/gu;

/** A text of a capture as it is shown: its unseen characters by their numbers, and of a long one the beginning.
    @param {string} text */
function shown(text, most = 300) {
  const whole = String(text), cut = whole.slice(0, most);
  const seen = cut.replace(UNSEEN, it => `\\u${Number(it.codePointAt(0)).toString(16).padStart(4, '0')}`);
  return cut.length < whole.length ? `${seen} … (${whole.length.toLocaleString('en')} characters)` : seen;
}

/** @param {number} number
    @param {number} digits */
const hex = (number, digits) => `0x${number.toString(16).padStart(digits, '0')}`;

/** A number of bytes with three or four digits and its unit, in steps of a thousand.
    @param {number} bytes */
function sized(bytes) {
  const units = ['B', 'kB', 'MB', 'GB', 'TB'];
  let i = 0;
  for (; i < 4 && (i ? bytes.toFixed(1) : bytes) >= 1000; i++)
    bytes /= 1000;
  return `${i ? bytes.toFixed(1) : bytes} ${units[i]}`;
}

/** `one` of something, or some `many`. */
const counted = (count, one, many = `${one}s`) => `${count.toLocaleString('en')} ${count === 1 ? one : many}`;

/** Puts a text on the clipboard, also where the page has no right to it by itself; returns whether it is there.
    @param {string} text */
async function copy(text) {
  try {
    await navigator.clipboard.writeText(text);
    return true;
  } catch {
    const held = element('textarea', 'unseen'), focused = /** @type {HTMLElement | null} */ (document.activeElement);
    held.value = text;
    document.body.append(held);
    held.select();
    const isDone = document.execCommand('copy');
    held.remove();
    focused?.focus();
    return isDone;
  }
}

/** A file for whoever asked for it.
    @param {string} name
    @param {string} type */
function save(name, type, ...parts) {
  const link = element('a');
  link.href = URL.createObjectURL(new Blob(parts, { type }));
  link.download = name;
  link.click();
  setTimeout(() => URL.revokeObjectURL(link.href), 10000);
}
