// SPDX-License-Identifier: Apache-2.0
// Elements of SVG.

export { shape, line, write };

/** An element of SVG with attributes, and texts or elements in it.
    @param {string} tag */
function shape(tag, attributes, ...parts) {
  const it = document.createElementNS('http://www.w3.org/2000/svg', tag);
  for (const [name, value] of Object.entries(attributes))
    it.setAttribute(name, value);
  it.append(...parts.filter(part => part !== undefined && part !== ''));
  return it;
}

/** @param {string} kind */
const line = (kind, x1, y1, x2, y2) => shape('line', { class: kind, x1, y1, x2, y2 });
const write = (kind, x, y, anchor, ...parts) => shape('text', { class: kind, x, y, 'text-anchor': anchor }, ...parts);
