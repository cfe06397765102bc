// SPDX-License-Identifier: Apache-2.0
// Run in the page by run.mjs.

/** In the page: what has less contrast than WCAG's AA wants: 4.5 of texts, also of placeholders, and 3 of controls' borders. */
export function contrasts() {
  const parsed = text => {
    const [, kind, inner] = /^(\w+)\((.*)\)$/.exec(text) ?? [];
    const [r, g, b, alpha = 1] = (inner ?? '').match(/[\d.e-]+/g)?.map(Number) ?? [0, 0, 0, 0];
    return [...[r, g, b].map(it => kind === 'color' ? it : it / 255), alpha];
  };
  const over = (front, back) => front.slice(0, 3).map((it, i) => it * front[3] + back[i] * (1 - front[3])).concat(1);
  const luminance = ([r, g, b]) => {
    const [x, y, z] = [r, g, b].map(it => it <= 0.04045 ? it / 12.92 : ((it + 0.055) / 1.055) ** 2.4);
    return 0.2126 * x + 0.7152 * y + 0.0722 * z;
  };
  const back = it => it ? over(parsed(getComputedStyle(it).backgroundColor), back(it.parentElement)) : [1, 1, 1, 1];
  const ratioOf = (front, ground) => {
    const [a, b] = [luminance(over(front, ground)), luminance(ground)].sort((x, y) => y - x);
    return (a + 0.05) / (b + 0.05);
  };
  const low = [];
  for (const it of document.querySelectorAll('input:not(.unseen), select, textarea, button:enabled')) {
    const style = getComputedStyle(it), edge = ratioOf(parsed(style.borderTopColor), back(it.parentElement));
    if (it.checkVisibility() && style.borderTopWidth !== '0px' && edge < 3)
      low.push(`border of ${it.tagName} ${it.id}: ${edge.toFixed(2)}`);
    const hint = it.placeholder ? ratioOf(parsed(getComputedStyle(it, '::placeholder').color), back(it)) : 21;
    if (hint < 4.5)
      low.push(`placeholder of ${it.id}: ${hint.toFixed(2)}`);
  }
  for (const it of document.querySelectorAll('body *')) {
    const isText = Array.from(it.childNodes).some(node => node.nodeType === 3 && node.data.trim());
    const isSeen = it.checkVisibility() && it.getClientRects().length && !it.closest('script, option, title, :disabled');
    if (!isText || !isSeen)
      continue;
    // (in a drawing colours are fills, and what is behind a text is a rectangle)
    const style = getComputedStyle(it), drawing = it.ownerSVGElement, hit = it.closest('.arrow.current')?.querySelector('.hit');
    const ground = hit ? parsed(getComputedStyle(hit).fill) : back(drawing ?? it);
    const ratio = ratioOf(parsed(drawing ? style.fill : style.color), ground);
    if (ratio < 4.5)
      low.push(`${it.tagName}.${it.getAttribute('class')} ${it.textContent.slice(0, 20)}: ${ratio.toFixed(2)}`);
  }
  return [...new Set(low)].slice(0, 10);
}
