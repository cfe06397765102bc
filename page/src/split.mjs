// SPDX-License-Identifier: Apache-2.0
// The line between a view and the details: it is dragged, or moved by arrows. In a wide window the details are at the side.
import { byId } from './text.mjs';

export { shareAt, addSplit, showDetails };

/** Percent of the room that the view can have, and how far an arrow moves the line. */
const LEAST_SHARE = 15, MOST_SHARE = 85, SHARE_STEP = 5;

/** What was chosen last in this tab. A browser may keep nothing for a page from a disk: then it holds while the page is open.
    @param {string} name */
function recall(name) {
  try {
    return sessionStorage.getItem(name);
  } catch {
    return null;
  }
}

/** @param {string} name */
function keep(name, value) {
  try {
    sessionStorage.setItem(name, value);
  } catch {
    // (it isn't kept)
  }
}

/** The share of the view, in percent, where the line is dragged to a place.
    @param {number} place
    @param {number} from
    @param {number} to */
function shareAt(place, from, to) {
  return Math.round(Math.max(LEAST_SHARE, Math.min(MOST_SHARE, 100 * (place - from) / (to - from))));
}

/** Scrolls a page of one column until the details take half of the window, if they take less. In others all is in view. */
function showDetails() {
  scrollBy(0, Math.max(0, byId('details').getBoundingClientRect().top - innerHeight / 2));
}

/** Makes the line move, and the button that puts the details at the side or below. */
function addSplit() {
  const split = byId('split'), work = byId('work'), button = byId('beside'), wide = matchMedia('(min-width: 1600px)');
  let share = shareAt(Number(recall('share') ?? 50), 0, 100), chosen = recall('beside');
  const isBeside = () => chosen === null ? wide.matches : chosen === 'yes';
  const show = () => {
    work.classList.toggle('beside', isBeside());
    work.style.setProperty('--view', `${share}fr`);
    work.style.setProperty('--rest', `${100 - share}fr`);
    split.setAttribute('aria-orientation', isBeside() ? 'vertical' : 'horizontal');
    split.setAttribute('aria-valuenow', share);
    button.textContent = isBeside() ? 'Below' : 'At the side';
    button.ariaLabel = isBeside() ? 'Details below the view' : 'Details at the side';
  };
  const move = to => {
    share = to;
    keep('share', share);
    show();
  };
  split.setAttribute('aria-valuemin', LEAST_SHARE);
  split.setAttribute('aria-valuemax', MOST_SHARE);
  split.addEventListener('keydown', event => {
    const less = share - SHARE_STEP, more = share + SHARE_STEP;
    const to = { ArrowUp: less, ArrowLeft: less, ArrowDown: more, ArrowRight: more, Home: LEAST_SHARE, End: MOST_SHARE }[event.key];
    if (to !== undefined) {
      event.preventDefault();
      move(shareAt(to, 0, 100));
    }
  });
  split.addEventListener('pointerdown', event => split.setPointerCapture(event.pointerId));
  split.addEventListener('pointermove', event => {
    if (!split.hasPointerCapture(event.pointerId))
      return;
    const view = /** @type {Element} */ (document.querySelector('[role=tabpanel]:not([hidden])')).getBoundingClientRect(), rest = byId('details').getBoundingClientRect();
    move(isBeside() ? shareAt(event.clientX, view.left, rest.right) : shareAt(event.clientY, view.top, rest.bottom));
  });
  button.addEventListener('click', () => {
    chosen = isBeside() ? 'no' : 'yes';
    keep('beside', chosen);
    show();
  });
  wide.addEventListener('change', show);
  show();
}
