// SPDX-License-Identifier: Apache-2.0
// How far apart the arrows of a diagram are: evenly, or by time, in pixels. Nothing here is drawn.

export { LEAST, ROW, BAND, WIDEST, DOUBLED, rateOf, longOf, placesOf, lastAt, common, stepWithin, durationText, partsOf };

/** Between two arrows at least; between two that are drawn evenly, and what a silence takes beside that; what time takes to scale at
    most, and what twice the time takes beyond that. */
const LEAST = 16, ROW = 34, BAND = 28, WIDEST = 240, DOUBLED = 20;
/** Nanoseconds that no silence is below, and that each is from. */
const SHORT = 1e8, LONG = 1e9;

/** Pixels for each nanosecond, so that a median distance is as wide as one that is drawn evenly; undefined without times.
    @param {Float64Array} gaps */
function rateOf(gaps) {
  const step = Math.ceil(gaps.length / 10000), some = gaps.filter((gap, i) => i % step === 0 && gap > 0).sort((a, b) => a - b);
  return some.length ? ROW / some[Math.floor(some.length / 2)] : undefined;
}

/** From how many nanoseconds on a gap is a silence: four times what nineteen of twenty gaps are within.
    @param {Float64Array} gaps */
function longOf(gaps) {
  const known = gaps.filter(it => it >= 0).sort();
  return Math.max(SHORT, Math.min(LONG, 4 * (known[Math.floor(known.length * 0.95)] ?? LONG)));
}

/** The places of arrows, from the nanoseconds before each (NaN: not known), and before which of them a zigzag is: with a rate
    where the distance is cut short, which then grows with the time's logarithm, and else at a silence, from `long` on. Where the
    rate gives too little, arrows are as near as they can be.
    @param {Float64Array} gaps
    @param {number} row
    @param {number | undefined} rate
    @param {number} long */
function placesOf(gaps, row, rate, long) {
  const places = new Float64Array(gaps.length), breaks = new Set();
  for (let i = 1; i < gaps.length; i++) {
    const wanted = rate ? Math.max(LEAST, gaps[i] * rate || 0) : row, isBroken = rate ? wanted > WIDEST : gaps[i] >= long;
    if (isBroken)
      breaks.add(i);
    places[i] = places[i - 1] + (!isBroken ? wanted : rate ? WIDEST + DOUBLED * Math.log2(wanted / WIDEST) : row + BAND);
  }
  return { places, breaks };
}

/** The last of these places that isn't after one, by its number; the first if all are.
    @param {ArrayLike<number>} places
    @param {number} place */
function lastAt(places, place) {
  let [least, most] = [0, places.length];
  while (most - least > 1) {
    const middle = least + most >> 1;
    if (places[middle] <= place)
      least = middle;
    else
      most = middle;
  }
  return least;
}

/** The numbers that are in both of two lists in ascending order.
    @param {number[]} list
    @param {number[]} other */
function common(list, other) {
  let at = 0;
  return list.filter(it => {
    while (other[at] < it)
      at++;
    return other[at] === it;
  });
}

/** The greatest of 1, 2 or 5 times a power of ten that isn't above a number.
    @param {number} most */
function stepWithin(most) {
  const power = 10 ** Math.floor(Math.log10(most));
  return ([5, 2].find(it => it * power <= most) ?? 1) * power;
}

/** Nanoseconds as a text with its unit.
    @param {number} nanos */
function durationText(nanos) {
  /** @type {[number, string][]} */
  const units = [[1e9, 's'], [1e6, 'ms'], [1e3, 'µs'], [1, 'ns']], [size, unit] = units.find(([size]) => nanos >= size) ?? [1, 'ns'];
  return `${Number((nanos / size).toPrecision(3)).toLocaleString('en')} ${unit}`;
}

/** Divides a height into equal parts. Of each with arrows: their number, the most frequent of their groups, and their marks.
    @param {number[] | Float64Array} places
    @param {number} height
    @param {number} count */
function partsOf(places, height, count, groupOf, marksOf) {
  const parts = [];
  places.forEach((place, i) => {
    const at = Math.min(count - 1, Math.floor(place / height * count)), part = parts[at] ??= { at, count: 0, groups: {}, marks: new Set() };
    const group = groupOf(i);
    part.count++;
    part.groups[group] = (part.groups[group] ?? 0) + 1;
    marksOf(i).forEach(it => part.marks.add(it));
  });
  return parts.filter(it => it).map(({ at, count, groups, marks }) =>
    ({ at, count, group: Object.entries(groups).sort((a, b) => b[1] - a[1])[0][0], marks: [...marks] }));
}
