// The range of what is shown: a black and a white point, what lies in sight between them, and a histogram of it. Each kind of picture has its own:
// an image's channels, depths, how often was drawn, and by how much two pictures differ.

import { contextOf } from "./elements.js";

/** @typedef {import("./types").Chart} Chart */
/** @typedef {import("./types").Channels} Channels */
/** @typedef {import("./types").Look} Look */
/** @typedef {import("./types").Part} Part */
/** @typedef {import("./types").Range} Range */
/** @typedef {import("./types").Rect} Rect */
/** @typedef {{ counts: Uint32Array, least: number, most: number }} InSight */

const NOTHING = new Uint8Array();
const BINS = 256, TALL = 40;             // of the histogram; its pixels from the bottom to the top
/** @type {Partial<Record<Look, string>>} */
const KINDS = { before: "image", after: "image", changed: "image", other: "image", mended: "image", compared: "difference", depth: "depth", overdraw: "overdraw" };
const FAR = 65_535, CHANNELS = /** @type {const} */ (["r", "g", "b"]);
/** @type {Map<string | undefined | null, Range>} */
const chosen = new Map();                // by kind: [black, white]

// What kind of picture a look is, or undefined where it has no range
/** @type {(look: Look) => string | undefined} */
export const kindOf = look => KINDS[look];

// Black and white of a kind: as chosen, or all that a map has, or all of a channel
/** @type {(kind: string | undefined | null, map: Chart | null) => Range} */
export const rangeOf = (kind, map) => chosen.get(kind) ?? (map ? wholeOf(map) : [0, 255]);

/** @type {(map: Chart) => Range} */
const wholeOf = ({ near = FAR, far = 0, most }) => near <= far ? [near, far] : [0, most || FAR];

/** @type {(kind: string, black: number | null, white?: number) => void} */
export function setRange(kind, black, white = FAR) {
  if (black === null) chosen.delete(kind);
  else chosen.set(kind, [black, Math.max(white, black + 1)]);       // so that no two points are one
}

export const forgetRanges = () => chosen.clear();

// From the least to the greatest in sight; the least that is drawn or differs is no black
/** @type {(kind: string, found: InSight) => void} */
export const fit = (kind, { least, most }) => setRange(kind, kind === "overdraw" ? Math.max(0, least - 1) : kind === "difference" ? 0 : least, most);

// What each value of a channel becomes: black 0, white 255, and what lies outside of them as their ends
/** @type {(range: Range) => Uint8Array} */
export const lightsOf = ([black, white]) => Uint8Array.from({ length: 256 }, (_, value) => Math.round(255 * Math.min(1, Math.max(0, (value - black) / (white - black)))));

// How often each value is in sight, and the least and the greatest of them; of depths the farthest counts for nothing, nor does what is drawn or differs nowhere
/** @type {(kind: string, its: { part: Part, values: ArrayLike<number>, bytes?: Uint8Array, channels?: Channels }, sight: Rect) => InSight} */
export function valuesInSight(kind, { part, values, bytes = NOTHING, channels }, sight) {
  const found = { counts: new Uint32Array(FAR + 1), least: Infinity, most: -Infinity };
  const [first, last] = [0, 1].map(axis => ends(part, sight, axis)), shown = channels ? [0, 1, 2].filter(i => channels[CHANNELS[i]]) : [];
  for (let row = last[0]; row < last[1]; row++) {
    for (let i = row * part.columns + first[0]; i < row * part.columns + first[1]; i++) {
      if (kind === "image") for (const channel of shown) count(found, bytes[4 * i + channel]);
      else if (kind === "depth" ? values[i] !== FAR : values[i] !== 0) count(found, values[i]);
    }
  }
  return found.most >= found.least ? found : { ...found, least: 0, most: 0 };
}

// The first kept column (or row) that is in sight, and the one behind the last
/** @type {(part: Part, sight: Rect, axis: number) => Range} */
function ends({ left, top, every, columns, rows }, [x, y, right, bottom], axis) {
  const [start, from, to, most] = axis ? [top, y, bottom, rows] : [left, x, right, columns];
  return [Math.max(0, Math.floor((from - start) / every)), Math.min(most, Math.ceil((to - start) / every))];
}

/** @type {(found: InSight, times: number) => void} */
function count(found, times) {
  const value = Math.min(times, FAR);         // what is drawn more often counts as this
  found.counts[value]++;
  if (value < found.least) found.least = value;
  if (value > found.most) found.most = value;
}

// The histogram over all values from the lesser of black and the least to the greater of white and the most, with lines at black and white
/** @type {(canvas: HTMLCanvasElement, found: InSight, range: Range) => void} */
export function drawHistogram(canvas, { counts, least, most }, [black, white]) {
  const low = Math.min(black, least), wide = Math.max(white, most) - low, at = contextOf(canvas), style = getComputedStyle(canvas);
  const bins = new Array(BINS).fill(0), binOf = /** @param {number} value */ value => Math.min(BINS - 1, Math.floor((value - low) / (wide + 1) * BINS));
  for (let value = least; value <= most; value++) bins[binOf(value)] += counts[value];
  const highest = Math.max(1, ...bins);
  Object.assign(canvas, { width: BINS, height: TALL });
  at.fillStyle = style.getPropertyValue("--ink-2");
  for (const [i, often] of bins.entries()) if (often) at.fillRect(i, TALL - Math.max(1, Math.round(TALL * Math.sqrt(often / highest))), 1, TALL);       // roots, so that few show beside many
  at.fillStyle = style.getPropertyValue("--accent");
  for (const point of [black, white]) at.fillRect(binOf(point), 0, 1, TALL);
}
