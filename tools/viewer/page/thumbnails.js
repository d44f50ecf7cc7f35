// Small pictures of what events changed. They are made of the images that are there when the frame stands at an event, and nothing is asked for them.

import { contextOf } from "./elements.js";

/** @typedef {import("./types").Difference} Difference */
/** @typedef {import("./types").Image} Image */

const WIDE = 32, TALL = 20, KEPT = 4096;       // pixels of the page at most; events whose pictures are kept
const MOST = 1 << 18;                          // pixels of the image that one is made of
/** @type {Map<number, ImageData>} */
const made = new Map();                        // by the event's number

export const forgetThumbnails = () => made.clear();

// Of the event after which the image stands, by what it changed (image.js), unless but a part of the target was fetched
/** @type {(number: number, image: Image, changed: Difference) => void} */
export function note(number, { width, height, bytes, left, top, columns, rows }, { mask, count, left: from, top: start, right, bottom, every }) {
  if (!count || made.has(number) || columns * every < width || rows * every < height) return;
  const wide = (right - from) / every + 1, high = (bottom - start) / every + 1, by = Math.max(wide / WIDE, high / TALL), aside = Math.ceil(Math.sqrt(wide * high / MOST));
  const painted = new ImageData(Math.max(1, Math.round(wide / by)), Math.max(1, Math.round(high / by))), first = (start - top) / every * columns + (from - left) / every;
  for (const [row, y] of placed(high, painted.height, aside)) {
    for (const [column, x] of placed(wide, painted.width, aside)) {
      const at = first + row * columns + column;
      if (mask[at]) painted.data.set([bytes[4 * at], bytes[4 * at + 1], bytes[4 * at + 2], 255], 4 * (y * painted.width + x));
    }
  }
  made.set(number, painted);
  if (made.size > KEPT) made.delete(made.keys().next().value);
}

// Pairs of a place in so many and its place in a picture of so many: each of the larger number, but for those that are left out
/** @type {(many: number, small: number, aside: number) => number[][]} */
function placed(many, small, aside) {
  if (small >= many) return Array.from({ length: small }, (_, i) => [Math.floor(i * many / small), i]);
  return Array.from({ length: Math.ceil(many / aside) }, (_, i) => [i * aside, Math.floor(i * aside * small / many)]);
}

/** @type {(number: number) => boolean} */
export const hasThumbnail = number => made.has(number);

// As an element of the page, or none
/** @type {(number: number) => HTMLElement[]} */
export function thumbnailOf(number) {
  const painted = made.get(number);
  if (!painted) return [];
  const canvas = document.createElement("canvas");
  Object.assign(canvas, { className: "thumbnail", width: painted.width, height: painted.height, title: "What it changed" });
  contextOf(canvas).putImageData(painted, 0, 0);
  return [canvas];
}
