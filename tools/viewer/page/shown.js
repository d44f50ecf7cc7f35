// What is shown: one value that is never changed, but exchanged for the next one. Everybody reads it here.

/** @typedef {import("./types").Shown} Shown */

export const NO_PIXEL = { pixel: null, value: null, entries: [], writers: new Set(), outlined: null, corners: null };
// Of a frame of which nothing is known yet
export const UNKNOWN = { ...NO_PIXEL, before: null, after: null, isDragged: false, states: { with: null, next: null }, hasDepth: false, map: null };
// As the page begins, and with each other capture
export const AT_FIRST = { look: /** @type {const} */ ("after"), other: null, mended: null };

/** @type {Shown} */
export let shown = Object.freeze({ ...UNKNOWN, ...AT_FIRST, whose: /** @type {const} */ ("with"), zoom: 1, channels: { r: true, g: true, b: true, a: false } });

/** @type {(changes: Partial<Shown>) => void} */
export function show(changes) {
  shown = Object.freeze({ ...shown, ...changes });
}
