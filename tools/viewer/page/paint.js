// The pixels of an image as the canvas shows them.

import { wordsOf } from "./image.js";

/** @typedef {import("./types").Channels} Channels */

const DIM = 0.22;        // of what didn't change
const OPAQUE = 0xff000000;

// One channel alone is grey; alpha with others shows the chequerboard; what the mask leaves out is dim
/** @type {(out: Uint8ClampedArray, bytes: Uint8Array, mask: Uint8Array | null | undefined, on: Channels) => void} */
export function paint(out, bytes, mask, on) {
  const colours = Number(on.r) + Number(on.g) + Number(on.b);
  if (colours === 3 && !on.a && !mask) return paintOpaque(wordsOf(out), wordsOf(bytes));
  const only = colours === 1 && !on.a ? (on.r ? 0 : on.g ? 1 : 2) : colours === 0 && on.a ? 3 : null;
  for (let i = 0, p = 0; p < bytes.length; i++, p += 4) {
    if (only !== null) out[p] = out[p + 1] = out[p + 2] = bytes[p + only];
    else {
      out[p] = on.r ? bytes[p] : 0;
      out[p + 1] = on.g ? bytes[p + 1] : 0;
      out[p + 2] = on.b ? bytes[p + 2] : 0;
    }
    out[p + 3] = only === null && on.a && colours ? bytes[p + 3] : 255;
    if (mask && !mask[i]) {
      out[p] = out[p + 1] = out[p + 2] = DIM * (0.3 * out[p] + 0.59 * out[p + 1] + 0.11 * out[p + 2]) + 18;
      out[p + 3] = 255;
    }
  }
}

// Colours between a black and a white point: what each value of a channel becomes
/** @type {(out: Uint8ClampedArray, lights: Uint8Array) => void} */
export function lighten(out, lights) {
  for (let p = 0; p < out.length; p += 4) for (let c = p; c < p + 3; c++) out[c] = lights[out[c]];
}

// What is the same is dark, and what differs white, as framedbg-night shows it
/** @type {(out: Uint8ClampedArray, bytes: Uint8Array, mask: Uint8Array) => void} */
export function paintDifference(out, bytes, mask) {
  for (let i = 0, p = 0; p < bytes.length; i++, p += 4) {
    for (let c = p; c < p + 3; c++) out[c] = mask[i] ? 255 : bytes[c] >> 2;
    out[p + 3] = 255;
  }
}

// What is shown most often, in the least time
/** @type {(out: Uint32Array, words: Uint32Array) => void} */
function paintOpaque(out, words) {
  for (let i = 0; i < words.length; i++) out[i] = words[i] | OPAQUE;
}

/** @type {(out: Uint8ClampedArray, greys: Uint8Array) => void} */
export function paintGreys(out, greys) {
  for (let i = 0, p = 0; i < greys.length; i++, p += 4) {
    out[p] = out[p + 1] = out[p + 2] = greys[i];
    out[p + 3] = 255;
  }
}

/** @type {(out: Uint8ClampedArray, values: Uint16Array | Uint32Array, colour: (value: number) => [r: number, g: number, b: number]) => void} */
export function paintValues(out, values, colour) {
  for (let i = 0, p = 0; i < values.length; i++, p += 4) {
    [out[p], out[p + 1], out[p + 2]] = colour(values[i]);
    out[p + 3] = 255;
  }
}
