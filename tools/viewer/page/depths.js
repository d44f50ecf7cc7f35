// A picture of the depths: framedbg's images show colours alone, so each is asked for by a `pixel` line.

import { readPixel } from "./replies.js";
import { askSamples, sizeOf } from "./samples.js";
import { everyOf } from "./words.js";

/** @typedef {import("./types").Chart} Chart */
/** @typedef {import("./types").Part} Part */
/** @typedef {import("./types").Range} Range */
/** @typedef {import("./types").Reply} Reply */
/** @typedef {import("./maps.js").How} How */

const FAR = 65_535, AT_ONCE = 65_536;         // the largest depth, and samples of a call

// The depths of a part at a position; null where that was given up
/** @type {(how: How, position: number, part: Part, goesOn: () => boolean) => Promise<Chart | null>} */
export async function askDepths(how, position, part, goesOn) {
  const depths = new Uint16Array(sizeOf(part));
  const isThere = how.depths ? await askRows(how.depths, position, part, depths, goesOn) : await askLines(how.ask, position, part, depths, goesOn);
  return isThere ? { look: "depth", part, values: depths, ...greyOf(depths) } : null;
}

// Some rows in a call, which the server asks for in one go
/** @type {(ask: NonNullable<How["depths"]>, position: number, part: Part, depths: Uint16Array, goesOn: () => boolean) => Promise<boolean>} */
async function askRows(ask, position, part, depths, goesOn) {
  const most = Math.max(1, Math.floor(AT_ONCE / part.columns));
  for (let row = 0; row < part.rows; row += most) {
    depths.set(await ask(position, { ...part, top: part.top + row * part.every, rows: Math.min(most, part.rows - row) }), row * part.columns);
    if (!goesOn()) return false;
  }
  return true;
}

/** @type {(ask: How["ask"], position: number, part: Part, depths: Uint16Array, goesOn: () => boolean) => Promise<boolean>} */
function askLines(ask, position, part, depths, goesOn) {
  /** @type {(lines: string[]) => Promise<Reply[]>} */
  const askThere = async lines => (await ask([`goto ${position}`, ...lines], null, "depths")).slice(1);
  /** @type {(replies: Reply[], first: number) => void} */
  const take = (replies, first) => replies.forEach(({ text }, i) => { depths[first + i] = Number(readPixel(text).depth); });
  return askSamples(part, "pixel", askThere, take, goesOn);
}

// Greys of depths, nearer is lighter, and black where nothing is in front of the far plane; and the range that they stretch over
/** @type {(depths: Uint16Array) => { greys: Uint8Array, near: number, far: number }} */
function greyOf(depths) {
  let near = FAR, far = 0;
  for (const depth of depths) {
    if (depth === FAR) continue;
    if (depth < near) near = depth;
    if (depth > far) far = depth;
  }
  return { greys: greysBetween(depths, [near, far]), near, far };
}

// The same over a range of depths; what lies outside is as light as its end
/** @type {(depths: Uint16Array | Uint32Array, range: Range) => Uint8Array} */
export function greysBetween(depths, [near, far]) {
  const greys = new Uint8Array(depths.length);
  for (let i = 0; i < depths.length; i++) {
    if (depths[i] !== FAR) greys[i] = far === near ? 200 : Math.round(240 - 180 * (Math.min(far, Math.max(near, depths[i])) - near) / (far - near));
  }
  return greys;
}

/** @type {(map: Chart) => string} */
export function tellDepths({ near = FAR, far = 0, part }) {
  if (near > far) return `${everyOf(part)} pixel has depth ${FAR}, the farthest`;
  return `${part.every > 1 ? `of ${everyOf(part)} pixel ` : ""}depths ${near} to ${far}: nearer is lighter, and ${FAR} is black`;
}
