// Pictures that are asked for pixel by pixel: depths, verdicts, overdraw. At first few samples, so that a step follows the hand; then more, while nothing else is wanted.

import { askDepths } from "./depths.js";
import { askHistories, mapOf } from "./fates.js";
import { isSame, sampled } from "./samples.js";

/** @typedef {import("./types").Chart} Chart */
/** @typedef {import("./types").Fetched} Fetched */
/** @typedef {import("./types").Look} Look */
/** @typedef {import("./types").MapLook} MapLook */
/** @typedef {import("./types").Part} Part */
/** @typedef {import("./types").Rect} Rect */
/** @typedef {import("./types").Reply} Reply */
/** @typedef {import("./types").Shown} Shown */
/** @typedef {import("./fates.js").Histories} Histories */
// What answers: some lines, the same at the end of the frame, and the depths of a part in one go where there is such a call
/** @typedef {{ ask: (lines: string[], window?: number[] | null, beside?: string | null) => Promise<Reply[]>, askEnd: (lines: string[]) => Promise<Reply[]>, depths: ((position: number, part: Part) => Promise<Uint16Array>) | null }} How */

/** @type {Set<Look | null>} */
export const LOOKS = new Set(["depth", "fate", "overdraw"]);
/** @type {(look: Look | null) => look is MapLook} */
const isLook = look => LOOKS.has(look);
const FEW = { depth: 16_384, fate: 4_096, overdraw: 4_096 }, MANY = { depth: 262_144, fate: 65_536, overdraw: 65_536 };     // samples
/** @type {{ look: MapLook, sight: Rect } | null} */
let wanted = null;                       // the look and what is in sight
/** @type {Histories | null} */
let kept = null;                         // histories of a part

// A look of what is in sight, from now on; null asks for none
/** @type {(look: Look | null, sight?: Rect | null) => void} */
export function wantMap(look, sight = null) {
  wanted = sight && isLook(look) ? { look, sight } : null;
}

// Something was switched, or another capture is shown
export function forgetHistories() {
  kept = null;
}

// The picture at a position, { look, part, values, .. }, of few samples or of many; null where none is wanted, or another thing is meanwhile
/** @type {(position: number, shown: Shown, how: How, goesOn: () => boolean, isFine?: boolean) => Promise<Chart | null>} */
export async function readMap(position, { after, hasDepth }, how, goesOn, isFine = false) {
  if (!wanted || !after) return null;
  const { look, sight } = wanted;
  const part = sampled(after, sight, (isFine ? MANY : FEW)[look]), finest = sampled(after, sight, MANY[look]);
  if (look === "depth") return hasDepth ? askDepths(how, position, part, goesOn) : null;
  const known = kept, isKnown = known && [part, finest].some(it => isSame(it, known.part)), found = isKnown ? known : await askHistories(how.askEnd, part, goesOn);
  if (!found) return null;
  kept = found;
  return mapOf(look, found, position);
}

// Whether more samples would show more
/** @type {(after: Fetched | null, map: Chart | null) => boolean} */
export const isCoarse = (after, map) => Boolean(after && map && wanted?.look === map.look && !isSame(map.part, sampled(after, wanted.sight, MANY[wanted.look])));
