// What the last event's triangles met at each pixel, and how often each was drawn: from histories of the whole frame, which last until something is switched.

import { askSamples, sizeOf } from "./samples.js";

/** @typedef {import("./types").Chart} Chart */
/** @typedef {import("./types").Part} Part */
/** @typedef {import("./types").Range} Range */
/** @typedef {import("./types").Reply} Reply */
/** @typedef {[r: number, g: number, b: number]} RGB */
/** @typedef {{ part: Part, starts: Uint32Array, events: number[], verdicts: number[], isDraw: boolean[] }} Histories */

// In the order of what counts at a pixel that several triangles meet; colours that differ in lightness too, so that nobody needs the hue
const NAMES = ["not reached", "culled", "scissored", "discarded", "depth failed", "drawn"];
const VERDICTS = [null, "culled", "scissored", "discarded", "depthfailed", "drawn"];
/** @type {RGB[]} */
const COLOURS = [[20, 20, 20], [0, 96, 160], [240, 228, 66], [150, 0, 255], [213, 94, 0], [150, 215, 255]];
// From dark to light, as often as it was drawn, in steps from the black to the white point
/** @type {RGB[]} */
const HEAT = [[0, 0, 4], [42, 0, 184], [107, 38, 142], [151, 59, 97], [199, 62, 62], [255, 153, 85], [244, 208, 0], [255, 255, 215]];
const DRAWN = VERDICTS.indexOf("drawn"), STEPS = HEAT.length - 1;

// The histories of a part: of each sample where its entries begin, and of each entry event, verdict and whether it is a triangle's
/** @type {(askEnd: (lines: string[]) => Promise<Reply[]>, part: Part, goesOn: () => boolean) => Promise<Histories | null>} */
export async function askHistories(askEnd, part, goesOn) {
  /** @type {Histories} */
  const kept = { part, starts: new Uint32Array(sizeOf(part) + 1), events: [], verdicts: [], isDraw: [] };
  /** @type {(replies: Reply[], first: number) => void} */
  const take = (replies, first) => replies.forEach(({ lines = [] }, i) => {
    for (const line of lines) {
      const [event, triangle, verdict] = line.split(" ", 3);
      kept.events.push(+event);
      kept.verdicts.push(VERDICTS.indexOf(verdict));
      kept.isDraw.push(triangle !== "-");
    }
    kept.starts[first + i + 1] = kept.events.length;
  });
  return await askSamples(part, "history", async lines => (await askEnd(lines)).slice(1), take, goesOn) ? kept : null;
}

// A value of each sample, from its entries up to a position
/** @type {(kept: Histories, position: number, value: (was: number, entry: number) => number) => Uint32Array} */
function collect(kept, position, value) {
  const values = new Uint32Array(sizeOf(kept.part));
  for (let i = 0; i < values.length; i++) {
    for (let k = kept.starts[i]; k < kept.starts[i + 1] && kept.events[k] <= position; k++) values[i] = value(values[i], k);
  }
  return values;
}

/** @type {(look: Chart["look"], kept: Histories, position: number) => Chart} */
export function mapOf(look, kept, position) {
  /** @type {(entry: number) => boolean} */
  const isLast = k => kept.events[k] === position;
  /** @type {(was: number, entry: number) => number} */
  const value = look === "fate" ? (was, k) => isLast(k) ? Math.max(was, kept.verdicts[k]) : was : (was, k) => was + Number(kept.isDraw[k] && kept.verdicts[k] === DRAWN);
  const values = collect(kept, position, value);
  return { look, part: kept.part, values, most: values.reduce((most, count) => Math.max(most, count), STEPS) };
}

/** @type {(map: Chart) => RGB[]} */
const coloursOf = ({ look }) => look === "fate" ? COLOURS : HEAT;
/** @type {(count: number) => string} */
const times = count => count === 0 ? "not drawn" : count === 1 ? "drawn once" : `drawn ${count} times`;

// Of a count its step in a range, and of a step the last count that it stands for
/** @type {(count: number, range: Range) => number} */
const stepOf = (count, [black, white]) => count === 0 ? 0 : Math.min(STEPS, Math.max(1, Math.ceil(STEPS * (count - black) / (white - black))));
/** @type {(step: number, range: Range) => number} */
const lastOf = (step, [black, white]) => black + Math.floor(step * (white - black) / STEPS);

/** @type {(map: Chart, value: number, range: Range) => number} */
const placeOf = ({ look }, value, range) => look === "fate" ? value : stepOf(value, range);
/** @type {(map: Chart, range: Range) => (value: number) => RGB} */
export const colourOf = (map, range) => value => coloursOf(map)[placeOf(map, value, range)];
/** @type {(map: Chart, value: number) => string} */
export const nameOf = ({ look }, value) => look === "fate" ? NAMES[value] : times(value);

// Of each step that a legend names: its name, its colour and how many samples have it. A step for no count is left out
/** @type {(map: Chart, range: Range) => { colour: RGB, count: number, name: string }[]} */
export function legendOf(map, range) {
  const colours = coloursOf(map), counts = new Array(colours.length).fill(0);
  for (const value of map.values) counts[placeOf(map, value, range)]++;
  return colours.map((colour, i) => ({ colour, count: counts[i], name: map.look === "fate" || i === 0 ? nameOf(map, i) : stepNamed(i, range, map.most ?? STEPS) })).filter(({ name }) => name);
}

/** @type {(step: number, range: Range, most: number) => string} */
function stepNamed(step, range, most) {
  const first = step === 1 ? 1 : lastOf(step - 1, range) + 1, last = step === STEPS ? Math.max(most, range[1]) : lastOf(step, range);
  return first > last ? "" : first === last ? times(first) : `drawn ${first} to ${last} times`;
}
