// How an entry of a history came about, in figures: the blend equation channel by channel, or why the triangle was thrown away.

import { chosen, compare, figures, rectangle } from "./words.js";

/** @typedef {import("./types").Blending} Blending */
/** @typedef {import("./types").Channel} Channel */
/** @typedef {import("./types").Colour} Colour */
/** @typedef {import("./types").Entry} Entry */
/** @typedef {import("./types").Place} Place */
/** @typedef {import("./types").State} State */
/** @typedef {{ source: Colour, before: Colour, after: Colour }} Drawn */
/** @typedef {[channel: Channel, how: string, ours: number, theirs: number]} Sum */
/** @typedef {Sum | [channel: null, how: string]} Line */

/** @type {Record<string, (source: Colour, before: Colour, factor: Colour, channel: Channel) => number>} */
const FACTORS = {
  ZERO: () => 0, ONE: () => 255, SRC_COLOR: (s, d, f, c) => s[c], SRC_ALPHA: s => s.a, DEST_ALPHA: (s, d) => d.a, DEST_COLOR: (s, d, f, c) => d[c], BLEND_FACTOR: (s, d, f, c) => f[c],
};
/** @type {Record<string, [number, number]>} */
const SIGNS = { ADD: [1, 1], SUBTRACT: [1, -1], REV_SUBTRACT: [-1, 1] };
const CHANNELS = /** @type {const} */ (["r", "g", "b", "a"]);
const MOST = 65_025;        // 255 times 255: a channel of 255 in these units

// Of each line what it is of, how it comes about, what the page makes of it, and what framedbg replied; the last two only of channels
/** @type {(entry: Entry, state: State, pixel: Place) => Line[]} */
export function sumOf(entry, state, pixel) {
  const { triangle, verdict, depth } = entry;
  if (verdict !== "drawn") return [[null, thrownAway(entry, state, pixel)]];
  if (triangle === null) return [[null, cleared(entry)]];
  const lines = channelsOf(entry, state);
  if (!depth || !state.depth?.enable) return lines;
  return [...lines, [null, `the depth test (${tellTest(state, depth)}) holds${state.depth.write ? `: ${depth.after} is stored` : ", and isn't written"}`]];
}

/** @type {(entry: Entry, state: State, pixel: Place) => string} */
function thrownAway({ verdict, depth }, state, { x, y }) {
  if (verdict === "culled") return `thrown away: cull is ${state.cull}, the front is ${state.ccw ? "counter-clockwise" : "clockwise"}, and this triangle shows its ${state.cull}`;
  if (verdict === "scissored") return `thrown away: ${x} ${y} is outside of the scissor rectangle ${rectangle(state.rect)}`;
  if (verdict === "discarded") return `thrown away: the draw's picture has no colour at ${x} ${y}`;
  return `thrown away: the depth test (${tellTest(state, depth)}) doesn't hold`;
}

/** @type {(state: State, depth: Entry["depth"]) => string} */
const tellTest = ({ depth: test }, depth) => test && depth ? compare(test.func, depth.source, depth.before) : "";

/** @type {(entry: Entry) => string} */
function cleared({ source, before, after, depth }) {
  if (figures(before) === figures(after) && depth && depth.after === depth.source && depth.before !== depth.after) return `a clear: each pixel's depth is ${depth.source}`;
  return "a clear: each pixel has its colour, whatever the state";
}

// Of a triangle that is drawn, whatever the depth
/** @type {(drawn: Drawn, state: Blending) => Sum[]} */
export const channelsOf = (drawn, state) => CHANNELS.map((channel, i) => channelOf(drawn, state, channel, i));

/** @type {(drawn: Drawn, state: Blending, channel: Channel, i: number) => Sum} */
function channelOf({ source, before, after }, state, c, i) {
  const [s, d] = [source[c], before[c]];
  if (!(state.mask >> i & 1)) return [c, "not written", d, after[c]];
  if (!state.blend) return [c, `${s}, as blending is off`, s, after[c]];
  const [sourceFactor, beforeFactor, op] = c === "a" ? state.alpha : state.rgb;
  if (op === "MIN" || op === "MAX") return [c, `${op.toLowerCase()}(${s}, ${d})`, (op === "MIN" ? Math.min : Math.max)(s, d), after[c]];
  const [one, two] = [sourceFactor, beforeFactor].map(name => factorOf(name, source, before, state.factor, c)), [plus, minus] = SIGNS[op];
  const exact = plus * s * one + minus * d * two;
  return [c, `${equationOf(op, `${s} × ${one}/255`, `${d} × ${two}/255`)} = ${(exact / 255).toFixed(2)}`, nearest(exact), after[c]];
}

/** @type {(name: string, source: Colour, before: Colour, factor: Colour, channel: Channel) => number} */
function factorOf(name, source, before, factor, c) {
  const value = FACTORS[name.replace("INV_", "")](source, before, factor, c);
  return name.startsWith("INV_") ? 255 - value : value;
}

/** @type {(op: string, s: string, d: string) => string} */
const equationOf = (op, s, d) => chosen(op, { ADD: `${s} + ${d}`, SUBTRACT: `${s} − ${d}`, REV_SUBTRACT: `${d} − ${s}` });

// The channel nearest to a value in units of 1/65025; no two tie
/** @type {(value: number) => number} */
export const nearest = value => Math.floor((Math.min(Math.max(value, 0), MOST) + 127) / 255);
