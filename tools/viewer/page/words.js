// Events and states in an artist's words.

import { element, swatch } from "./elements.js";

/** @typedef {import("./types").Colour} Colour */
/** @typedef {import("./types").FrameEvent} FrameEvent */

/** @type {Record<string, string>} */
const FACTORS = { ZERO: "0", ONE: "1", SRC_COLOR: "src", INV_SRC_COLOR: "1−src", SRC_ALPHA: "src.a", INV_SRC_ALPHA: "1−src.a", DEST_COLOR: "dst",
  INV_DEST_COLOR: "1−dst", DEST_ALPHA: "dst.a", INV_DEST_ALPHA: "1−dst.a", BLEND_FACTOR: "factor", INV_BLEND_FACTOR: "1−factor" };
/** @type {Record<string, string>} */
const TESTS = { NEVER: "never", LESS: "src < stored", EQUAL: "src = stored", LESS_EQUAL: "src ≤ stored", GREATER: "src > stored",
  NOT_EQUAL: "src ≠ stored", GREATER_EQUAL: "src ≥ stored", ALWAYS: "always" };

// What stands for a word, or nothing
/** @type {(word: string, texts: Record<string, string>) => string} */
export const chosen = (word, texts) => texts[word] ?? "";

/** @type {(how: string[]) => string} */
export function equation([src, dst, op]) {
  const s = `src × ${FACTORS[src]}`, d = `dst × ${FACTORS[dst]}`;
  return chosen(op, { ADD: `${s} + ${d}`, SUBTRACT: `${s} − ${d}`, REV_SUBTRACT: `${d} − ${s}`, MIN: "min(src, dst)", MAX: "max(src, dst)" });
}

/** @type {(colour: Colour) => string} */
export const figures = ({ r, g, b, a }) => `${r} ${g} ${b} ${a}`;
/** @type {(colour: Colour) => string} */
export const hex = ({ r, g, b, a }) => `#${[r, g, b, a].map(v => v.toString(16).padStart(2, "0")).join("")}`;
/** @type {(edges: (number | string)[]) => string} */
export const rectangle = ([left, top, right, bottom]) => `${left} ${top} to ${right} ${bottom}`;
/** @type {(func: string) => string} */
export const test = func => TESTS[func];
/** @type {(func: string, source: number, stored: number) => string} */
export const compare = (func, source, stored) => test(func).replace("src", String(source)).replace("stored", String(stored));
/** @type {(n: number) => string} */
const ordinal = n => `${n}${n % 100 > 10 && n % 100 < 14 ? "th" : ["th", "st", "nd", "rd"][n % 10] ?? "th"}`;
/** @type {(part: { every: number }) => string} */
export const everyOf = ({ every }) => every > 1 ? `every ${ordinal(every)}` : "every";
/** @type {(flag: string) => string} */
const onOff = flag => flag === "1" ? "on" : "off";
/** @type {(mask: number) => string} */
const letters = mask => ["R", "G", "B", "A"].filter((_, i) => mask >> i & 1).join("") || "nothing";

/** @type {Record<string, (words: string[]) => string>} */
const DETAILS = {
  draw: ([count, interp]) => `${(+count).toLocaleString("en")} triangle${count === "1" ? "" : "s"}${chosen(interp, { linear: ", linear", picture: ", a picture" })}`,
  raster: ([cull, ccw, scissor]) => `cull ${cull}${ccw === "1" ? ", front ccw" : ""}, scissor ${onOff(scissor)}`,
  scissor: rectangle,
  blend: words => `${words[0] === "1" ? equation(words.slice(1, 4)) : "off"}${words[7] === "15" ? "" : `, writes ${letters(+words[7])}`}`,
  depth: ([enable, write, func]) => enable === "1" ? `${test(func)}${write === "1" ? "" : ", not written"}` : "off",
  depth_clear: ([depth]) => `all at ${depth}`,
};

/** @type {(event: FrameEvent) => HTMLElement[]} */
export function describeEvent({ kind, words, colour }) {
  const name = element("span", `kind ${kind}`, kind.replace("_", " "));
  if (colour) return [name, swatch(colour), element("span", "what", figures(colour))];
  const what = element("span", "what", DETAILS[kind]?.(words) ?? words.join(" "));
  what.title = words.join(" ");
  return [name, what];
}
