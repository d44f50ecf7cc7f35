// What framedbg's replies say: the texts of docs/FORMATS.md, read into objects.

/** @typedef {import("./types").Colour} Colour */
/** @typedef {import("./types").Entry} Entry */
/** @typedef {import("./types").FrameEvent} FrameEvent */
/** @typedef {import("./types").Pixel} Pixel */
/** @typedef {import("./types").State} State */

/** @type {(words: string[]) => number[]} */
const numbers = words => words.map(Number);
/** @type {(words: string[]) => Colour} */
const colour = words => ({ r: +words[0], g: +words[1], b: +words[2], a: +words[3] });

// "11 on draw 2 flat"
/** @type {(line: string) => FrameEvent} */
export function readEvent(line) {
  const [number, on, kind, ...rest] = line.split(" ");
  /** @type {FrameEvent} */
  const event = { number: +number, on: on === "on", kind, words: rest };
  if (kind === "marker") event.name = rest.join(" ");
  if (kind === "clear" || kind === "factor") event.colour = colour(rest);
  return event;
}

// "11 0 drawn 190 60 50 128 60 130 60 255 125 95 55 128", with three depths more where the capture has depth
/** @type {(line: string) => Entry} */
export function readEntry(line) {
  const words = line.split(" ");
  /** @type {Entry} */
  const entry = {
    event: +words[0], triangle: words[1] === "-" ? null : +words[1], verdict: words[2],
    source: colour(words.slice(3, 7)), before: colour(words.slice(7, 11)), after: colour(words.slice(11, 15)),
  };
  if (words.length >= 18) {
    const [source, before, after] = numbers(words.slice(15, 18));
    entry.depth = { source, before, after };
  }
  return entry;
}

// "pixel 125 95 55 128", with a depth more where the capture has depth
/** @type {(text: string) => Pixel} */
export function readPixel(text) {
  const words = text.split(" ").slice(1);
  return { colour: colour(words), depth: words.length > 4 ? +words[4] : null };
}

// "state cull back ccw 0 scissor 0 rect 0 0 0 0 blend 1 SRC DST OP SRC DST OP mask 15 factor 255 255 255 255", perhaps " depth 1 1 LESS"
/** @type {(line: string) => State} */
export function readState(line) {
  const w = line.split(" ");
  /** @type {State} */
  const state = {
    cull: w[2], ccw: w[4] === "1", scissor: w[6] === "1", rect: /** @type {State["rect"]} */ (numbers(w.slice(8, 12))), blend: w[13] === "1",
    rgb: w.slice(14, 17), alpha: w.slice(17, 20), mask: +w[21], factor: colour(w.slice(23, 27)),
  };
  if (w[27] === "depth") state.depth = { enable: w[28] === "1", write: w[29] === "1", func: w[30] };
  return state;
}

// "at 13", "stopped 4": the position that a reply tells of, else null
/** @type {(text: string) => number | null} */
export const positionIn = text => /^(at|stopped) \d+$/.test(text) ? +text.split(" ")[1] : null;
/** @type {(text: string) => boolean} */
export const isRefusal = text => /^(refused|bad|stopped) /.test(text);
