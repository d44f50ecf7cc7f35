// Which pixels are asked for one by one: those of the target, or those in sight, or every so many of them. A part as image.js has it.

/** @typedef {import("./types").Part} Part */
/** @typedef {import("./types").Place} Place */
/** @typedef {import("./types").Rect} Rect */
/** @typedef {import("./types").Reply} Reply */

export const LINES = 3000;            // of a call
const SIDES = /** @type {const} */ (["left", "top", "every", "columns", "rows"]);

/** @type {(size: { width: number, height: number }, sight: Rect, most: number) => Part} */
export function sampled({ width, height }, [left, top, right, bottom], most) {
  if (width * height <= most) return { left: 0, top: 0, every: 1, columns: width, rows: height };
  let every = Math.max(1, Math.ceil(Math.sqrt((right - left) * (bottom - top) / most)));
  for (; ; every++) {
    const x = left - left % every, y = top - top % every, columns = Math.ceil((right - x) / every), rows = Math.ceil((bottom - y) / every);
    if (columns * rows <= most) return { left: x, top: y, every, columns, rows };
  }
}

/** @type {(part: { columns: number, rows: number }) => number} */
export const sizeOf = ({ columns, rows }) => columns * rows;
/** @type {(one: Part, other: Part) => boolean} */
export const isSame = (one, other) => SIDES.every(name => one[name] === other[name]);

// The place of a pixel among the samples, or -1 where none stands for it
/** @type {(part: Part, place: Place) => number} */
export function indexOf({ left, top, every, columns, rows }, { x, y }) {
  const column = Math.floor((x - left) / every), row = Math.floor((y - top) / every);
  return column >= 0 && row >= 0 && column < columns && row < rows ? row * columns + column : -1;
}

// Asks a line of each sample, some at a time: `take` is told of the replies and of the first one's number. False where it was given up between two calls
/** @type {(part: Part, word: string, ask: (lines: string[]) => Promise<Reply[]>, take: (replies: Reply[], first: number) => void, goesOn: () => boolean) => Promise<boolean>} */
export async function askSamples(part, word, ask, take, goesOn) {
  const { left, top, every, columns } = part, line = /** @param {number} i */ i => `${word} ${left + i % columns * every} ${top + Math.floor(i / columns) * every}`;
  for (let first = 0; first < sizeOf(part); first += LINES) {
    const lines = Array.from({ length: Math.min(LINES, sizeOf(part) - first) }, (_, i) => line(first + i));
    take(await ask(lines), first);
    if (!goesOn()) return false;
  }
  return true;
}
