// The targets of a frame as tabs, each the page of another capture, and the way from a draw to what it reads.

import { $, element } from "./elements.js";
import { readPlace } from "./place.js";

/** @typedef {{ position: number, target: number, address: string, at: number, laid?: [kind: string, size: [width: number, height: number], there: [wide: number, high: number]] | null }} Read */
/** @typedef {{ tabs: { name: string, target: number, address: string, own: boolean }[], reads: Read[] }} Tabs */

const bar = $("targets");
/** @type {Read[]} */
let reads = [];

/** @type {(frame: Tabs | null) => void} */
export function showTabs(frame) {
  bar.hidden = !frame;
  if (!frame) return;
  reads = frame.reads;
  bar.replaceChildren(...frame.tabs.map(({ name, target, address, own }) =>
    Object.assign(element("a", own ? "tab own" : "tab", name), { href: address, title: `target ${target}`, ariaCurrent: own ? "page" : null })));
}

// Links to what the draw at a position reads, as it was made; where it is told how that lies here, to the chosen pixel
/** @type {(position: number) => HTMLElement[]} */
export const waysFrom = position => reads.filter(read => read.position === position).map(leading);

/** @type {(read: Read) => HTMLElement} */
function leading({ target, address, at, laid }) {
  const there = `${address}&at=${at}`;
  const way = Object.assign(element("a", "way", `to target ${target}, as this draw reads it`), { href: there });
  for (const kind of ["pointerdown", "click"]) way.addEventListener(kind, () => way.href = there + texelOf(laid));
  return way;
}

// &pixel=80,119 where the chosen pixel lies on the target that is read, or nothing; tools/targets.py says the same
/** @type {(laid?: Read["laid"]) => string} */
function texelOf(laid) {
  const pixel = readPlace(document.documentElement.dataset.place ?? "")?.pixel;
  if (!laid || !pixel) return "";
  const [kind, [width, height], [wide, high]] = laid;
  const down = kind === "straight" ? 2 * pixel.y + 1 : 2 * (height - pixel.y) - 1;
  return `&pixel=${Math.floor((2 * pixel.x + 1) * wide / (2 * width))},${Math.floor(down * high / (2 * height))}`;
}
