// The keys of the page.

import { keepBookmark } from "./bookmarks.js";
import { nextDifferent, pin } from "./comparison.js";
import { $ } from "./elements.js";
import { WRITES } from "./events.js";
import { film } from "./film.js";
import { frame } from "./frame.js";
import { notice } from "./log.js";
import { picture, setLook } from "./looks.js";
import { placeOf } from "./place.js";
import { shown } from "./shown.js";

/** @typedef {import("./types").Look} Look */
/** @typedef {[dx: number, dy: number]} Move */

/** @type {Look | null} */
let held = null;         // the look to which a key that is held goes back

/** @type {Record<string, () => unknown>} */
export const KEYS = {
  ArrowLeft: () => frame.goTo(frame.target - 1), ArrowRight: () => frame.goTo(frame.target + 1), ArrowUp: () => goToDraw(-1), ArrowDown: () => goToDraw(1),
  Home: () => frame.goTo(0), End: () => frame.goTo(frame.last), "[": () => goToWriter(-1), "]": () => goToWriter(1),
  " ": switchLast, ".": () => frame.stop(), f: () => film.play(), u: () => frame.undo(), m: () => notice(keepBookmark(placeOf(frame, shown)) ? "This place is kept among the bookmarks" : "This place is forgotten"),
  a: () => setLook("after"), c: () => turnLook("changed"), d: () => turnLook("compared"),
  b: () => { held ??= shown.look; setLook(held === "compared" && shown.other ? "other" : "before"); },
  z: () => shown.hasDepth && turnLook("depth"), v: () => turnLook("fate"), o: () => turnLook("overdraw"), p: pin, n: nextDifferent, r: () => $("range-shown").click(), s: () => $("scissor-shown").click(), t: () => $("wires-shown").click(),
  "+": () => picture.larger(), "=": () => picture.larger(), "-": () => picture.smaller(), 0: () => picture.fit(),
  ":": () => $("command").focus(), "?": () => $("help").showModal(),
};
/** @type {Record<string, Move>} */
const MOVES = { ArrowLeft: [-1, 0], ArrowRight: [1, 0], ArrowUp: [0, -1], ArrowDown: [0, 1] };

export function listenToKeys() {
  addEventListener("keydown", press);
  addEventListener("keyup", release);
}

// Another capture is shown
export function forgetHeld() {
  held = null;
}

/** @type {(event: KeyboardEvent) => void} */
function press(event) {
  const target = /** @type {HTMLElement} */ (event.target);
  if (target.matches("input:not([type=range]):not([type=checkbox]), select")) return void (event.key === "Escape" && target.blur());
  if (event.key === " " && target.matches("button, input")) return;
  if (event.key === "Escape") return /** @type {HTMLElement} */ (document.activeElement).blur();
  const move = event.shiftKey && MOVES[event.key];
  const doing = move ? () => movePixel(move) : KEYS[event.key.length === 1 ? event.key.toLowerCase() : event.key];
  if (!doing || event.ctrlKey || event.metaKey || event.altKey || document.querySelector("dialog[open]")) return;
  event.preventDefault();
  if (doing !== KEYS.f) film.stop();
  doing();
}

/** @type {(event: KeyboardEvent) => void} */
function release(event) {
  if (event.key.toLowerCase() !== "b" || held === null) return;
  setLook(held);
  held = null;
}

/** @type {(look: Look) => void} */
const turnLook = look => setLook(shown.look === look ? "after" : look);

// The last event below the position, or the next above it, that is one of some
/** @type {(numbers: number[], way: number) => number | undefined} */
const neighbour = (numbers, way) => way < 0 ? numbers.findLast(n => n < frame.position) : numbers.find(n => n > frame.position);

/** @type {(way: number) => void} */
function goToWriter(way) {
  const found = neighbour([...shown.writers], way);
  if (found) frame.goTo(found);
  else notice(shown.pixel ? `no event ${way < 0 ? "before" : "after"} this one writes the pixel` : "no pixel is chosen");
}

/** @type {(way: number) => void} */
function goToDraw(way) {
  const found = neighbour(frame.events.filter(event => WRITES.has(event.kind)).map(event => event.number), way);
  if (found) frame.goTo(found);
}

function switchLast() {
  const event = frame.events[frame.position - 1];
  if (event) frame.switchOver([event.number], !event.on);
}

// The pixel beside the chosen one, or the middle of the image
/** @type {(move: Move) => Promise<void>} */
const movePixel = ([dx, dy]) => frame.pickInTurn(() => {
  const { after, pixel } = shown;
  if (!after) return null;
  const { x, y } = pixel ?? { x: Math.floor(after.width / 2) - dx, y: Math.floor(after.height / 2) - dy };
  return { x: Math.max(0, Math.min(after.width - 1, x + dx)), y: Math.max(0, Math.min(after.height - 1, y + dy)) };
});
