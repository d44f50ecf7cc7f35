// A place in the frame as the address has it, at=15&pixel=78,66&off=8,10: where it stands, the chosen pixel, and the events that are off.

/** @typedef {import("./types").Place} Place */
/** @typedef {import("./types").Stand} Stand */

const LATER = 250;       // milliseconds: browsers bound how often an address may change
let timer = 0, told = "";

/** @type {(frame: { position: number, off: number[] }, shown: { pixel: Place | null }) => string} */
export function placeOf({ position, off }, { pixel }) {
  return [`at=${position}`, ...(pixel ? [`pixel=${pixel.x},${pixel.y}`] : []), ...(off.length ? [`off=${off}`] : [])].join("&");
}

// { at, pixel, off } of such a text, or null where it has no `at`; what isn't a number is passed over
/** @type {(text: string) => Stand | null} */
export function readPlace(text) {
  const words = new URLSearchParams(text), numbers = /** @param {string} name */ name => (words.get(name) ?? "").split(",").filter(word => /^\d{1,10}$/.test(word)).map(Number);
  const [at] = numbers("at"), [x, y] = numbers("pixel");
  return at === undefined ? null : { at, pixel: y === undefined ? null : { x, y }, off: new Set(numbers("off")) };
}

// The place stands in the address from now on, and in the page at once, for whoever saves it
/** @type {(place: string) => void} */
export function keepPlace(place) {
  document.documentElement.dataset.place = told = place;
  clearTimeout(timer);
  timer = setTimeout(write, LATER);
}

function write() {
  if (location.hash === `#${told}`) return;
  try {
    history.replaceState(history.state, "", `#${told}`);
  } catch {
    // a browser that lets no file change its address
  }
}
addEventListener("pagehide", () => told && write());

// Told of each place that somebody writes into the address
/** @type {(lead: (place: Stand) => void) => void} */
export const onPlace = lead => addEventListener("hashchange", () => {
  const place = readPlace(location.hash.slice(1));
  if (place) lead(place);
});
