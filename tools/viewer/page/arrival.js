// A way to a position: the lines that are asked, and what the replies say of it.

import { isRefusal, positionIn, readPixel, readState } from "./replies.js";

/** @typedef {import("./types").Fetched} Fetched */
/** @typedef {import("./types").Pixel} Pixel */
/** @typedef {import("./types").Place} Place */
/** @typedef {import("./types").Reply} Reply */
/** @typedef {import("./types").State} State */
/** @typedef {{ position: number, moved: string, stopped: string, states: State[], value: Pixel | null, images: [number, Fetched][], dragged: Fetched | null }} Arrival */

// The image and the state before the last event, and then its own. A hand that drags wants no image but the last; those that are kept aren't asked for
/** @type {(to: number, pixel: Place | null, isDragged: boolean, isKept: (position: number) => boolean) => string[]} */
export function linesTo(to, pixel, isDragged, isKept) {
  const lines = [];
  for (const position of to > 0 ? [to - 1, to] : [to]) {
    lines.push(`goto ${position}`, "state");
    if (!isKept(position) && !(isDragged && position < to)) lines.push("show");
  }
  if (pixel) lines.push(`pixel ${pixel.x} ${pixel.y}`);
  return lines;
}

// Of replies to such lines, from a position on
/** @type {(replies: Reply[], position: number, isDragged: boolean) => Arrival} */
export function readArrival(replies, position, isDragged) {
  /** @type {Arrival} */
  const found = { position, moved: "", stopped: "", states: [], value: null, images: [], dragged: null };
  for (const { text, image } of replies) {
    if (isRefusal(text)) found.stopped = text;
    const at = positionIn(text);
    if (at !== null) [found.position, found.moved] = [at, text];
    if (text.startsWith("state ")) found.states.push(readState(text));
    if (text.startsWith("pixel ")) found.value = readPixel(text);
    if (image && isDragged) found.dragged = image;
    else if (image) found.images.push([found.position, image]);
  }
  return found;
}
