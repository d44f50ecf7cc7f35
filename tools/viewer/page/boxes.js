// Where an event may draw: round the corners of a draw, inside the rectangle of a scissor, all of the target for a clear.

import { draw } from "./run.js";
import { tellFault } from "./log.js";
import { countOf, trianglePlaces } from "./mesh.js";
import { shown } from "./shown.js";

/** @typedef {import("./types").FrameEvent} FrameEvent */
/** @typedef {import("./types").Mesh} Mesh */
/** @typedef {import("./types").Rect} Rect */
/** @typedef {import("./picture.js").Picture} Picture */

const A_WHILE = 80;                    // milliseconds that the pointer stays on an event before its box is asked for
/** @type {FrameEvent | null} */
let hovered = null;
/** @type {Map<number, Rect | null>} */
const known = new Map();               // by a draw's number

export const forgetBoxes = () => known.clear();

// What an event draws on, while the pointer is on its row
/** @type {(event: FrameEvent | null, picture: Picture) => Promise<void>} */
export async function outlineEvent(event, picture) {
  hovered = event;
  if (!event) return picture.setBox(null);
  await new Promise(resolve => setTimeout(resolve, A_WHILE));       // not of those that the pointer passes over
  try {
    const box = hovered === event && shown.after ? await boxOf(event, shown.after) : null;
    if (hovered === event) picture.setBox(box);
  } catch (fault) {
    tellFault(fault);
  }
}

// [left, top, right, bottom] in pixels of the target, or null
/** @type {(event: FrameEvent, size: { width: number, height: number }) => Promise<Rect | null>} */
async function boxOf({ number, kind, words }, { width, height }) {
  if (kind === "clear" || kind === "depth_clear") return [0, 0, width, height];
  if (kind === "scissor") return cut(/** @type {any} */ (words.map(Number)), [width, height]);
  if (kind !== "draw") return null;
  if (!known.has(number)) known.set(number, round(await draw(number)));
  const box = known.get(number);
  return box ? cut(box, [width, height]) : null;
}

/** @type {(mesh: Mesh | null) => Rect | null} */
function round(mesh) {
  if (!mesh || !countOf(mesh)) return null;
  /** @type {Rect} */
  const box = [Infinity, Infinity, -Infinity, -Infinity];
  for (let triangle = 0; triangle < countOf(mesh); triangle++) {
    for (const [x, y] of trianglePlaces(mesh, triangle)) [box[0], box[1], box[2], box[3]] = [Math.min(box[0], x), Math.min(box[1], y), Math.max(box[2], x), Math.max(box[3], y)];
  }
  if (!mesh.picture) return box;
  const [left, top, wide, high] = mesh.picture;
  return [Math.max(box[0], left), Math.max(box[1], top), Math.min(box[2], left + wide), Math.min(box[3], top + high)];
}

// What of it lies on the target, or null
/** @type {(rect: Rect, size: [width: number, height: number]) => Rect | null} */
function cut([left, top, right, bottom], [width, height]) {
  /** @type {Rect} */
  const box = [Math.max(0, left), Math.max(0, top), Math.min(width, right), Math.min(height, bottom)];
  return box[0] < box[2] && box[1] < box[3] ? box : null;
}
