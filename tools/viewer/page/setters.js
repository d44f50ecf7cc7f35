// The state at the start, and which event set a part of it: the last one of its kind that is on, up to a position.

/** @typedef {import("./types").CaptureEvent} CaptureEvent */
/** @typedef {import("./types").FrameEvent} FrameEvent */
/** @typedef {import("./types").States} States */

/** @type {States} */
export const AT_START = {
  raster: { kind: "raster", cull: "back", front_ccw: false, scissor: false },
  scissor: { kind: "scissor", rect: [0, 0, 0, 0] },
  blend: { kind: "blend", enable: false, rgb: ["ONE", "ZERO", "ADD"], alpha: ["ONE", "ZERO", "ADD"], mask: 15 },
  factor: { kind: "factor", color: [255, 255, 255, 255] },
  depth: { kind: "depth", enable: false, write: true, func: "LESS" },
};
/** @type {Record<string, string>} */
const KINDS = { blend: "blend", factor: "factor", cull: "raster", scissor: "raster", rect: "scissor", depth: "depth" };
/** @type {WeakMap<FrameEvent[], Partial<Record<string, FrameEvent[]>>>} */
const known = new WeakMap();

/** @type {(event: CaptureEvent) => event is States[keyof States]} */
export const isState = event => event.kind in AT_START;

// The event, null where the part is as at the start, or undefined where the name is of no part of its own
/** @type {(name: string, events: FrameEvent[], upTo: number) => FrameEvent | null | undefined} */
export function setterOf(name, events, upTo) {
  const kind = KINDS[name];
  if (!kind) return undefined;
  return lastUpTo(settersIn(events)[kind] ?? [], upTo, event => event.number) ?? null;
}

// Of some things in the order of their numbers the last whose number is no more than one, or undefined
/** @template Thing @param {readonly Thing[]} those @param {number} most @param {(thing: Thing) => number} numberOf @returns {Thing | undefined} */
export function lastUpTo(those, most, numberOf = Number) {
  let low = 0, high = those.length;              // the first of them above lies from low to high
  while (low < high) {
    const middle = low + high >> 1;
    if (numberOf(those[middle]) <= most) low = middle + 1;
    else high = middle;
  }
  return those[low - 1];
}

// Of a list of events those that are on, by their kinds
/** @type {(events: FrameEvent[]) => Partial<Record<string, FrameEvent[]>>} */
function settersIn(events) {
  const those = known.get(events) ?? Object.groupBy(events.filter(event => event.on), event => event.kind);
  known.set(events, those);
  return those;
}
