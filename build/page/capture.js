// A capture as a search changes it: its events, the state before each, and the bytes of any list of events.
// No list is ever changed: a change makes another one.

import { AT_START, lastUpTo } from "./setters.js";

export const STATES = ["raster", "scissor", "blend", "factor", "depth"], DRAWN = ["draw", "clear", "depth_clear"];
const PIXEL = 65_536, LEAST = 2 ** 31;       // places are in 1/65536 pixel; no edge of a scissor is less
const OFF = { kind: "marker", name: "off" }, NOTHING = { kind: "draw", interp: "flat", vertices: [] };

export class Capture {
  texts = new Map(); setters = new Map();          // by window and event; the events that set a part

  // Of a capture that framedbg accepts. Events that are off are none, and the others keep their numbers
  constructor(bytes, off = new Set()) {
    const { version, width, height, events } = JSON.parse(new TextDecoder().decode(bytes));
    Object.assign(this, { version, width, height, events: events.map((event, i) => off.has(i + 1) ? OFF : event), numbers: events.map((_, i) => i + 1) });
    this.states = STATES.slice(0, version > 1 ? 5 : 4);
    this.whole = { left: 0, top: 0, right: width, bottom: height };
  }

  event(number) { return this.events[number - 1]; }
  kind(number) { return this.events[number - 1].kind; }

  // The event that set a part of the state with which an event is drawn; 0 where that is as at the start
  setter(number, part) {
    if (!this.setters.has(part)) this.setters.set(part, this.those([part]));
    return lastUpTo(this.setters.get(part), number - 1) ?? 0;
  }

  state(number, part) { return this.event(this.setter(number, part)) ?? AT_START[part]; }

  // The events of some kinds by their numbers
  those(kinds) { return this.numbers.filter(number => kinds.includes(this.kind(number))); }

  // A capture with some events; of a window alone, { left, top, right, bottom }, as a target of its own
  bytesOf(events, window = this.whole) {
    const { left, top, right, bottom } = window, head = { format: "framedbg", version: this.version, width: right - left, height: bottom - top };
    return new TextEncoder().encode(`${JSON.stringify(head).slice(0, -1)},"events":[${events.map(event => this.textOf(event, window)).join(",\n")}]}`);
  }

  textOf(event, window) {
    if (!this.texts.has(window)) this.texts.set(window, new Map());
    const texts = this.texts.get(window);
    if (!texts.has(event)) texts.set(event, JSON.stringify(window === this.whole ? event : within(event, window)));
    return texts.get(event);
  }
}

// An event as it is drawn on a window: triangles that can't reach it are left out
function within(event, window) {
  const { left, top } = window, { kind, rect, interp, vertices, indices, picture } = event;
  if (kind === "scissor") return { kind, rect: rect.map((edge, i) => Math.max(edge - (i % 2 ? top : left), -LEAST)) };
  if (kind !== "draw") return event;
  const order = indices ?? vertices.map((_, number) => number), kept = [], numbers = new Map();
  for (let at = 0; at + 2 < order.length; at += 3) {
    const three = order.slice(at, at + 3);
    if (meets(three.map(number => vertices[number]), window)) kept.push(...three);
  }
  for (const number of kept) if (!numbers.has(number)) numbers.set(number, numbers.size);
  const corners = [...numbers.keys()].map(number => ({ ...vertices[number], x: vertices[number].x - left * PIXEL, y: vertices[number].y - top * PIXEL }));
  const draw = { kind, interp, vertices: corners, indices: kept.map(number => numbers.get(number)) };
  if (interp !== "picture") return draw;
  const part = pictureOn(picture, window);
  return part ? { ...draw, picture: part } : NOTHING;
}

// What of a draw's picture lies on a window, or null
function pictureOn({ left, top, width, height, texels, holes }, window) {
  const [x, y] = [Math.max(left, window.left), Math.max(top, window.top)];
  const [wide, high] = [Math.min(left + width, window.right) - x, Math.min(top + height, window.bottom) - y];
  if (wide <= 0 || high <= 0) return null;
  const starts = Array.from({ length: high }, (_, row) => (y - top + row) * width + x - left), bytes = atob(texels);
  const rows = starts.map(at => bytes.slice(4 * at, 4 * (at + wide)));
  const part = { left: x - window.left, top: y - window.top, width: wide, height: high, texels: btoa(rows.join("")) };
  return holes === undefined ? part : { ...part, holes: holesOn(atob(holes), starts, wide) };
}

// The bits of the texels that begin at some places, so many each
function holesOn(bits, starts, wide) {
  const kept = new Uint8Array(Math.ceil(starts.length * wide / 8));
  for (const [row, start] of starts.entries()) {
    for (let i = 0; i < wide; i++) {
      const from = start + i, to = row * wide + i;
      kept[to >> 3] |= (bits.charCodeAt(from >> 3) >> (from & 7) & 1) << (to & 7);
    }
  }
  return btoa(Array.from(kept, byte => String.fromCharCode(byte)).join(""));
}

// Whether a triangle's box meets a window
function meets(corners, { left, top, right, bottom }) {
  const [x, y] = ["x", "y"].map(side => corners.map(corner => corner[side] / PIXEL));
  return Math.max(...x) >= left && Math.min(...x) <= right && Math.max(...y) >= top && Math.min(...y) <= bottom;
}
