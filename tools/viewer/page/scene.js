// A small capture by a seed, of one feature: what features draw with, as framedbg-driver makes it. Positions are in 1/65536 pixel.

import { Dice } from "./dice.js";

/** @typedef {import("./types").CaptureEvent} CaptureEvent */
/** @typedef {number[]} Spot */
/** @typedef {Spot[]} Triangle */

export const PIXEL = 65_536, SIDE = 64, HALF = PIXEL / 2;
export const REPLACE = ["ONE", "ZERO", "ADD"];
const STRIDE = 0x9e3779;           // between the colours of neighbouring triangles, which lie far apart so that coverage shows

/** @template T @param {number} count @param {(i: number) => T} made @returns {T[]} */
export const times = (count, made) => Array.from({ length: count }, (_, i) => made(i));
/** @type {(value: number, step: number) => number} */
const stepped = (value, step) => Math.floor(value / step) * step;

// Corners lie where a driver of so many bits of a pixel's fraction can hold them, but where these are what is tried
export class Scene {
  number = 0; side = SIDE;
  /** @type {CaptureEvent[]} */ events = [];

  /** @param {string} feature @param {number} seed @param {number} bits */
  constructor(feature, seed, bits) {
    this.step = 2 ** (16 - Math.min(bits, 8));
    this.dice = new Dice(`${feature} ${seed}`);
    this.raster("none");
  }

  /** @type {(event: CaptureEvent) => void} */
  add(event) { this.events.push(event); }

  // ---- Colours and places
  // A colour far from those of the triangles before and after
  colour() {
    const mixed = ++this.number * STRIDE + this.dice.below(8);
    return [mixed & 255, mixed >> 8 & 255, mixed >> 16 & 255, 128 + this.number * 37 % 128];
  }

  // Any colour, with many a 0 and a 255: both numbers are drawn before one is chosen
  any() { return times(4, () => this.dice.choice([0, 255, ...times(2, () => this.dice.below(256))])); }

  // Somewhere on the target, or up to so many fifths of it outside
  place(fifths = 1) {
    const outside = Math.floor(fifths * SIDE * PIXEL / 5);
    return times(2, () => stepped(this.dice.between(-outside, SIDE * PIXEL + outside), this.step));
  }

  // Somewhere at most so far away along each axis
  /** @type {(place: Spot, reach: number) => Spot} */
  near(place, reach) { return place.map(part => part + stepped(this.dice.between(-reach, reach), this.step)); }

  // Triangles anywhere
  /** @type {(count: number) => Triangle[]} */
  soup(count) { return times(count, () => times(3, () => this.place())); }

  // The target in squares so many pixels wide, of two triangles each
  /** @type {(side: number) => Triangle[][]} */
  cells(side) {
    const starts = times(Math.ceil(SIDE / side), i => i * side);
    return starts.flatMap(y => starts.map(x => box(x, y, x + side, y + side)));
  }

  // The target in triangles that share their edges, with the inner corners pushed about
  /** @type {(columns: number, rows: number, step: number, push: number) => Triangle[]} */
  mesh(columns, rows, step, push) {
    const point = times(columns + 1, i => times(rows + 1, j => {
      const isInner = i > 0 && i < columns && j > 0 && j < rows, pushed = times(2, () => isInner ? this.dice.between(-push, push + 1) : 0);
      return [[i, columns], [j, rows]].map(([k, of], axis) => stepped(Math.floor(k * SIDE * PIXEL / of) + pushed[axis], step));
    }));
    return times(columns, i => times(rows, j => {
      const [a, b, c, d] = [point[i][j], point[i + 1][j], point[i + 1][j + 1], point[i][j + 1]];
      return this.dice.isSo(5) ? [[a, b, c], [a, c, d]] : [[a, b, d], [b, c, d]];
    })).flat(2);
  }

  // ---- Events
  // Triangles with a colour for each corner, and perhaps a depth for each
  /** @type {(triangles: Triangle[], colours: number[][], how?: { depths?: number[] | null, interp?: string, indices?: number[] | null }) => void} */
  draw(triangles, colours, { depths = null, interp = "flat", indices = null } = {}) {
    const vertices = triangles.flat().map(([x, y], i) => ({ x, y, z: depths?.[i] ?? 0, color: colours[i] }));
    this.add({ kind: "draw", interp, vertices, ...indices && { indices } });
  }

  // Each triangle of one colour of its own, whichever corner names it
  /** @type {(triangles: Triangle[], depths?: number[] | null) => void} */
  flat(triangles, depths = null) {
    this.draw(triangles, triangles.flatMap(() => Array(3).fill(this.colour())), { depths });
  }

  /** @type {(triangles: Triangle[]) => void} */
  linear(triangles) { this.draw(triangles, times(3 * triangles.length, () => this.any()), { interp: "linear" }); }

  // Squares that have any colour each
  mosaic(side = 2) {
    const pairs = this.cells(side);
    this.draw(pairs.flat(), pairs.flatMap(() => Array(6).fill(this.any())));
  }

  /** @type {(cull: string, front_ccw?: boolean, scissor?: boolean) => void} */
  raster(cull, front_ccw = false, scissor = false) { this.add({ kind: "raster", cull, front_ccw, scissor }); }
  /** @type {(...rect: number[]) => void} */
  scissor(...rect) { this.add({ kind: "scissor", rect }); }
  /** @type {(rgb: string[], how?: { alpha?: string[], mask?: number, enable?: boolean }) => void} */
  blend(rgb, { alpha = REPLACE, mask = 15, enable = true } = {}) { this.add({ kind: "blend", enable, rgb, alpha, mask }); }
  /** @type {(...color: number[]) => void} */
  factor(...color) { this.add({ kind: "factor", color }); }
  /** @type {(func: string, how?: { write?: boolean, enable?: boolean }) => void} */
  depth(func, { write = true, enable = true } = {}) { this.add({ kind: "depth", enable, write, func }); }
  /** @type {(...color: number[]) => void} */
  clear(...color) { this.add({ kind: "clear", color }); }
  /** @type {(depth: number) => void} */
  depthClear(depth) { this.add({ kind: "depth_clear", depth }); }
}

// A rectangle of whole pixels, as two triangles
/** @type {(...edges: number[]) => Triangle[]} */
export function box(...edges) {
  const [left, top, right, bottom] = edges.map(edge => edge * PIXEL);
  return [[[left, top], [right, top], [left, bottom]], [[right, top], [right, bottom], [left, bottom]]];
}
