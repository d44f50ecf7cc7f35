// Why a card's colour is far off: which triangles it must have drawn there, and which not. As framedbg-driver tells it.

import { snap } from "./snapping.js";
import { channelsOf } from "./sum.js";

/** @typedef {import("./types").Blending} Blending */
/** @typedef {import("./types").Colour} Colour */
/** @typedef {import("./types").Draw} Draw */
/** @typedef {import("./types").Entry} Entry */
/** @typedef {import("./types").States} States */
/** @typedef {import("./types").Vertex} Vertex */
/** @typedef {[x: number, y: number]} Spot */
/** @typedef {[start: Spot, end: Spot]} Edge */
/** @typedef {[kind: string, isOpen: boolean]} Reason */
/** @typedef {{ triangle: number, left: number, right: number, edges: Edge[] }} Reach */
// The differences of one draw. `there` tells what the card had at a pixel, `isAlike` whether both had the same depth there, `entries` what the draw's
// triangles did to it, which has been asked for
/** @typedef {{ event: Draw, states: States, width: number, height: number, there: (x: number, y: number) => Colour, isAlike: (x: number, y: number) => boolean, entries: (x: number, y: number) => Entry[] }} Its */

const MOST_WEIGHED = 7;            // entries of a pixel of which all subsets are weighed: the last ones
const NEAR = 2, NEARBY = 12;       // how far off a colour may be that is explained so, and by a shaded triangle's colour at a neighbour
const TIE = 2;                     // units of depth
const EXACT_FUNCTIONS = ["EQUAL", "NOT_EQUAL"];        // a second pass has to meet the depths of its first
/** @type {Record<string, string>} */
const BY_VERDICT = { culled: "cull", scissored: "scissor" };
const CHANNELS = /** @type {const} */ (["r", "g", "b", "a"]);
export const NEIGHBOURS = [[-1, 0], [1, 0], [0, -1], [0, 1], [-1, -1], [1, -1], [-1, 1], [1, 1]];

/** @type {(one: Colour, other: Colour) => number} */
export const apart = (one, other) => Math.max(...CHANNELS.map(c => Math.abs(one[c] - other[c])));
/** @type {(entry: Entry) => boolean} */
const isDrawn = ({ verdict }) => verdict === "drawn";
/** @type {(a: Spot, b: Spot, c: Spot) => number} */
const cross = ([ax, ay], [bx, by], [cx, cy]) => (bx - ax) * (cy - ay) - (by - ay) * (cx - ax);
/** @type {(x: number, y: number) => Spot} */
const centre = (x, y) => [256 * x + 128, 256 * y + 128];
/** @type {(four: number[]) => Colour} */
const rgba = ([r, g, b, a]) => ({ r, g, b, a });
/** @type {(edge: Edge) => string} */
const nameOf = edge => edge.map(String).sort().join(" ");

// Whether a place lies on an edge
/** @type {(at: Spot, edge: Edge) => boolean} */
export function liesOn(at, [u, v]) {
  const isBetween = [0, 1].every(axis => Math.min(u[axis], v[axis]) <= at[axis] && at[axis] <= Math.max(u[axis], v[axis]));
  return String(u) !== String(v) && isBetween && cross(u, v, at) === 0;
}

/** @type {(count: number, size: number, from?: number) => Generator<number[], void>} */
function* subsets(count, size, from = 0) {
  if (!size) yield [];
  else for (let i = from; i <= count - size; i++) for (const rest of subsets(count, size - 1, i + 1)) yield [i, ...rest];
}

export class Reasons {
  /** @type {Map<string, number> | null} */ edges = null;
  /** @type {Reach[][] | null} */ rowsOf = null;

  /** @param {Its} its */
  constructor({ event, states, width, height, there, isAlike, entries }) {
    const { enable, rgb, alpha, mask } = states.blend;
    this.event = event;
    this.width = width;
    this.height = height;
    this.there = there;
    this.isAlike = isAlike;
    this.entries = entries;
    this.depth = states.depth;
    this.isBlended = enable;
    /** @type {Blending} */ this.state = { blend: enable, rgb, alpha, mask, factor: rgba(states.factor.color) };
    this.order = event.indices ?? event.vertices.map((_, i) => i);
  }

  // [kind, whether OpenGL leaves it open] where the card drew a colour that is off by more than 1; null where its neighbours are to be asked
  /** @type {(x: number, y: number, drawn: Colour) => Reason | null} */
  of(x, y, drawn) {
    const entries = this.entries(x, y), gap = apart(entries[entries.length - 1]?.after ?? this.there(x, y), drawn);
    if (this.isBlended && gap <= entries.filter(isDrawn).length) return ["adds up", false];
    return gap <= NEAR ? ["by 2", false] : this.byEntries(x, y, entries.slice(-MOST_WEIGHED), drawn);
  }

  /** @type {(source: Colour, there: Colour) => Colour} */
  blended(source, there) {
    const [r, g, b, a] = channelsOf({ source, before: there, after: there }, this.state).map(([, , value]) => value);
    return { r, g, b, a };
  }

  // ---- By the triangles that cover the pixel: the fewest that are drawn where they shouldn't be, or aren't where they should
  /** @type {(x: number, y: number, entries: Entry[], drawn: Colour) => Reason | null} */
  byEntries(x, y, entries, drawn) {
    const best = this.fewest(entries, this.there(x, y), drawn);
    if (!best) return null;
    if (!best.length) return ["by more", false];                  // drawn as is right, on what differed before
    const [{ verdict }] = best;
    if (BY_VERDICT[verdict]) return [BY_VERDICT[verdict], false];
    if (verdict === "depthfailed" || this.depth.enable) return [entries.some(entry => this.isTie(entry, x, y)) ? "depth tie" : "depth test", false];
    const isHole = apart(drawn, this.there(x, y)) === 0;
    return ["coverage", best.some(({ triangle }) => this.isOpen(Number(triangle), x, y, isHole))];
  }

  /** @type {(entries: Entry[], there: Colour, drawn: Colour) => Entry[] | null} */
  fewest(entries, there, drawn) {
    for (let size = 0; size <= entries.length; size++) {
      for (const others of subsets(entries.length, size)) {
        const made = entries.reduce((colour, entry, i) => isDrawn(entry) !== others.includes(i) ? this.blended(entry.source, colour) : colour, there);
        if (apart(made, drawn) <= NEAR) return others.map(i => entries[i]);
      }
    }
    return null;
  }

  // Whether a rounding decides the depth test of an entry: not where both have the same depth stored and the triangle's is one all over
  /** @type {(entry: Entry, x: number, y: number) => boolean} */
  isTie({ depth, triangle }, x, y) {
    if (!depth || Math.abs(depth.source - depth.before) > TIE || EXACT_FUNCTIONS.includes(this.depth.func)) return false;
    return !this.isAlike(x, y) || new Set(this.corners(Number(triangle)).map(({ z }) => z)).size > 1;
  }

  // ---- By those of its neighbours: a triangle that covers one of them alone is drawn here, one more, or in the last one's place
  /** @type {(x: number, y: number, drawn: Colour) => Reason} */
  byNeighbours(x, y, drawn) {
    const entries = this.entries(x, y), own = new Set(entries.map(({ triangle }) => triangle)), shown = entries.filter(isDrawn), there = this.there(x, y);
    const top = shown[shown.length - 1]?.after ?? there, most = this.event.interp === "flat" ? NEAR : NEARBY;
    for (const [triangle, source] of [...this.near(x, y), ...this.touching(x, y)]) {
      if (own.has(triangle)) continue;
      for (const [isMore, below] of /** @type {[boolean, Colour][]} */ ([[true, top], [false, there]])) {
        if (apart(this.blended(source, below), drawn) <= most) return ["coverage", this.isOpen(triangle, x, y, isMore && shown.length > 0)];
      }
    }
    return shown.length ? ["by more", false] : ["coverage", false];
  }

  // The triangles that are drawn at its neighbours, each with its colour there
  /** @type {(x: number, y: number) => [triangle: number, source: Colour][]} */
  near(x, y) {
    const inside = NEIGHBOURS.map(([i, j]) => [x + i, y + j]).filter(([u, v]) => u >= 0 && v >= 0 && u < this.width && v < this.height);
    return inside.flatMap(([u, v]) => this.entries(u, v).filter(isDrawn).map(({ triangle, source }) => /** @type {[number, Colour]} */ ([Number(triangle), source])));
  }

  // The triangles on whose edges its centre lies, each with its colour there
  /** @type {(x: number, y: number) => [triangle: number, source: Colour][]} */
  touching(x, y) {
    const at = centre(x, y), here = this.rows()[y].filter(({ left, right, edges }) => left <= at[0] && at[0] <= right && edges.some(edge => liesOn(at, edge)));
    return here.map(({ triangle, edges }) => /** @type {[number, Colour]} */ ([triangle, this.source(triangle, edges, at)]));
  }

  // For each row of the target the triangles that reach its centres
  /** @type {() => Reach[][]} */
  rows() {
    if (this.rowsOf) return this.rowsOf;
    /** @type {Reach[][]} */
    const rows = this.rowsOf = Array.from({ length: this.height }, () => []);
    for (let triangle = 0; triangle < Math.floor(this.order.length / 3); triangle++) {
      const edges = this.edgesOf(triangle), [xs, ys] = [0, 1].map(axis => edges.map(([start]) => start[axis]));
      const [a, b, c] = edges.map(([start]) => start);
      if (!cross(a, b, c)) continue;
      const end = Math.min(this.height, Math.floor((Math.max(...ys) - 128) / 256) + 1), its = { triangle, left: Math.min(...xs), right: Math.max(...xs), edges };
      for (let y = Math.max(0, Math.floor((Math.min(...ys) + 127) / 256)); y < end; y++) rows[y].push(its);
    }
    return rows;
  }

  // The colour of a triangle at a place on one of its edges
  /** @type {(triangle: number, edges: Edge[], at: Spot) => Colour} */
  source(triangle, edges, at) {
    const colours = this.corners(triangle).map(({ color }) => color);
    if (this.event.interp === "flat") return rgba(colours[0]);
    const weights = [edges[1], edges[2], edges[0]].map(([start, end]) => Math.abs(cross(start, end, at))), whole = weights[0] + weights[1] + weights[2];
    return rgba([0, 1, 2, 3].map(c => Math.floor(weights.reduce((sum, weight, i) => sum + weight * colours[i][c], 0) / whole + 0.5)));
  }

  // ---- Edges
  /** @type {(triangle: number) => Vertex[]} */
  corners(triangle) { return [0, 1, 2].map(k => this.event.vertices[this.order[3 * triangle + k]]); }

  /** @type {(triangle: number) => Edge[]} */
  edgesOf(triangle) {
    const [a, b, c] = this.corners(triangle).map(({ x, y }) => /** @type {Spot} */ ([snap(x), snap(y)]));
    return [[a, b], [b, c], [c, a]];
  }

  // Whether the pixel's centre lies on an edge of a triangle, so that OpenGL leaves its coverage open. Of two triangles at an edge one has it: that
  // neither or both are drawn isn't left open
  /** @type {(triangle: number, x: number, y: number, isNoneOrBoth: boolean) => boolean} */
  isOpen(triangle, x, y, isNoneOrBoth) {
    const at = centre(x, y), touched = this.edgesOf(triangle).filter(edge => liesOn(at, edge));
    return touched.length > 0 && !(isNoneOrBoth && touched.some(edge => Number(this.shared().get(nameOf(edge))) > 1));
  }

  // How many triangles of the draw have an edge
  /** @type {() => Map<string, number>} */
  shared() {
    if (this.edges) return this.edges;
    /** @type {Map<string, number>} */
    const edges = this.edges = new Map();
    for (let triangle = 0; triangle < Math.floor(this.order.length / 3); triangle++)
      for (const edge of this.edgesOf(triangle)) edges.set(nameOf(edge), (edges.get(nameOf(edge)) ?? 0) + 1);
    return edges;
  }
}
