// The triangles of a draw, as the capture's file has them: { interp, vertices: [[x, y, depth, [r, g, b, a]], ..], indices }, places in 1/65536 pixel. Where interp is
// "picture" there is its box too, picture: [left, top, width, height] in pixels, and what stands for colours is null.

import { snap } from "./snapping.js";

/** @typedef {import("./types").Mesh} Mesh */
/** @typedef {import("./types").Point} Point */
/** @typedef {import("./types").State} State */

const PIXEL = 65_536, SNAP = 256;        // in 1/65536 pixel; corners are snapped to 1/256 pixel before anything is asked of a triangle

/** @type {(mesh: Mesh) => number} */
const cornersOf = ({ vertices, indices }) => indices?.length ?? vertices.length;
/** @type {(mesh: Mesh) => number} */
export const countOf = mesh => Math.floor(cornersOf(mesh) / 3);
/** @type {(mesh: Mesh) => number} */
export const leftOver = mesh => cornersOf(mesh) % 3;
/** @type {(mesh: Mesh, corner: number) => number} */
export const vertexAt = ({ indices }, corner) => indices ? indices[corner] : corner;
/** @type {(mesh: Mesh, number: number) => Point} */
export const placeOf = ({ vertices }, number) => [vertices[number][0] / PIXEL, vertices[number][1] / PIXEL];

// The three corners of a triangle in pixels
/** @type {(mesh: Mesh, triangle: number) => Point[]} */
export const trianglePlaces = (mesh, triangle) => [0, 1, 2].map(i => placeOf(mesh, vertexAt(mesh, 3 * triangle + i)));

// Twice the area with its sign, in squares of 1/256 pixel: above zero where it runs clockwise on the target
/** @type {(mesh: Mesh, triangle: number) => number} */
export function cross(mesh, triangle) {
  const [[ax, ay], [bx, by], [cx, cy]] = [0, 1, 2].map(i => /** @type {number[]} */ (mesh.vertices[vertexAt(mesh, 3 * triangle + i)].slice(0, 2)).map(snap));
  return (bx - ax) * (cy - ay) - (by - ay) * (cx - ax);
}

// How it runs, which side it shows, and what it covers, in words
/** @type {(mesh: Mesh, triangle: number, state: State) => string} */
export function tellTriangle(mesh, triangle, state) {
  const twice = cross(mesh, triangle);
  if (twice === 0) return "area zero: it covers no pixel";
  const side = twice > 0 === state.ccw ? "back" : "front", area = Math.abs(twice) / 2 / SNAP / SNAP;
  const culled = state.cull === side ? ", culled" : "";
  return `${twice > 0 ? "clockwise" : "counter-clockwise"}: ${side}${culled}, area ${area < 0.01 ? "below 0.01" : +area.toFixed(2)}`;
}
