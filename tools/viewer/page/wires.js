// The outlines of all triangles of a draw, over what of the target is in sight.

import { contextOf } from "./elements.js";
import { countOf, trianglePlaces } from "./mesh.js";

/** @typedef {import("./types").Mesh} Mesh */
/** @typedef {import("./types").Point} Point */
/** @typedef {import("./types").Rect} Rect */
/** @typedef {import("./picture.js").Picture} Picture */

const WIDTH = 1, UNDER = 2;              // pixels of the page: a light line on a thin dark one, so that small triangles stay apart

/** @type {(canvas: HTMLCanvasElement, mesh: Mesh | null, picture: Picture) => void} */
export function drawWires(canvas, mesh, picture) {
  canvas.hidden = !mesh;
  if (!mesh) return;
  const seen = picture.visible(), ratio = devicePixelRatio, zoom = picture.zoom * ratio, [left, top, right, bottom] = seen;
  picture.place(canvas, seen);
  Object.assign(canvas, { width: Math.ceil((right - left) * zoom), height: Math.ceil((bottom - top) * zoom) });
  const at = contextOf(canvas), path = pathOf(mesh, seen, ([x, y]) => [(x - left) * zoom, (y - top) * zoom]);
  for (const [width, style] of /** @type {[number, string][]} */ ([[UNDER, "#000a"], [WIDTH, "#fff"]])) {
    Object.assign(at, { lineWidth: width * ratio, strokeStyle: style, lineJoin: "round" });
    at.stroke(path);
  }
}

// Those that reach into what is in sight
/** @type {(mesh: Mesh, sight: Rect, toCanvas: (place: Point) => Point) => Path2D} */
function pathOf(mesh, [left, top, right, bottom], toCanvas) {
  const path = new Path2D();
  for (let triangle = 0; triangle < countOf(mesh); triangle++) {
    const places = trianglePlaces(mesh, triangle), xs = places.map(([x]) => x), ys = places.map(([, y]) => y);
    if (Math.max(...xs) < left || Math.min(...xs) > right || Math.max(...ys) < top || Math.min(...ys) > bottom) continue;
    const [one, two, three] = places.map(toCanvas);
    path.moveTo(...one);
    path.lineTo(...two);
    path.lineTo(...three);
    path.closePath();
  }
  return path;
}
