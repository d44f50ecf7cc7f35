// The triangles of the draw at which the frame stands: outlined in the image, and a table of their corners beside it.

import { frame } from "./frame.js";
import { draw } from "./run.js";
import { $, element, swatch } from "./elements.js";
import { List } from "./list.js";
import { countOf, leftOver, placeOf, tellTriangle, trianglePlaces, vertexAt } from "./mesh.js";
import { shown } from "./shown.js";
import { drawWires } from "./wires.js";
import { figures } from "./words.js";

/** @typedef {import("./types").Four} Four */
/** @typedef {import("./types").FrameEvent} FrameEvent */
/** @typedef {import("./types").Mesh} Mesh */
/** @typedef {import("./picture.js").Picture} Picture */

const ROWS = 4;                          // of a triangle: what is told of it, and its corners
/** @type {List<number>} */
const list = new List($("vertices"), 24, rowOf, { onKey: (key, i) => /^(ArrowUp|ArrowDown|Enter)$/.test(key) && (mark(i), true) });
/** @type {Mesh | null} */
let mesh = null;
/** @type {number | null} */
let its = null;                          // the draw whose mesh it is
let marked = -1;                         // the row whose corner is marked
/** @type {Picture | null} */
let picture = null;

export const areShown = () => $("wires-shown").checked;

// Of the last event, where they are wanted; what came of another event meanwhile is dropped
/** @type {(shownIn: Picture) => Promise<void>} */
export async function showTriangles(shownIn) {
  picture = shownIn;
  const event = frame.events[frame.position - 1], wanted = areShown() && event?.kind === "draw" ? event.number : null;
  if (wanted !== its) {
    its = wanted;
    mesh = null;
    marked = -1;
    const found = wanted ? await draw(wanted) : null;
    if (wanted !== its) return;
    mesh = found;
  }
  $("mesh").hidden = !areShown();
  $("mesh-told").textContent = told(event);
  list.show(mesh ? Array.from({ length: ROWS * countOf(mesh) }, (_, i) => i) : []);
  if (shown.outlined?.event === wanted) list.choose(ROWS * Number(shown.outlined?.triangle));
  redraw();
}

// Another capture: nothing is kept of the one before
export function forgetTriangles() {
  [mesh, its, marked] = [null, null, -1];
}

// The image has been moved, or is shown larger
export function redraw() {
  if (!picture) return;
  drawWires($("wires"), areShown() ? mesh : null, picture);
  const corner = mesh && marked >= 0 && marked % ROWS ? placeOf(mesh, vertexOf(mesh, marked)) : null;
  picture.setMark(areShown() ? corner : null);
}

/** @type {(event?: FrameEvent) => string} */
function told(event) {
  if (event?.kind !== "draw") return "the last event is no draw";
  if (!mesh) return "the capture's file is too large to be read for them";
  const left = leftOver(mesh), much = countOf(mesh).toLocaleString("en");
  return `${much}${coloured(mesh)}${left ? `; ${left === 1 ? "a corner is" : "2 corners are"} left over` : ""}`;
}

/** @type {(mesh: Mesh) => string} */
function coloured({ interp, picture = [0, 0, 0, 0] }) {
  if (interp !== "picture") return interp === "flat" ? ", each of its first corner's colour" : ", linear";
  const [left, top, width, height] = picture;
  return `, with a picture of ${width} by ${height} at ${left} ${top}`;
}

/** @type {(mesh: Mesh, i: number) => number} */
const vertexOf = (mesh, i) => vertexAt(mesh, 3 * Math.floor(i / ROWS) + i % ROWS - 1);

// While another draw is read the rows of the one before may still be asked for
/** @type {(i: number) => HTMLElement} */
function rowOf(i) {
  if (!mesh) return element("div", "row vertex");
  const triangle = Math.floor(i / ROWS), row = element("div", `row vertex${i % ROWS ? "" : " triangle"}`);
  row.setAttribute("role", "option");
  row.setAttribute("aria-selected", i === marked);
  row.addEventListener("click", () => { list.chosen = i; mark(i); });
  if (i % ROWS === 0) {
    row.append(element("span", "number", String(triangle)), element("span", "what", shown.states.with ? tellTriangle(mesh, triangle, shown.states.with) : ""));
    return row;
  }
  const number = vertexOf(mesh, i), [, , depth, four] = mesh.vertices[number];
  row.append(element("span", "number", String(number)), ...placeOf(mesh, number).map(at => element("span", "at", String(+at.toFixed(5)))),
    four ? cornerColour(four) : element("span", "cell"), element("span", "deep", depth === null || !shown.hasDepth ? "" : String(depth)));
  return row;
}

/** @type {(four: Four) => HTMLElement} */
function cornerColour([r, g, b, a]) {
  return element("span", "cell", swatch({ r, g, b, a }), figures({ r, g, b, a }));
}

// A corner is marked in the image, and a triangle outlined
/** @type {(i: number) => void} */
function mark(i) {
  marked = i;
  if (mesh) picture?.setOutline(trianglePlaces(mesh, Math.floor(i / ROWS)));
  list.draw();
  redraw();
}
