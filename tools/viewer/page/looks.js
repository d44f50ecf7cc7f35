// The picture by the look that is chosen, an image, what differs or a map, and what is told of it.

import { greysBetween, tellDepths } from "./depths.js";
import { $, all, element, swatch } from "./elements.js";
import { colourOf, legendOf, nameOf } from "./fates.js";
import { frame } from "./frame.js";
import { colourAt, difference, isComparable } from "./image.js";
import { LOOKS } from "./maps.js";
import { tellPart } from "./parts.js";
import { Picture } from "./picture.js";
import { drawHistogram, fit, kindOf, lightsOf, rangeOf, setRange, valuesInSight } from "./range.js";
import { indexOf } from "./samples.js";
import { show, shown } from "./shown.js";
import { note } from "./thumbnails.js";
import { everyOf, figures } from "./words.js";

/** @typedef {import("./types").Chart} Chart */
/** @typedef {import("./types").Colour} Colour */
/** @typedef {import("./types").Difference} Difference */
/** @typedef {import("./types").Image} Image */
/** @typedef {import("./types").Look} Look */
/** @typedef {import("./types").Place} Place */
/** @typedef {import("./types").Range} Range */

/** @type {Look[]} */
const COMPARED = ["compared", "other", "mended"];      // of two pictures
const [stage, sheet, grid, scissor, box, cross, mark] = ["stage", "sheet", "grid", "scissor", "box", "cross", "mark"].map(id => $(id));
export const picture = new Picture({ stage, sheet, grid, scissor, box, cross, mark, outline: $("outline"), canvas: $("image") });
/** @type {Difference | null} */
let found = null;                                      // of what is shown
/** @type {{ after: Image, other: Image, by: number, found: Difference } | null} */
let made = null;                                       // the difference that was made last
/** @type {Image | null} */
let drawn = null;                                      // the image on the canvas, or behind a map
/** @type {Place | null} */
let hover = null;                                      // the pixel under the pointer

/** @type {(look: Look) => void} */
export function setLook(look) {
  const was = shown.look;
  show({ look });
  if (LOOKS.has(look) || LOOKS.has(was)) frame.wantMap(look, picture.visible());
  drawImage();
}

// What is shown: a map only when it is there, so that no button is lit over another picture
const lookNow = () => LOOKS.has(shown.look) && shown.map?.look !== shown.look ? "after" : shown.look;

/** @type {(look: Look) => Chart | null} */
const mapOf = look => LOOKS.has(look) ? shown.map : null;

export function drawImage() {
  const { before, states, pixel } = shown, look = lookNow(), map = mapOf(look), isCompared = COMPARED.includes(look);
  const after = look === "mended" ? shown.mended : shown.after;
  if (!after) return;
  const other = isCompared ? shown.other : before, isAlike = other && isComparable(after, other);
  found = isAlike && !map ? differenceOf(after, other, isCompared ? +$("tolerance").value : 0) : null;
  drawn = (look === "before" ? before : look === "other" ? shown.other : null) ?? after;
  drawLook(look, drawn, after, map);
  const state = states.with ?? states.next;
  picture.setScissor($("scissor-shown").checked && state?.scissor ? state.rect : null);
  if (pixel) picture.setCross(pixel.x, pixel.y);
  $("size").textContent = `${after.width} × ${after.height}`;
  drawOther(isCompared);
  $("difference").title = $("difference").textContent = tellFound(look, isCompared && other !== null && !isAlike);
  if (!shown.isDragged) $("part").textContent = tellPart(after);      // or the picture would move under the hand
  drawButtons(look);
  drawHover();
}

/** @type {(look: Look, image: Image, after: Image, map: Chart | null) => void} */
function drawLook(look, image, after, map) {
  const difference = look === "changed" || look === "compared" ? found : null, kind = kindOf(look), range = kind && $("range-shown").checked ? rangeOf(kind, map) : null;
  const lights = range && lightsOf(range), within = range ?? rangeOf(null, map);
  picture.show(image, { difference, isWhite: look === "compared", lights: kind === "image" ? lights : null });
  if (map) picture.showMap(range && look === "depth" ? { ...map, greys: greysBetween(map.values, range) } : map, colourOf(map, within));
  if (lights && kind === "difference" && difference) picture.showMap({ part: after, greys: difference.by.map(by => lights[by]) });
  drawLegend(map, within);
  drawRange(kind, range, map, image);
}

/** @type {(look: Look) => void} */
function drawButtons(look) {
  $("look-depth").hidden = !shown.hasDepth;
  for (const button of all("[data-look]")) {
    button.setAttribute("aria-checked", button.dataset.look === look);
    button.setAttribute("aria-busy", button.dataset.look === shown.look && look !== shown.look);
  }
  for (const button of all("[data-channel]")) button.setAttribute("aria-pressed", shown.channels[/** @type {keyof Colour} */ (button.dataset.channel)]);
}

// ---- What differs
// Of the same two images it stays the same: a pixel that is picked changes none
/** @type {(after: Image, other: Image, by: number) => Difference} */
function differenceOf(after, other, by) {
  if (made && made.after === after && made.other === other && made.by === by) return made.found;
  made = { after, other, by, found: difference(after, other, by) };
  return made.found;
}

// Where what the last event changed is there: its small picture
export function noteChange() {
  const { before, after } = shown;
  if (found && after && made?.after === after && made.other === before && frame.position) note(frame.position, after, found);
}

// Which pixels differ, where some do
export const differing = () => found?.count ? found.mask : null;

/** @type {(look: Look, isElsewhere: boolean) => string} */
function tellFound(look, isElsewhere) {
  const { after, isDragged, map } = shown;
  if (isDragged && after) return `${everyOf(after)} pixel, while the slider is dragged`;
  if (isElsewhere) return "another part of the target was pinned";
  if (LOOKS.has(look) && map) return look === "depth" ? tellDepths(map) : map.part.every > 1 ? `of ${everyOf(map.part)} pixel` : "";
  return found ? tellDifference(found, COMPARED.includes(look)) : "";
}

/** @type {(found: Difference, isCompared: boolean) => string} */
function tellDifference({ count, most, left, top, right, bottom, every, whole }, isCompared) {
  const { position, events } = frame, off = isCompared || !position || events[position - 1].on ? "" : "off: ", seen = every > 1 ? "shown " : whole ? "" : "fetched ";
  if (count === 0) return `${off}no ${seen}pixel ${isCompared ? "differs" : "changed"}`;
  return `${off}${count.toLocaleString("en")} ${seen}px ${isCompared ? `differ by ≤ ${most}` : "changed"}, ${left} ${top} to ${right} ${bottom}`;
}

// ---- Beside the picture
// What is compared with, and what it has at the chosen pixel
/** @type {(isCompared: boolean) => void} */
function drawOther(isCompared) {
  const { other, pixel } = shown, theirs = isCompared && pixel && other ? colourAt(other, pixel.x, pixel.y) : null;
  $("other").replaceChildren(...(other && theirs ? tellOther(other, theirs) : []));
  $("comparison").hidden = !isCompared;
  $("compared-with").textContent = other?.name ?? "nothing yet: pin this image, or open or drop one";
}

/** @type {(other: Image, colour: Colour) => (Node | string)[]} */
const tellOther = (other, colour) => [`${other.name} has`, element("br"), swatch(colour), ` ${other.hasAlpha === false ? figures(colour).replace(/ \d+$/, "") : figures(colour)}`];

// Black, white and the histogram of what is in sight
/** @type {(kind: string | undefined, range: Range | null, map: Chart | null, image: Image) => void} */
function drawRange(kind, range, map, image) {
  $("range").hidden = !range;
  if (!range || !kind) return;
  const its = map ?? { part: image, values: found?.by ?? [], bytes: image.bytes, channels: shown.channels }, inSight = valuesInSight(kind, its, picture.visible());
  for (const [i, id] of /** @type {const} */ (["black", "white"]).entries()) if (document.activeElement !== $(id)) $(id).value = String(range[i]);
  drawHistogram($("histogram"), inSight, range);
  $("range-told").textContent = `${inSight.least} to ${inSight.most} in sight`;
  $("fit-range").onclick = () => { fit(kind, inSight); drawImage(); };
  $("whole-range").onclick = () => { setRange(kind, null); drawImage(); };
  $("black").oninput = $("white").oninput = () => { setRange(kind, +$("black").value, +$("white").value); drawImage(); };
}

/** @type {(map: Chart | null, range: Range) => void} */
function drawLegend(map, range) {
  const named = map && map.look !== "depth" ? legendOf(map, range) : [];
  $("legend").replaceChildren(...named.map(({ colour: [r, g, b], count, name }) =>
    element("span", "", swatch({ r, g, b, a: 255 }), ` ${name} `, element("b", "", count.toLocaleString("en")))));
}

// ---- Under the pointer
/** @type {(place: Place | null) => void} */
export function hoverAt(place) {
  hover = place;
  drawHover();
}

function drawHover() {
  const colour = hover && drawn && colourAt(drawn, hover.x, hover.y), map = mapOf(lookNow());
  if (!hover || !colour) return void ($("hover").textContent = "\u00a0");
  const under = map ? tellUnder(map, hover) : [];
  $("hover").replaceChildren(element("span", "place", `${hover.x} ${hover.y}`), swatch(colour), ...[figures(colour), ...under].map(text => element("span", "", text)));
}

/** @type {(map: Chart, place: Place) => string[]} */
function tellUnder(map, place) {
  const at = indexOf(map.part, place);
  return at < 0 ? [] : [map.look === "depth" ? `depth ${map.values[at]}` : nameOf(map, map.values[at])];
}

// Another capture is shown: nothing of the one before
export function forgetImage() {
  [found, made, drawn, hover] = [null, null, null, null];
  picture.clear();
}
