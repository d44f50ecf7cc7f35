// Another capture beside the one that is shown: what differs in both, and its picture in step, where the events of both are paired.

import { ask, differing, putBeside, wherePicturesDiffer } from "./run.js";
import { notice, tellFault } from "./log.js";
import { $, contextOf, element } from "./elements.js";
import { frame } from "./frame.js";
import { List } from "./list.js";
import { paint } from "./paint.js";
import { shown } from "./shown.js";

/** @typedef {import("./types").Image} Image */
/** @typedef {[sort: string, i: number, j: number, text: string]} Told */
// Another capture: its size and last position, how many events of each sort differ, what is told of them, and [i, j, count] of those that both have, or one alone
/** @typedef {{ name: string, size: [width: number, height: number], last: number, counts: Record<string, number>, told: Told[], left_out: number, steps: [number, number, number][] }} Beside */
/** @typedef {{ compare: (image: Image | null) => void }} Hands */

const ROW = 22, MOST_ROWS = 6;         // pixels of a row, and rows of the list that are in sight at once
/** @type {List<Told>} */
const list = new List($("differences"), ROW, rowOf, { onKey: (key, item) => ["ArrowUp", "ArrowDown", "Enter"].includes(key) && (goToPair(item[1], item[2]), true) });
/** @type {Beside | null} */
let other = null;
/** @type {number[]} */
let theirs = [];                       // where it stands at each position of the frame
/** @type {[i: number, j: number] | null} */
let wanted = null;                     // a pair that was chosen
/** @type {[i: number, j: number] | null} */
let first = null;                      // at which the pictures first differ
let asked = "", turns = 0;
/** @type {Image | null} */
let image = null;
/** @type {Hands} */
let hands;

// `hands` of the page: compare(image) has the image beside compared, or none any more
/** @type {(given: Hands) => void} */
export function followBeside(given) {
  hands = given;
  $("beside-close").onclick = () => closeBeside().catch(tellFault);
  $("beside-first").onclick = () => first && goToPair(...first);
}

// The capture that the server was started with, or one that was chosen or dropped
/** @type {(file?: File | null) => Promise<void>} */
export const openBeside = async (file = null) => {
  try {
    const found = file ? await putBeside(file) : await differing();
    if (found) begin(found);
  } catch (fault) {
    tellFault(fault);
  }
};

/** @type {(isOver?: boolean) => Promise<void>} */
export async function closeBeside(isOver = false) {
  if (!other) return;
  turns++;
  other = image = null;
  $("stage-beside").hidden = $("beside").hidden = $("differences").hidden = true;
  hands.compare(null);
  if (!isOver) await putBeside(null);
}

/** @type {(found: Beside) => void} */
function begin(found) {
  [other, theirs, wanted, first, asked] = [found, placesOf(found), null, null, ""];
  const { counts, told, left_out } = found, sorts = Object.keys(counts).filter(sort => counts[sort] || sort === "same");
  $("beside-told").textContent = sorts.map(sort => `${counts[sort].toLocaleString("en")} ${sort}`).join(", ") + (left_out ? `; the first ${told.length.toLocaleString("en")} are listed` : "");
  $("beside-pictures").textContent = "";
  $("beside-first").hidden = true;
  $("beside").hidden = $("stage-beside").hidden = false;
  $("differences").hidden = !told.length;
  $("differences").style.height = `${ROW * Math.min(MOST_ROWS, told.length)}px`;
  list.show(told);
  follow();
  tellPictures().catch(tellFault);
}

// Of each position of the frame that is shown where the other stands: what it alone has behind there comes with the next event that both have, and at the end all of it
/** @type {(found: { steps: Beside["steps"], last: number }) => number[]} */
export function placesOf({ steps, last }) {
  const places = [0];
  let at = 0;
  for (const [i, j, count] of steps) {
    for (let k = 0; i && k < count; k++) places[i + k] = at = j ? j + k : at;
    if (!i) at = j + count - 1;
  }
  places[places.length - 1] = last;
  return places;
}

/** @type {(told: Told) => HTMLElement} */
function rowOf([sort, i, j, text]) {
  const row = element("div", `row ${sort}`, element("span", "sort", sort), element("span", "numbers", sort === "went" ? `${i}` : sort === "came" ? `– ${j}` : `${i} ${j}`), element("span", "what", text));
  row.title = `${sort}: ${text}`;
  row.onclick = () => goToPair(i, j);
  return row;
}

/** @type {(i: number, j: number) => void} */
function goToPair(i, j) {
  wanted = [i, j];
  if (frame.position === i) follow();
  else frame.goTo(i);
}

async function tellPictures() {
  const its = other, [head, ...lines] = await wherePicturesDiffer();
  if (its !== other) return;
  const pair = head.match(/^pictures first differ at (\d+) and (\d+)$/);
  $("beside-pictures").textContent = [head, ...lines.slice(0, 1)].join(": ").replace("images: ", "");
  $("beside-pictures").title = [head, ...lines].join("\n");
  $("beside-first").hidden = !pair;
  first = pair && [+pair[1], +pair[2]];
}

// The other frame's picture where it is paired with the position that is shown
export async function follow() {
  const { position, part } = frame, { after, isDragged } = shown;
  if (!other || !after || isDragged) return;
  const to = wanted?.[0] === position ? wanted[1] : theirs[position] ?? other.last, isAlike = other.size[0] === after.width && other.size[1] === after.height;
  const now = `${position} ${to} ${isAlike ? part : ""}`;
  if (now === asked) return;
  const its = ++turns;
  asked = now;
  try {
    const replies = await ask([`goto ${to}`, "show"], isAlike ? part : null, "other"), found = replies[replies.length - 1].image;
    if (its !== turns || !other) return;
    if (!found) return void notice(`${other.name}: ${replies.find(({ text }) => !text.startsWith("at "))?.text}`, true);
    image = { ...found, name: `${other.name} at ${to}` };
    $("beside-name").textContent = `${other.name} at ${to}`;
    draw(image);
    hands.compare(isAlike ? image : null);
  } catch (fault) {
    asked = "";
    tellFault(fault);
  }
}

/** @type {(image: Image) => void} */
function draw(image) {
  const canvas = $("image-beside"), pixels = new ImageData(image.columns, image.rows);
  Object.assign(canvas, { width: image.columns, height: image.rows });
  paint(pixels.data, image.bytes, null, shown.channels);
  contextOf(canvas).putImageData(pixels, 0, 0);
  place();
}

// As large as the picture that is shown, and the same part of it in sight
export function place() {
  if (!image || $("stage-beside").hidden) return;
  const { zoom } = shown, { left, top, every, columns, rows, width, height } = image, sheet = $("sheet-beside"), size = { width: `${width * zoom}px`, height: `${height * zoom}px` };
  Object.assign(sheet.style, size);
  Object.assign($("image-beside").style, { left: `${left * zoom}px`, top: `${top * zoom}px`, width: `${columns * every * zoom}px`, height: `${rows * every * zoom}px` });
  $("image-beside").classList.toggle("smooth", zoom * every < 1);
  Object.assign($("stage-beside"), { scrollLeft: $("stage").scrollLeft, scrollTop: $("stage").scrollTop });
}

// The channels that are shown are others
export const redrawBeside = () => image && !$("stage-beside").hidden && draw(image);
