// The pixel with its history, and how its chosen entry came about.

import { frame } from "./frame.js";
import { $, all, element, swatch } from "./elements.js";
import { List } from "./list.js";
import { shown } from "./shown.js";
import { sumOf } from "./sum.js";
import { figures, hex } from "./words.js";

/** @typedef {import("./types").Colour} Colour */
/** @typedef {import("./types").Entry} Entry */
/** @typedef {import("./types").Place} Place */

const ROW = 26, LINE = 15;            // pixels of the page: a row of the history, and each line more: of depths, and of colours where the column is narrow
const NARROW = 460;                   // where three colours have no room beside event, triangle and verdict
const PHONE = matchMedia("(max-width: 800px)");
/** @type {List<Entry>} */
const history = new List($("history"), ROW, entryRow, {
  onKey: (key, entry) => /^(ArrowUp|ArrowDown|Enter)$/.test(key) && (frame.goToEntry(entry), true),
  look: entry => `${Math.sign(entry.event - frame.position)} ${entry === shown.outlined}`,
});
let at = -1, isNarrow = true;              // the position that was drawn last
/** @type {Place | null} */
let seen = null;                           // and the pixel

export function drawPixel() {
  const { pixel, value, entries } = shown, { position } = frame;
  for (const id of ["colour", "history-head", "history", "sum", "writer-before", "writer-after"]) $(id).hidden = !pixel;
  $("hint").hidden = pixel !== null;
  if (!pixel || !value) return;
  $("place").textContent = `${pixel.x} ${pixel.y}`;
  $("colour").firstElementChild?.replaceWith(Object.assign(swatch(value.colour), { className: "swatch large" }));
  $("value").textContent = figures(value.colour);
  $("hex").textContent = hex(value.colour);
  $("depth-here").hidden = value.depth === null;
  $("depth-here").replaceChildren("depth ", element("b", "", String(value.depth)));
  const isDeep = entries.some(entry => entry.depth), height = ROW + LINE * (Number(isDeep) + Number(isNarrow));
  $("pixel").classList.toggle("deep", isDeep);
  $("pixel").classList.toggle("stacked", isNarrow);
  if (history.rowHeight !== height) history.forget();
  history.rowHeight = height;
  history.show(entries);
  drawSum();
  if (at !== position) history.choose(entries.findLastIndex(entry => entry.event <= position));
  at = position;
  if (PHONE.matches && seen !== pixel) $("history").scrollIntoView({ block: "nearest" });       // one thing stands below another there
  seen = pixel;
}

// The names of the columns stay over them
for (const [list, names] of [["history", "#history-head"], ["vertices", ".row.vertex.names"]]) {
  $(list).addEventListener("scroll", () => { all(names)[0].style.left = `${-$(list).scrollLeft}px`; });
}

new ResizeObserver(() => {
  isNarrow = $("pixel").clientWidth < NARROW;
  drawPixel();
}).observe($("pixel"));

/** @type {(entry: Entry) => HTMLElement} */
function entryRow(entry) {
  const { event, triangle, verdict, source, before, after, depth } = entry;
  const same = figures(before) === figures(after) && depth?.before === depth?.after;
  const row = element("div", `row entry ${verdict}`);
  const mark = { same, ahead: event > frame.position, outlined: entry === shown.outlined };
  for (const [name, holds] of Object.entries(mark)) row.classList.toggle(name, holds);
  row.setAttribute("role", "option");
  row.setAttribute("aria-selected", event === frame.position);
  row.dataset.event = String(event);
  row.append(element("span", "number", String(event)), element("span", "number", triangle === null ? "–" : String(triangle)),
    element("span", "verdict", verdict), cell(source, depth?.source), cell(before, depth?.before), cell(after, depth?.after));
  row.title = `event ${event}${triangle === null ? "" : `, triangle ${triangle}`}: ${verdict}${same ? ", nothing changed" : ""}`
    + (verdict === "depthfailed" ? `: the test didn't hold of depth ${depth?.source} against ${depth?.before}` : "")
    + (verdict === "discarded" ? ": the draw's picture has no colour there" : "");
  row.addEventListener("click", () => frame.goToEntry(entry));
  return row;
}

// A colour, and the depth under it where there is one
/** @type {(colour: Colour, depth?: number) => HTMLElement} */
function cell(colour, depth) {
  const made = element("span", "cell", swatch(colour), figures(colour));
  if (depth !== undefined) made.append(element("span", "depth", String(depth)));
  return made;
}

// Under the history: of the outlined entry, or of the last one of the event at which the frame stands
function drawSum() {
  const { entries, outlined, states, pixel } = shown, { position } = frame, own = entries.filter(entry => entry.event === position);
  const entry = own.find(one => one === outlined) ?? own[own.length - 1];
  $("sum").replaceChildren(...(entry && states.with && pixel ? sumOf(entry, states.with, pixel) : []).map(([channel, how, ours, theirs]) => {
    const line = element("div", "", ...(channel ? [element("b", "", channel.toUpperCase()), " "] : []), how, ...(channel ? [" → ", element("b", "", String(theirs))] : []));
    if (channel && ours !== theirs) line.append(element("strong", "differs", ` (this page makes ${ours} of it: please tell its makers)`));
    return line;
  }));
}
