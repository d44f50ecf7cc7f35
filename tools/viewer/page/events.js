// The list of events with the markers as heads of groups, and the marks over the slider.

import { $, contextOf, element } from "./elements.js";
import { frame } from "./frame.js";
import { List } from "./list.js";
import { drawOrigin, originOf } from "./origin.js";
import { shown } from "./shown.js";
import { waysFrom } from "./tabs.js";
import { hasThumbnail, thumbnailOf } from "./thumbnails.js";
import { describeEvent } from "./words.js";

/** @typedef {import("./types").FrameEvent} FrameEvent */
/** @typedef {{ event: FrameEvent, depth: number, members: number[] | null }} Row */

/** @type {List<Row>} */
const list = new List($("event-list"), 26, rowOf, { onKey: press, look: lookOf });
/** @type {Set<number>} */
const folded = new Set();
let filter = "", at = -1;              // at: the position that was drawn last
/** @type {(event: FrameEvent | null) => void} */
let tellHover = () => {};
export const WRITES = new Set(["clear", "draw", "depth_clear"]);    // kinds that can write pixels

// Told of the event under the pointer, and null where there is none
/** @type {(told: (event: FrameEvent | null) => void) => void} */
export const onHoverEvent = told => { tellHover = told; };

/** @type {(text: string) => void} */
export function setFilter(text) {
  filter = text.trim().toLowerCase();
  listEvents();
}

// Another pixel, or another history of it: a filter that asks for its writers finds others
export function listWriters() {
  if (words().includes("wrote")) listEvents();
}

// The event to which the filter leads: the last one of the call whose number it is, else the first that is found
export function foundFirst() {
  const own = frame.events.filter(event => String(frame.sources.get(event.number)?.event) === filter);
  return filter ? (own.at(-1) ?? frame.events.find(matches))?.number : undefined;
}

export function listEvents() {
  if (!frame.events.length) folded.clear();
  group();
  const rows = frame.events.filter(filter ? matches : isUnfolded).map(event => rowIn(event, groupsOf(event)));
  at = -1;
  $("found").textContent = filter ? rows.length ? `${rows.length.toLocaleString("en")} found` : "nothing found" : "";
  drawOff();
  list.show(rows);
}

/** @type {Map<number, number[]>} */
const heads = new Map();               // of each event the markers of its groups, from the outermost on
/** @type {Map<number, number[]>} */
const members = new Map();             // of each marker the events of its group
/** @type {(event: FrameEvent) => number[]} */
const groupsOf = event => heads.get(event.number) ?? [];
/** @type {(event: FrameEvent, groups: number[]) => Row} */
const rowIn = (event, groups) => ({ event, depth: groups.length, members: event.kind === "marker" ? members.get(event.number) ?? [] : null });

// A marker's group goes on to the next marker, or to the last call of a captured frame's group
function group() {
  heads.clear();
  members.clear();
  /** @type {{ number: number, until: number | null }[]} */
  let open = [];
  for (const event of frame.events) {
    const { event: call = undefined, until = null } = frame.sources.get(event.number) ?? {};
    open = open.filter(head => head.until === null ? event.kind !== "marker" : call === undefined || call <= head.until);
    heads.set(event.number, open.map(head => head.number));
    for (const head of open) if (event.kind !== "marker") members.get(head.number)?.push(event.number);
    if (event.kind !== "marker") continue;
    members.set(event.number, []);
    open.push({ number: event.number, until });
  }
}

/** @type {(event: FrameEvent) => boolean} */
const isUnfolded = event => !groupsOf(event).some(head => folded.has(head));
const words = () => filter.split(/\s+/);

// All words of the filter: `off`, `wrote` (the chosen pixel), or what stands in the row or its group's name
/** @type {(event: FrameEvent) => boolean} */
function matches(event) {
  const source = frame.sources.get(event.number), names = groupsOf(event).map(head => frame.events[head - 1].name);
  const text = `${event.number} ${event.kind} ${event.words.join(" ")} ${names.join(" ")} ${source ? `${source.event} ${source.name}` : ""}`.toLowerCase();
  return words().every(word => word === "off" ? !event.on : word === "wrote" ? shown.writers.has(event.number) : text.includes(word));
}

function drawOff() {
  const { off, canUndo } = frame;
  $("off-bar").hidden = !off.length && !canUndo;
  $("off-told").textContent = `${off.length || "no"} event${off.length === 1 ? "" : "s"} off`;
  $("all-on").hidden = !off.length;
  $("undo").hidden = !canUndo;
}
$("all-on").onclick = () => frame.switchOver(frame.off, true);
$("undo").onclick = () => frame.undo();

export function drawEvents() {
  if (at !== frame.position) list.choose(list.items.findIndex(row => row.event.number === frame.position));
  at = frame.position;
  list.draw();
  drawOrigin(frame.sources.get(at), waysFrom(at));
}

// What a move changes of a row
/** @type {(row: Row) => string} */
function lookOf({ event: { number } }) {
  return `${Math.sign(number - frame.position)} ${shown.writers.has(number)} ${hasThumbnail(number)}`;
}

/** @type {(row: Row) => HTMLElement} */
function rowOf({ event, members, depth }) {
  const row = element("div", `row event ${event.kind}`);
  const mark = { off: !event.on, inside: depth > 0, ahead: event.number > frame.position, hit: shown.writers.has(event.number) };
  for (const [name, holds] of Object.entries(mark)) row.classList.toggle(name, Boolean(holds));
  row.setAttribute("role", "option");
  row.setAttribute("aria-selected", event.number === frame.position);
  row.dataset.number = String(event.number);
  row.append(checkBox(event, members ?? []), element("span", "number", String(event.number)), ...thumbnailOf(event.number), ...(members ? headOf(event) : describeEvent(event)));
  const source = frame.sources.get(event.number);
  if (source) row.append(Object.assign(element("span", "source", `${source.event} ${source.name}`), { title: `The program's ${originOf(source).join("\n")}` }));
  if (depth > 1) row.style.paddingLeft = `${10 + 10 * depth}px`;
  row.addEventListener("click", () => frame.goTo(event.number));
  row.addEventListener("pointerenter", () => tellHover(event));
  row.addEventListener("pointerleave", () => tellHover(null));
  return row;
}

// In the list, up and down go from row to row; Space switches the row's event or group, Enter folds a group
/** @type {(key: string, row: Row) => boolean} */
function press(key, { event, members }) {
  if (key === "ArrowUp" || key === "ArrowDown") frame.goTo(event.number);
  else if (key === " ") switchRow(event, members ?? []);
  else if (key === "Enter" && members) fold(event);
  else return false;
  return true;
}

/** @type {(event: FrameEvent, members: number[]) => void} */
function switchRow(event, members) {
  if (members.length) frame.switchOver(members, !members.every(number => frame.events[number - 1].on));
  else frame.switchOver([event.number], !event.on);
}

// Of a group's head: the whole group
/** @type {(event: FrameEvent, members: number[]) => HTMLElement} */
function checkBox(event, members) {
  const box = element("input"), on = members.filter(number => frame.events[number - 1].on).length;
  box.type = "checkbox";
  box.tabIndex = -1;
  box.checked = members.length ? on === members.length : event.on;
  box.indeterminate = on > 0 && on < members.length;
  box.title = members.length ? "Switch the whole group" : "Switch this event (Space for the last one)";
  box.setAttribute("aria-label", members.length ? `all of ${event.name} on` : `event ${event.number} on`);
  box.addEventListener("click", click => {
    click.stopPropagation();
    list.forget();
    list.element.focus({ preventScroll: true });
    frame.switchOver(members.length ? members : [event.number], box.checked);
  });
  return box;
}

/** @type {(event: FrameEvent) => HTMLElement[]} */
function headOf(event) {
  const button = element("button", "fold", folded.has(event.number) ? "▸" : "▾");
  button.tabIndex = -1;
  button.setAttribute("aria-label", "Fold");
  button.addEventListener("click", click => {
    click.stopPropagation();
    list.element.focus({ preventScroll: true });
    fold(event);
  });
  return [button, Object.assign(element("span", "what", event.name || "(no name)"), { title: event.name ?? "" })];
}

/** @type {(event: FrameEvent) => void} */
function fold(event) {
  if (!folded.delete(event.number)) folded.add(event.number);
  listEvents();
  drawEvents();
  list.choose(list.items.findIndex(row => row.event === event));      // also where the frame is still on its way there
}

// A mark for each event: low for states, higher for draws, highest for those that wrote the chosen pixel. The first two are painted anew for other events alone
/** @type {[colour: string, tall: number, wide: number][]} */
const RANKS = [["--line-2", 4, 1], ["--ink-2", 8, 1], ["--accent", 12, 2]];
const ticks = $("ticks"), marks = document.createElement("canvas");

export function drawTicks() {
  marks.width = ticks.clientWidth;
  marks.height = ticks.height;
  for (const rank of [0, 1]) mark(marks, frame.events.filter(({ kind }) => WRITES.has(kind) === Boolean(rank)), rank);
  drawWriters();
}

export function drawWriters() {
  ticks.width = marks.width;
  if (marks.width) contextOf(ticks).drawImage(marks, 0, 0);
  mark(ticks, frame.events.filter(({ number }) => shown.writers.has(number)), 2);
}

/** @type {(canvas: HTMLCanvasElement, events: FrameEvent[], rank: number) => void} */
function mark(canvas, events, rank) {
  const { width, height } = canvas, at = contextOf(canvas), style = getComputedStyle(ticks), [name, tall, wide] = RANKS[rank];
  const place = /** @param {FrameEvent} event */ event => Math.round(8 + (width - 16) * event.number / frame.last) - 1;
  const colour = style.getPropertyValue(name), off = style.getPropertyValue("--off");
  let x = -1;
  /** @type {boolean | null} */
  let was = null;
  for (const event of events) {
    if (place(event) === x && event.on === was) continue;     // one mark for many at one place
    [x, was] = [place(event), event.on];
    at.fillStyle = event.on ? colour : off;
    at.fillRect(x, height - tall, wide, tall);
  }
}
new ResizeObserver(() => drawTicks()).observe(ticks);
