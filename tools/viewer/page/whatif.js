// What if an event were another one, or stood elsewhere: a line, as it is typed, becomes a change of the capture. Its picture is drawn beside the run, compared, and kept as a capture.

import { changed, changedCapture } from "./run.js";
import { $ } from "./elements.js";
import { notice, tellFault } from "./log.js";

/** @typedef {import("./types").Change} Change */
/** @typedef {import("./types").FrameEvent} FrameEvent */
/** @typedef {import("./types").Image} Image */
/** @typedef {{ events: () => FrameEvent[], name: () => string, atEnd: () => Promise<Image | null | undefined>, compare: (made: { width: number, height: number, samples: Uint8Array }, before: Image) => void, show: (is: boolean) => void }} Hands */

/** @type {Record<string, string[]>} */
const MEMBERS = {
  clear: ["color"], factor: ["color"], raster: ["cull", "front_ccw", "scissor"], scissor: ["rect"], blend: ["enable", "rgb", "alpha", "mask"], draw: ["interp"],
  depth: ["enable", "write", "func"], depth_clear: ["depth"], marker: ["name"],
};
/** @type {Map<string, unknown>} */
const WORDS = new Map([["on", true], ["true", true], ["off", false], ["false", false]]);
/** @type {Change | null} */
let change = null;                     // that is shown
let turns = 0;                         // how many were typed

/** @type {(line: string) => boolean} */
export const isChange = line => /^\s*(set|move)\b/.test(line);

// { set, members } or { move, to }, its number then; throws a sentence where it is neither
/** @type {(line: string, events: FrameEvent[]) => Change} */
export function readChange(line, events) {
  const [word, ...rest] = line.trim().split(/\s+/), number = /** @type {(text: string) => number} */ text => {
    const event = events[Number(text) - 1];
    if (!event) throw new Error(`${line}: events are numbered from 1 to ${events.length}`);
    return event.number;
  };
  if (word === "move") {
    const [what, way, where] = rest;
    if (rest.length !== 3 || !["after", "before"].includes(way)) throw new Error("move EVENT after EVENT, or move EVENT before EVENT");
    const [from, other] = [number(what), number(where)];
    return { move: from, to: other + Number(way === "after") - Number(other > from) - Number(other === from && way === "after") };
  }
  const [what, name, ...values] = rest, event = events[number(what) - 1], members = MEMBERS[event.kind] ?? [];
  if (!members.includes(name) || !values.length) throw new Error(`set EVENT NAME VALUE: event ${what} is a ${event.kind}, and has ${members.join(", ")}`);
  const read = values.map(text => WORDS.get(text) ?? (/^-?\d+$/.test(text) ? Number(text) : text));
  return { set: event.number, members: { [name]: event.kind === "marker" ? values.join(" ") : read.length > 1 ? read : read[0] } };
}

// `hands` of the page: events() and name() are what is changed, atEnd() gives the image at the end of the frame; compare(picture, that) and show(whether) show what came of it
/** @type {(hands: Hands) => void} */
export function followChanges(hands) {
  $("changed-shown").onclick = () => {
    const is = $("changed-shown").getAttribute("aria-pressed") !== "true";
    $("changed-shown").setAttribute("aria-pressed", is);
    hands.show(is);
  };
  $("changed-keep").onclick = () => keep(hands.name()).catch(tellFault);
  $("changed-forget").onclick = () => forgetChange(hands);
}

/** @type {(line: string, hands: Hands) => Promise<void>} */
export async function tryChange(line, hands) {
  const its = ++turns;
  try {
    const wanted = readChange(line, hands.events()), [before, picture] = await Promise.all([hands.atEnd(), changed(wanted)]);
    if (its !== turns || before === undefined) return;        // another one was typed meanwhile, or the way to the end was stopped
    if (!before) return notice("Of a target that is too large to come whole no change is drawn", true);
    change = wanted;
    $("what-if").hidden = false;
    $("changed-told").textContent = line.trim();
    $("changed-shown").setAttribute("aria-pressed", true);
    hands.compare(picture, before);
  } catch (fault) {
    tellFault(fault);
  }
}

/** @type {(hands?: Hands | null) => void} */
export function forgetChange(hands = null) {
  if ($("what-if").hidden) return;
  $("what-if").hidden = true;
  hands?.show(false);
}

// The changed capture as a file
/** @type {(name: string) => Promise<void>} */
async function keep(name) {
  if (!change) return;
  const link = document.createElement("a");
  link.href = URL.createObjectURL(new Blob([await changedCapture(change)], { type: "application/json" }));
  link.download = `${name.replace(/\.json$/i, "")}_changed.json`;
  link.click();
  setTimeout(() => URL.revokeObjectURL(link.href), 60_000);
}
