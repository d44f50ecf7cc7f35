// The pipeline state, and beside each part of it the event that set it.

import { $, all, element, swatch } from "./elements.js";
import { frame } from "./frame.js";
import { setterOf } from "./setters.js";
import { shown } from "./shown.js";
import { equation, figures, rectangle, test } from "./words.js";

/** @typedef {import("./types").State} State */
/** @typedef {[name: string, keys: (keyof State)[], ...inside: (Node | string)[]]} Line */

const table = $("state-table");

// The state that the last event was drawn with, or the next one will meet; what differs between the two is marked
/** @type {() => void} */
export function drawState() {
  const { states, whose } = shown, state = states[whose] ?? states.next, other = states[whose === "with" ? "next" : "with"];
  const upTo = whose === "with" && states.with ? frame.position - 1 : frame.position;
  for (const button of all("[data-state]")) button.setAttribute("aria-checked", button.dataset.state === whose);
  table.replaceChildren(...(state ? linesOf(state) : []).flatMap(([name, keys, ...inside]) => {
    const changed = state && other && keys.some(key => JSON.stringify(other[key]) !== JSON.stringify(state[key]));
    const value = element("dd", changed ? "changed" : "", element("span", "said", ...inside), ...setBy(name, upTo));
    if (changed) value.title = `event ${frame.position} sets it`;
    return [element("dt", "", name), value];
  }));
}

/** @type {(on: unknown, text?: string) => HTMLElement} */
const lamp = (on, text = on ? "on" : "off") => element("span", `lamp${on ? " lit" : ""}`, text);
/** @type {(live: boolean, kind: string, ...inside: (Node | string)[]) => HTMLElement} */
const idle = (live, kind, ...inside) => element(kind, live ? "" : "idle", ...inside);

// Of each line its name, what of the state it tells, and what stands there
/** @type {(state: State) => Line[]} */
function linesOf(state) {
  /** @type {Line[]} */
  const lines = [
    ["blend", ["blend"], lamp(state.blend)],
    ["colour", ["rgb"], idle(state.blend, "code", equation(state.rgb))],
    ["alpha", ["alpha"], idle(state.blend, "code", equation(state.alpha))],
    ["writes", ["mask"], ...["R", "G", "B", "A"].map((letter, i) => lamp(state.mask >> i & 1, letter))],
    ["factor", ["factor"], swatch(state.factor), ` ${figures(state.factor)}`],
    ["cull", ["cull", "ccw"], `${state.cull}, front is ${state.ccw ? "counter-clockwise" : "clockwise"}`],
    ["scissor", ["scissor"], lamp(state.scissor)],
    ["rect", ["rect"], idle(state.scissor, "span", rectangle(state.rect))],
  ];
  if (!state.depth) return lines;
  const { enable, write, func } = state.depth;
  return [...lines, ["depth", ["depth"], lamp(enable), idle(enable, "span", " passes where ", element("code", "", test(func))), " ", lamp(enable && write, "written")]];
}

// Which event set it, with a way there and a way to do without it
/** @type {(name: string, upTo: number) => HTMLElement[]} */
function setBy(name, upTo) {
  const setter = setterOf(name, frame.events, upTo);
  if (setter === undefined) return [];
  if (setter === null) return [element("span", "setter", "as at the start")];
  const go = element("button", "setter go", `set by ${setter.number}`), off = element("button", "setter off", "off");
  go.onclick = () => frame.goTo(setter.number);
  off.onclick = () => frame.switchOver([setter.number], false);
  go.title = `Go to event ${setter.number}`;
  off.title = `Do without event ${setter.number}`;
  off.setAttribute("aria-label", `event ${setter.number}, which set ${name}, off`);
  return [go, off];
}
