// What is tried of a card: scenes of one feature each, which become the rows of a table, or the events of a capture. And the same as a text, for a bug report.

import { isBeyond, Judge, KINDS } from "./card_judge.js";
import { FEATURES, sceneOf, WHOLE } from "./features.js";

/** @typedef {import("./types").Capture} Capture */
/** @typedef {import("./types").Exact} Exact */
/** @typedef {import("./types").Judged} Judged */
/** @typedef {import("./types").Miss} Miss */
/** @typedef {import("./card_player.js").Player} Player */
// The first pixel that differs by more than rounding, and of which capture
/** @typedef {Miss & { number: number, event: Judged["event"], capture: { name: string } & Partial<Capture> }} First */
/** @typedef {{ rows: Row[], bits: number, scenes: number, seconds: number }} Done */
/** @typedef {{ renderer: string, version: string, bits: number }} Named */

// The columns of the table, and the kinds that are counted there
/** @type {[name: string, kinds: string[]][]} */
export const COLUMNS = [
  ["coverage", ["coverage"]], ["state", ["cull", "scissor"]], ["by 1", ["by 1"]], ["adds up", ["adds up"]], ["by more", ["by 2", "by more"]],
  ["test", ["depth test"]], ["tie", ["depth tie"]], ["depth by 1", ["depth by 1"]], ["by more", ["depth by more"]],
];
const PROBES = ["subpixels", "shared edges"], PROBE_SCENES = 3;        // by which the bits of a pixel's fraction are found out
const BITS = [8, 4];
/** @type {(count: number) => string} */
const figures = count => count.toLocaleString("en");
/** @type {(value: Miss["right"]) => string} */
const four = value => typeof value === "number" ? String(value) : `${value.r} ${value.g} ${value.b} ${value.a}`;

export class Row {
  pixels = 0; beyond = 0; leftOpen = 0;
  /** @type {Map<string, number>} */ counts = new Map();
  /** @type {First | null} */ first = null;

  /** @param {string} name */
  constructor(name) { this.name = name; }

  /** @type {(judged: Judged, capture: First["capture"]) => void} */
  note({ number, event, changed, found }, capture) {
    this.pixels += changed;
    for (const its of found) {
      this.counts.set(its.kind, (this.counts.get(its.kind) ?? 0) + 1);
      if (!isBeyond(its.kind)) continue;
      this.beyond++;
      this.leftOpen += Number(its.isOpen);
      this.first ??= { ...its, number, event, capture };
    }
  }

  // How many are counted in each column
  get cells() { return COLUMNS.map(([, kinds]) => kinds.reduce((sum, kind) => sum + (this.counts.get(kind) ?? 0), 0)); }
  get verdict() { return this.beyond ? "differs" : this.counts.size ? "within 1" : "exact"; }
  get breaks() { return !this.beyond ? "" : this.leftOpen === this.beyond ? "Direct3D" : "both"; }
}

// A card and framedbg, for scenes one after the other. `open` gives framedbg's run of a capture; `isStopped` says whether somebody waits no longer
export class Trial {
  /** @param {Player} player @param {(bytes: Uint8Array) => Exact} open @param {() => boolean} isStopped */
  constructor(player, open, isStopped = () => false) {
    this.player = player;
    this.open = open;
    this.isStopped = isStopped;
  }

  // Calls `told` with each row as it comes; gives all, and the bits of a pixel's fraction that the card has
  /** @type {(how: { scenes: number, only?: string[], bits?: number, told?: (row: Row) => void }) => Promise<Done>} */
  async run({ scenes, only = [], bits = 0, told = () => {} }) {
    const began = performance.now(), rows = [], its = bits || await this.bits();
    for (const name of Object.keys(FEATURES).filter(name => !only.length || only.some(word => name.startsWith(word)))) {
      const row = await this.row(name, name.startsWith(WHOLE) ? 1 : scenes, its);
      if (this.isStopped()) break;
      rows.push(row);
      told(row);
    }
    return { rows, bits: its, scenes, seconds: (performance.now() - began) / 1000 };
  }

  // 8, or 4 where those alone are covered exactly: what a driver says of them isn't to be believed
  /** @type {() => Promise<number>} */
  async bits() {
    for (const bits of BITS) {
      let isExact = true;
      for (const name of PROBES) isExact &&= !(await this.row(name, PROBE_SCENES, bits)).counts.has("coverage");
      if (isExact) return bits;
    }
    return BITS[0];
  }

  /** @type {(name: string, scenes: number, bits: number) => Promise<Row>} */
  async row(name, scenes, bits) {
    const row = new Row(name);
    for (let seed = 1; seed <= scenes && !this.isStopped(); seed++) {
      const capture = sceneOf(name, seed, bits);
      await this.judged(capture, one => row.note(one, { ...capture, name: `${name.replaceAll(" ", "_").replaceAll(",", "")}_${seed}.json` }));
    }
    return row;
  }

  // Each event of a capture that draws, as it comes
  /** @type {(capture: Capture, told: (one: Judged) => void) => Promise<void>} */
  async judged(capture, told) {
    const exact = this.open(new TextEncoder().encode(JSON.stringify(capture)));
    try {
      for await (const one of new Judge(exact, this.player, capture).events()) {
        if (this.isStopped()) return;
        told(one);
      }
    } finally {
      exact.end();
    }
  }
}

// ---- As text
/** @type {(named: Named) => string} */
export const tellCard = ({ renderer, version, bits }) => `${renderer}, ${version}, ${bits} subpixel bits`;

// As in 1 event, and 2 events
/** @type {(number: number, what: string) => string} */
export const several = (number, what) => `${figures(number)} ${what}${number === 1 ? "" : "s"}`;

/** @type {(counts: Map<string, number>) => string} */
const counted = counts => KINDS.filter(kind => counts.get(kind)).map(kind => `${figures(counts.get(kind) ?? 0)} ${kind}`).join(", ");

/** @type {(first: First) => string} */
export function tellFirst({ number, x, y, kind, isOpen, right, card }) {
  return `event ${number}, pixel ${x} ${y}, ${kind}${isOpen ? ", on an edge, which OpenGL leaves open" : ""}: framedbg ${four(right)}, the card ${four(card)}`;
}

/** @type {(named: Named, done: Done, agent: string) => string} */
export function tellRows(named, { rows, bits, scenes, seconds }, agent) {
  const head = `${"feature".padEnd(33)}${"pixels".padStart(9)}${COLUMNS.map(([name]) => name.padStart(11)).join("")}  verdict   breaks`;
  const cells = /** @param {Row} row */ row => row.cells.map(cell => String(cell || ".").padStart(11)).join("");
  const line = /** @param {Row} row */ row => `${row.name.padEnd(33)}${figures(row.pixels).padStart(9)}${cells(row)}  ${row.verdict.padEnd(9)} ${row.breaks}`.trimEnd();
  const count = /** @param {string} verdict */ verdict => rows.filter(row => row.verdict === verdict).length, worst = rows.find(({ first }) => first);
  return [`${tellCard(named)}; corners on ${bits} bits, ${several(scenes, "scene")} of each feature`, agent, head, ...rows.map(line),
    `${several(rows.length, "feature")}: ${count("exact")} exact, ${count("within 1")} within 1, ${count("differs")} differ; ${seconds.toFixed(0)} s`,
    ...worst?.first ? [`first beyond rounding: ${worst.first.capture.name}, ${tellFirst(worst.first)}`] : [], ""].join("\n");
}

// An event that differs, or nothing
/** @type {(judged: Judged) => string} */
export function tellEvent({ number, event, changed, found }) {
  const counts = new Map(), what = event.kind === "draw" ? `draw ${Math.floor((event.indices ?? event.vertices).length / 3)} ${event.interp}` : event.kind;
  for (const { kind } of found) counts.set(kind, (counts.get(kind) ?? 0) + 1);
  return found.length ? `event ${number}: ${what}, ${several(changed, "pixel")} changed: ${counted(counts)}` : "";
}

/** @type {(head: string, name: string, capture: Capture, lines: string[], row: Row, judged: number, agent: string) => string} */
export function tellFrame(head, name, capture, lines, row, judged, agent) {
  return [head, agent, `frame   ${name}: ${capture.width} x ${capture.height}, ${several(capture.events.length, "event")}`, ...lines,
    ...row.first ? [`first   beyond rounding: ${tellFirst(row.first)}`] : [],
    `in all  ${several(judged, "event")} judged, ${several(row.pixels, "pixel")} changed: ${counted(row.counts) || "all alike"}`, ""].join("\n");
}
