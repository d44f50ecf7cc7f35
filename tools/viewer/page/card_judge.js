// framedbg beside the card of this browser, event by event: which pixels differ, and why. After each event framedbg's own pixels are put into the card's
// target, so that the next is judged by itself; a depth that is off by 1 stays, as a second pass by EQUAL is to meet its own.

import { AT_START, isState } from "./setters.js";
import { snap } from "./snapping.js";
import { apart, NEIGHBOURS, Reasons } from "./card_reasons.js";
import { isWhole } from "./image.js";
import { readEntry, readPixel } from "./replies.js";

/** @typedef {import("./types").Capture} Capture */
/** @typedef {import("./types").CaptureEvent} CaptureEvent */
/** @typedef {import("./types").Colour} Colour */
/** @typedef {import("./types").Draw} Draw */
/** @typedef {import("./types").Entry} Entry */
/** @typedef {import("./types").Exact} Exact */
/** @typedef {import("./types").Judged} Judged */
/** @typedef {import("./types").Miss} Miss */
/** @typedef {import("./types").Place} Place */
/** @typedef {import("./types").States} States */
/** @typedef {import("./card_player.js").Player} Player */
/** @typedef {Miss & { right: Colour, card: Colour }} ColourMiss */

export const KINDS = ["coverage", "cull", "scissor", "depth test", "depth tie", "by 1", "adds up", "by 2", "by more", "depth by 1", "depth by more"];
const ROUNDING = ["by 1", "adds up", "depth by 1", "depth tie"];
/** @type {(kind: string) => boolean} */
export const isBeyond = kind => !ROUNDING.includes(kind);
const DEEPEST = 65_535, MOST_DEEP = 1 << 16;           // the deepest depth; pixels of a target whose depths are asked for
const MOST_LINES = 2000;                               // of a call

/** @type {(image: Uint8Array, at: number) => Colour} */
const colourAt = (image, at) => ({ r: image[4 * at], g: image[4 * at + 1], b: image[4 * at + 2], a: image[4 * at + 3] });
/** @type {(image: Uint8Array) => Uint32Array} */
const words = image => new Uint32Array(image.buffer, image.byteOffset, image.byteLength / 4);

export class Judge {
  /** @type {States} */ states = { ...AT_START };
  number = 0;                                          // of the event
  /** @type {Map<number, Entry[]>} */ entries = new Map();       // by a pixel's place, what the event's triangles did to it

  // `exact` answers framedbg's lines about the capture
  /** @param {Exact} exact @param {Player} player @param {Capture} capture */
  constructor(exact, player, capture) {
    const { width, height } = capture, size = width * height;
    this.exact = exact;
    this.player = player;
    this.capture = capture;
    this.width = width;
    this.height = height;
    this.isDeep = capture.version > 1 && size <= MOST_DEEP;
    this.right = new Uint8Array(4 * size);             // framedbg's colours before the event, which the card has too
    this.deep = this.cardDeep = new Uint16Array(size).fill(DEEPEST);
  }

  // Of each event that draws { number, event, changed, found }, where found has a { x, y, kind, isOpen, right, card } for each pixel that differs
  /** @type {() => AsyncGenerator<Judged>} */
  async *events() {
    this.player.restart(this.width, this.height);
    for (const [i, event] of this.capture.events.entries()) {
      if (event.kind === "draw" && event.interp === "picture") throw new Error(`event ${i + 1} draws a picture, which no card is asked for here`);
      if (isState(event)) this.states = { ...this.states, [event.kind]: event };
      this.player.apply(event);
      if (event.kind === "clear" || event.kind === "draw" || event.kind === "depth_clear") yield await this.judged(i + 1, event);
    }
    this.player.check();
  }

  /** @type {(number: number, event: Judged["event"]) => Promise<Judged>} */
  async judged(number, event) {
    const [, { image }] = await this.exact.ask([`goto ${number}`, "show"]);
    if (!image || !isWhole(image)) throw new Error("a target of more than 4,194,304 pixels isn't compared here: framedbg-driver does it");
    [this.number, this.entries] = [number, new Map()];
    const before = this.right, right = image.bytes, shown = this.player.colours(), found = await this.colours(event, before, right, shown);
    const { deep, cardDeep } = this;
    if (this.isDeep) [this.deep, this.cardDeep] = [await this.depthsAfter(number, event), this.player.depths()];
    if (this.isDeep) found.push(...await this.depths(event, deep, cardDeep, found));
    const [one, two] = [words(before), words(right)], changed = two.reduce((count, word, i) => count + Number(word !== one[i]), 0);
    this.goOn(right, shown);
    return { number, event, changed, found };
  }

  /** @type {(right: Uint8Array, shown: Uint8Array) => void} */
  goOn(right, shown) {
    const { deep, cardDeep } = this, isFar = deep.some((depth, i) => Math.abs(depth - cardDeep[i]) > 1), [one, two] = [words(right), words(shown)];
    if (isFar || one.some((word, i) => word !== two[i])) this.player.put(right, isFar ? deep : null);
    if (isFar) this.cardDeep = deep;
    this.right = right;
  }

  /** @type {(at: number) => Place} */
  placeOf(at) { return { x: at % this.width, y: Math.floor(at / this.width) }; }

  // ---- Colours
  /** @type {(event: CaptureEvent, before: Uint8Array, right: Uint8Array, shown: Uint8Array) => Promise<Miss[]>} */
  async colours(event, before, right, shown) {
    const [one, two] = [words(right), words(shown)];
    /** @type {ColourMiss[]} */
    const found = [];
    /** @type {ColourMiss[]} */
    const far = [];
    for (let at = 0; at < one.length; at++) {
      if (one[at] === two[at]) continue;
      const its = { ...this.placeOf(at), right: colourAt(right, at), card: colourAt(shown, at), isOpen: false, kind: "" }, gap = apart(its.right, its.card);
      its.kind = gap === 1 ? "by 1" : gap === 2 ? "by 2" : "by more";
      found.push(its);
      if (gap > 1) far.push(its);
    }
    if (event.kind === "draw" && far.length) await this.explain(this.reasonsOf(event, before, this.deep, this.cardDeep), far);
    return found;
  }

  // Which triangles the card must have drawn there follows from the pixels' histories, and where those don't say it from their neighbours'
  /** @type {(reasons: Reasons, far: ColourMiss[]) => Promise<void>} */
  async explain(reasons, far) {
    await this.wantEntries(far);
    const told = /** @type {(its: Miss, reason: import("./card_reasons.js").Reason | null) => boolean} */ (its, reason) => { if (reason) [its.kind, its.isOpen] = reason; return !reason; };
    const left = far.filter(its => told(its, reasons.of(its.x, its.y, its.card)));
    const beside = left.flatMap(({ x, y }) => NEIGHBOURS.map(([i, j]) => ({ x: x + i, y: y + j })));
    await this.wantEntries(beside.filter(({ x, y }) => x >= 0 && y >= 0 && x < this.width && y < this.height));
    for (const its of left) told(its, reasons.byNeighbours(its.x, its.y, its.card));
  }

  /** @type {(event: Draw, before: Uint8Array, deep: Uint16Array, cardDeep: Uint16Array) => Reasons} */
  reasonsOf(event, before, deep, cardDeep) {
    const { width, height, states } = this, at = /** @type {(x: number, y: number) => number} */ (x, y) => y * width + x;
    return new Reasons({
      event, states, width, height, there: (x, y) => colourAt(before, at(x, y)), isAlike: (x, y) => deep[at(x, y)] === cardDeep[at(x, y)],
      entries: (x, y) => this.entries.get(at(x, y)) ?? [],
    });
  }

  // What the last event's triangles did to some pixels, of which it is asked once
  /** @type {(places: Place[]) => Promise<void>} */
  async wantEntries(places) {
    const lines = new Map(places.map(({ x, y }) => [y * this.width + x, `history ${x} ${y}`])), wanted = [...lines].filter(([at]) => !this.entries.has(at));
    for (let first = 0; first < wanted.length; first += MOST_LINES) {
      const some = wanted.slice(first, first + MOST_LINES), replies = await this.exact.ask(some.map(([, line]) => line));
      const isOfEvent = /** @param {Entry} entry */ ({ event, triangle }) => event === this.number && triangle !== null;
      replies.forEach(({ lines = [] }, i) => this.entries.set(some[i][0], lines.map(readEntry).filter(isOfEvent)));
    }
  }

  // ---- Depths
  // Those after an event change inside the box of a draw's triangles alone, and are asked for there
  /** @type {(number: number, event: CaptureEvent) => Promise<Uint16Array>} */
  async depthsAfter(number, event) {
    if (event.kind === "depth_clear") return new Uint16Array(this.deep.length).fill(event.depth);
    const { enable, write } = this.states.depth;
    if (event.kind !== "draw" || !enable || !write || !event.vertices.length) return this.deep;
    const [left, right] = this.reach(event, "x", this.width), [top, bottom] = this.reach(event, "y", this.height), deep = this.deep.slice(), places = [];
    for (let y = top; y < bottom; y++) for (let x = left; x < right; x++) places.push([x, y]);
    for (let first = 0; first < places.length; first += MOST_LINES) {
      const some = places.slice(first, first + MOST_LINES), replies = await this.exact.ask(some.map(place => `pixel ${place.join(" ")}`));
      replies.forEach(({ text }, i) => { deep[some[i][1] * this.width + some[i][0]] = Number(readPixel(text).depth); });
    }
    return deep;
  }

  // From which pixel to which the triangles of a draw reach along an axis
  /** @type {(event: Draw, axis: "x" | "y", side: number) => [from: number, to: number]} */
  reach({ vertices }, axis, side) {
    const places = vertices.map(vertex => snap(vertex[axis])), within = /** @param {number} place */ place => Math.min(Math.max(place, 0), side);
    const [least, most] = places.reduce(([low, high], place) => [Math.min(low, place), Math.max(high, place)], [Infinity, -Infinity]);
    return [within(Math.floor(least / 256)), within(Math.floor(most / 256) + 1)];
  }

  // Depths that differ and that the event wrote, on this side or on that, where no colour tells of it already. Those before it are given
  /** @type {(event: CaptureEvent, deep: Uint16Array, cardDeep: Uint16Array, colours: Miss[]) => Promise<Miss[]>} */
  async depths(event, deep, cardDeep, colours) {
    const told = new Set(colours.filter(({ kind }) => !["by 1", "by 2"].includes(kind)).map(({ x, y }) => y * this.width + x));
    /** @type {Miss[]} */
    const found = [];
    /** @type {Miss[]} */
    const byOne = [];
    this.deep.forEach((one, at) => {
      const other = this.cardDeep[at];
      if (one === other || told.has(at) || one === deep[at] && other === cardDeep[at]) return;
      const its = { ...this.placeOf(at), right: one, card: other, isOpen: false, kind: Math.abs(one - other) === 1 ? "depth by 1" : "depth by more" };
      found.push(its);
      if (its.kind === "depth by more" && event.kind === "draw" && (other === cardDeep[at] || one === deep[at])) byOne.push(its);
    });
    if (byOne.length && event.kind === "draw" && this.states.depth.enable && this.states.depth.write) await this.explainDepths(event, deep, cardDeep, byOne);
    return found;
  }

  // The depth of a pixel was written by one side alone
  /** @type {(event: Draw, deep: Uint16Array, cardDeep: Uint16Array, some: Miss[]) => Promise<void>} */
  async explainDepths(event, deep, cardDeep, some) {
    await this.wantEntries(some);
    const reasons = this.reasonsOf(event, this.right, deep, cardDeep);
    for (const its of some) {
      const entries = reasons.entries(its.x, its.y).filter(({ depth }) => depth);
      its.kind = !entries.length ? "coverage" : entries.some(entry => reasons.isTie(entry, its.x, its.y)) ? "depth tie" : "depth test";
    }
  }
}
