// Who made the picture at the end of a capture another one than is wanted: from the pixels that differ to suspects, and from those to changes. Each change is
// drawn by a run of the program of its own, as a changed capture, and its whole picture compared.

import { DRAWN } from "./capture.js";
import { changesOf } from "./changes.js";
import { clustersOf, spread } from "./clusters.js";
import { suspectsOf } from "./evidence.js";
import { colourAt, difference } from "./image.js";
import { MOST_PIXELS } from "./part.js";
import { readEntry } from "./replies.js";
import { Ended, Runner, Stopped } from "./runner.js";

const SECONDS = 60, LANES = 4;             // for a search; changes that are drawn at once
const NAMED = 8;                           // clusters with a finding each
const ASKED = 96, FEWEST = 12, REST = 24;  // wrong pixels that are asked: of these, of each at least, of the others
const BATCHES = [0, 3, 8, 24];             // suspects whose changes are tried, as long as nothing mends all
const MORE = "framedbg-blame tries more: vertices, indices, triangles, both factors of blending, two changes at once";
const ROUND = 12;                          // pixels round one that differs: a change that is of no use on this window isn't drawn whole

export class Search {
  tried = 0; turn = 0; found = []; isStopped = false; runs = new Set(); until = performance.now() + 1000 * SECONDS;

  // `open` gives a worker with the program and a capture's bytes; `told` is told how many changes were tried
  constructor(capture, other, tolerance, { open, told = () => {} }) {
    const channels = other.hasAlpha === false ? ["r", "g", "b"] : ["r", "g", "b", "a"];
    const isNear = (one, two) => channels.every(channel => Math.abs(one[channel] - two[channel]) <= tolerance);
    Object.assign(this, { capture, other, tolerance, channels, isNear, open, told });
  }

  // What framedbg-blame --json says, as far as it is shown; `samples` are of the picture after the best change
  async run() {
    try {
      const { events, whole } = this.capture;
      if (!await this.drawn(events, whole, run => this.look(run))) throw new Error("framedbg finds no memory for this frame");
      for (const [i, end] of BATCHES.entries()) {
        if (i && !this.isOver() && this.best?.left !== 0) await this.batch(this.suspects.slice(BATCHES[i - 1], end));
      }
      const mended = this.best && await this.drawn(this.best.events, whole, run => this.picture(run));
      return { ...this.answer(this.found.sort(order)), samples: mended ? joined(mended) : new Uint8Array() };
    } catch (fault) {
      if (fault instanceof Stopped) return { stopped: true };
      throw fault;
    }
  }

  stop() {
    this.isStopped = true;
    for (const run of this.runs) run.end(new Stopped());
  }

  isOver() { return performance.now() > this.until; }

  // What a run of some events in a window tells at its end; null where it doesn't come there, as memory is wanted
  async drawn(events, window, ask) {
    const run = new Runner(async () => {
      const worker = await this.open(this.capture.bytesOf(events, window));
      if (!this.isStopped) return worker;
      worker.terminate();
      throw new Stopped();
    });
    this.runs.add(run);
    try {
      const [{ text }] = await run.ask([`goto ${events.length}`], null);
      return text === `at ${events.length}` ? await ask(run) : null;
    } catch (fault) {
      if (fault instanceof Ended) return null;
      throw fault;
    } finally {
      this.runs.delete(run);
      run.end(new Ended("asked"));
    }
  }

  // The picture, in parts of whole rows
  async picture(run) {
    const { width, height } = this.capture, rows = Math.max(1, Math.floor(MOST_PIXELS / width)), parts = [];
    for (let top = 0; top < height; top += rows) parts.push((await run.ask(["show"], [0, top, width, Math.min(top + rows, height)]))[0].image);
    return parts;
  }

  differing(parts) {
    const mask = new Uint8Array(this.capture.width * this.capture.height);
    for (const part of parts) mask.set(this.differs(part).mask, part.top * part.width);
    return mask;
  }

  differs(part) { return difference(part, this.other, this.tolerance); }

  // What differs as it is, and what the wrong pixels' histories say
  async look(run) {
    const { width } = this.capture, mask = this.differing(await this.picture(run));
    this.clusters = clustersOf(mask, width);
    this.cluster = new Uint8Array(mask.length).fill(NAMED);
    for (const [number, { pixels }] of this.clusters.slice(0, NAMED).entries()) for (const pixel of pixels) this.cluster[pixel] = number;
    [this.wrong] = this.counted(mask);
    if (this.wrong) this.window = this.windowOf(mask);
    const asked = this.asked(), replies = asked.length ? await run.ask(asked.map(({ x, y }) => `history ${x} ${y}`), null) : [];
    this.samples = asked.map((sample, i) => ({ ...sample, entries: replies[i].lines.map(readEntry) }));
    this.suspects = suspectsOf(this.capture, this.samples, this.isNear);
    return true;
  }

  // The pixels round one in the midst of the largest cluster; null where they are nearly all
  windowOf(mask) {
    const { width, height } = this.capture, { x, y } = this.midst(this.clusters[0]);
    const window = { left: Math.max(0, x - ROUND), top: Math.max(0, y - ROUND), right: Math.min(width, x + ROUND), bottom: Math.min(height, y + ROUND) };
    if ((window.right - window.left) * (window.bottom - window.top) * 4 > width * height) return null;
    this.wrongThere = 0;
    for (let row = window.top; row < window.bottom; row++) {
      for (const is of mask.subarray(row * width + window.left, row * width + window.right)) this.wrongThere += is;
    }
    return window;
  }

  midst({ pixels }) {
    const { width } = this.capture, pixel = pixels[pixels.length >> 1];
    return { x: pixel % width, y: Math.floor(pixel / width) };
  }

  // Wrong pixels from all over the largest clusters, and some of the others
  asked() {
    const { width } = this.capture, rest = this.clusters.slice(NAMED).flatMap(({ pixels }) => pixels);
    const some = this.clusters.slice(0, NAMED).flatMap(({ pixels }) => spread(pixels, width, Math.max(FEWEST, Math.floor(ASKED * pixels.length / this.wrong))));
    return [...some, ...spread(rest, width, REST)].map(pixel => {
      const x = pixel % width, y = Math.floor(pixel / width);
      return { x, y, wanted: colourAt(this.other, x, y), cluster: this.cluster[pixel] };
    });
  }

  // How many pixels of a mask there are, and how many in each of the largest clusters
  counted(mask) {
    const within = Array(NAMED + 1).fill(0);
    let all = 0;
    for (let pixel = mask.indexOf(1); pixel >= 0; pixel = mask.indexOf(1, pixel + 1)) all++, within[this.cluster[pixel]]++;
    return [all, within];
  }

  // All changes of some suspects, several at a time; where one mends all, no more kinds
  async batch(suspects) {
    const changes = changesOf(this, suspects.map(({ event }) => event));
    const lane = async () => {
      for (const change of changes) {
        if (this.isOver() || this.best?.left === 0 && change.rank > this.best.rank) return;
        await this.attempt({ ...change, turn: this.turn++ });
        this.told(++this.tried);
      }
    };
    await Promise.all(Array.from({ length: LANES }, lane));
  }

  async attempt(change) {
    const { whole } = this.capture, there = this.window && await this.drawn(change.events, this.window, async run => (await run.ask(["show"], null))[0].image);
    if (there && this.differs({ ...there, ...this.window }).count >= this.wrongThere) return;
    const parts = await this.drawn(change.events, whole, run => this.picture(run));
    if (!parts) return;
    const [left, within] = this.counted(this.differing(parts));
    if (left >= this.wrong) return;
    const found = { ...change, left, within, breadth: this.breadth(change.event) };
    if (!this.best || order(found, this.best) < 0) this.best = found;
    this.found.push({ ...found, events: null });          // of many the lists would be long
  }

  // How many draws have the state that an event sets; a draw has to do with itself
  breadth(number) {
    const { capture } = this, kind = capture.kind(number);
    if (DRAWN.includes(kind)) return 0;
    const next = capture.those([kind]).find(other => other > number) ?? Infinity;
    return capture.those(["draw"]).filter(draw => draw > number && draw < next).length;
  }

  answer(changes) {
    const { wrong, tried, clusters } = this, isOver = this.isOver() && changes[0]?.left !== 0;
    return {
      differ: wrong, tried, over: isOver, more: MORE, changes: changes.map(({ event, change, left }) => ({ event, change, differ: left })),
      findings: clusters.slice(0, NAMED).map((cluster, number) => this.finding(cluster, number, changes)),
    };
  }

  // A cluster's best change and its suspect
  finding(cluster, number, changes) {
    const { pixels, box } = cluster, { x, y } = this.midst(cluster), left = ({ within }) => within[number];
    const [best] = changes.filter(one => left(one) < pixels.length).sort((one, two) => left(one) - left(two) || one.left - two.left);
    const event = best?.event ?? this.suspects.find(suspect => suspect.clusters.has(number))?.event ?? null;
    return { number: number + 1, pixels: pixels.length, box, pixel: [x, y], event, ...(best && { change: best.change, left: left(best) }) };
  }
}

// Of changes after which as many pixels differ the kind that is tried first goes first, and the event that has to do with the fewest draws
const order = (one, two) => one.left - two.left || one.rank - two.rank || one.breadth - two.breadth || one.turn - two.turn;

function joined(parts) {
  const bytes = new Uint8Array(parts.reduce((sum, part) => sum + part.bytes.length, 0));
  let at = 0;
  for (const part of parts) {
    bytes.set(part.bytes, at);
    at += part.bytes.length;
  }
  return bytes;
}
