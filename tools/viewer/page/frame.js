// The frame that the run draws: where it stands, its events, and the moves that ask for more. Every move is one call of a few commands.

import { restart, sources, triangle, switchedElsewhere, onForeign, Ended, Stopped } from "./run.js";
import { ask, depths, stop as stopAnswer } from "./working.js";
import { linesTo, readArrival } from "./arrival.js";
import { Images } from "./images.js";
import { readEvent, readEntry, readPixel, positionIn, isRefusal } from "./replies.js";
import { forgetHistories, isCoarse, readMap, wantMap as setMap } from "./maps.js";
import { tell, tellFault, notice } from "./log.js";
import { NO_PIXEL, UNKNOWN, show, shown } from "./shown.js";
import { Turns } from "./turns.js";

/** @typedef {import("./types").Chart} Chart */
/** @typedef {import("./types").Entry} Entry */
/** @typedef {import("./types").FrameEvent} FrameEvent */
/** @typedef {import("./types").Look} Look */
/** @typedef {import("./types").Place} Place */
/** @typedef {import("./types").Rect} Rect */
/** @typedef {import("./types").Reply} Reply */
/** @typedef {import("./types").Source} Source */
/** @typedef {import("./types").Stand} Stand */
/** @typedef {import("./types").What} What */

const REST = 150;                     // milliseconds after which a hand that drags is at rest
const AT_ONCE = 2000;                 // lines of a call

export class Frame {
  position = 0; target = 0;             // where it stands, and where the last move asked for leads
  isOpening = false;                    // on its way to its first place
  /** @type {FrameEvent[]} */ events = [];
  /** @type {Map<number, Source>} */ sources = new Map();       // of each event the call of a captured program that it comes from
  /** @type {Rect | null} */ part = null;                       // of a large target that is fetched, else null
  /** @type {(what: What) => void} */ onShow = () => {};        // told of what has become another one
  #images = new Images();
  #turns = new Turns(fault => this.#fail(fault));
  /** @type {{ to: number, every: number } | null} */ #wanted = null;
  #rests = 0;
  #isReturning = false;
  /** @type {number[][]} */ #switches = [];                     // which events were off before each switch of this page

  get last() { return this.events.length; }
  get off() { return this.events.filter(event => !event.on).map(event => event.number); }
  get canUndo() { return this.#switches.length > 0; }

  // ---- What the page asks for
  // The run's capture, from its end or from a place
  /** @type {(place: Stand | null) => Promise<void>} */
  open(place) {
    return this.inTurn(async () => {
      Object.assign(this, { position: 0, target: 0, isOpening: true, events: [], sources: new Map(), part: null });
      show(UNKNOWN);
      this.#switches = [];
      setMap(null);
      this.onShow("events");
      try {
        await this.#refresh(0);
        await (place ? this.#lead(place) : this.#arrive(this.last, `goto ${this.last}`));
      } finally {
        this.isOpening = false;
      }
      this.onShow("history");
      if (!this.last) notice("This capture has no events");
      this.sources = new Map(await sources());
      if (this.sources.size) this.onShow("events");
    });
  }

  // Of the moves asked for meanwhile only the newest counts. A hand that drags gets every so many pixels of the image after the event, and all once it is at rest
  /** @type {(position: number, every?: number) => void} */
  goTo(position, every = 1) {
    clearTimeout(this.#rests);
    if (every > 1) this.#rests = setTimeout(() => this.goTo(this.target), REST);
    this.target = Math.max(0, Math.min(this.last, position));
    const isAsked = this.#wanted !== null;
    this.#wanted = { to: this.target, every };
    if (!isAsked) this.inTurn(() => this.#goOn());
  }

  // To a place: what is off there is off, and all else is on
  /** @type {(place: Stand) => Promise<void>} */
  goToPlace(place) { return this.inTurn(() => this.#lead(place)); }

  // An entry's event, and the outline of its triangle
  /** @type {(entry: Entry) => void} */
  goToEntry(entry) {
    this.goTo(entry.event);
    this.#outline(entry).catch(fault => this.#fail(fault));
  }

  // Another part of a large target
  /** @type {(part: Rect | null) => Promise<void>} */
  fetchPart(part) {
    return this.inTurn(() => {
      if (String(part) === String(this.part)) return undefined;
      this.part = part;
      this.#images.clear();
      return this.#arrive(this.position);
    });
  }

  // Asks for a map of what is in sight, from now on (maps.js); another look asks for none. What is wanted outlasts a stop: then the way back draws it
  /** @type {(look: Look, sight: Rect) => Promise<void>} */
  wantMap(look, sight) {
    setMap(look, sight);
    return this.inTurn(async () => {
      if (shown.map?.look === look && !isCoarse(shown.after, shown.map)) return;       // it is as fine as it can be already
      await this.#drawMap();
      this.onShow("map");
    });
  }

  // Switches events; many at once before the first of them, where a switch draws nothing
  /** @type {(numbers: number[], on: boolean) => Promise<void>} */
  switchOver(numbers, on) { return this.inTurn(() => this.#switchAll(numbers, on)); }

  // Takes the last switch of this page back
  undo() {
    return this.inTurn(async () => {
      const off = new Set(this.#switches.pop());
      await this.#switchAll(this.events.filter(event => event.on && off.has(event.number)).map(event => event.number), false, true);
      await this.#switchAll(this.off.filter(number => !off.has(number)), true, true);
      this.onShow("events");
    });
  }

  /** @type {(pixel: Place) => Promise<void>} */
  pick(pixel) { return this.pickInTurn(() => pixel); }

  // The same of a pixel that is found when its turn comes: keys that are faster than replies go on from each other's pixels
  /** @type {(find: () => Place | null) => Promise<void>} */
  pickInTurn(find) { return this.inTurn(() => this.#choose(find())); }

  // As it was typed
  /** @type {(line: string) => Promise<void>} */
  command(line) {
    return this.inTurn(async () => {
      const [, reply] = await ask([`goto ${this.position}`, line]), [word, x, y] = line.trim().split(/ +/), position = positionIn(reply.text);
      tell(line, reply.text, reply.lines);
      if (isRefusal(reply.text)) notice(reply.text, true);
      if (position !== null) await (word === "on" || word === "off" ? this.#refresh(position) : this.#arrive(position));
      else if (reply.text.startsWith("pixel ") || reply.text.startsWith("history ")) await this.#readHistory({ x: +x, y: +y });
    });
  }

  // Looks whether another page of this run has switched events meanwhile
  again() {
    return this.inTurn(async () => {
      await ask(["state"]);
      if (switchedElsewhere()) await this.#refresh();
    });
  }

  /** @template T @param {() => T | Promise<T>} job @returns {Promise<T | undefined>} */
  inTurn(job) { return this.#turns.take(job); }

  // Stops what the run is at, and takes back what waits for it
  stop() {
    const stopped = stopAnswer();
    if (!stopped) return;
    this.#turns.drop();
    this.#wanted = null;
    clearTimeout(this.#rests);
    this.target = this.position;
    stopped.catch(fault => this.#fail(fault));
  }

  // ---- Moves
  #goOn() {
    const { to, every } = /** @type {{ to: number, every: number }} */ (this.#wanted), { position } = this;
    this.#wanted = null;
    return this.#arrive(to, { [position - 1]: "back", [position]: "", [position + 1]: "step" }[to] ?? `goto ${to}`, every);
  }

  // At a position: the image and the state before its last event, and then its own. What waits is asked for before this is drawn
  /** @type {(to: number, told?: string, every?: number) => Promise<void>} */
  async #arrive(to, told = "", every = 1) {
    const isDragged = every > 1, { width = 0, height = 0 } = shown.after ?? {}, images = this.#images;
    const lines = linesTo(to, shown.pixel, isDragged, position => images.at(position) !== null);
    const found = readArrival(await ask(lines, isDragged ? [...(this.part ?? [0, 0, width, height]), every] : this.part), this.position, isDragged);
    for (const [at, image] of found.images) images.keep(at, image);
    if (switchedElsewhere()) return this.#refresh(found.position);
    const { position, stopped, states, value } = found, next = states[states.length - 1];
    tell(told, stopped || found.moved);
    if (stopped) notice(stopped, true);
    this.position = position;
    show({ before: images.at(position - 1), after: found.dragged ?? images.at(position), isDragged: found.dragged !== null });
    show({ states: { with: to > 0 ? states[0] : null, next }, hasDepth: next.depth !== undefined, value });
    if (this.#wanted === null) this.target = position;
    if (shown.outlined && shown.outlined.event > position) this.#outline(null);
    await this.#drawMap();
    if (this.#wanted !== null) setTimeout(() => this.onShow("position"));
    else this.onShow("position");
  }

  // All events, and the position where the run stands: at first, and after a switch, when images and histories are others.
  // Without a history, which the way to the end is wanted for, the pixel's stays where nothing was switched meanwhile
  /** @type {(position?: number, withHistory?: boolean) => Promise<void>} */
  async #refresh(position = this.position, withHistory = true) {
    this.#images.clear();
    forgetHistories();
    const [events] = await ask(["events"]), off = String(this.off);
    switchedElsewhere();
    this.events = (events.lines ?? []).map(readEvent);
    if (events.left_out) notice(`${events.left_out} more events aren't listed here`);
    if (!withHistory && off !== String(this.off)) show(NO_PIXEL);
    this.onShow("events");
    await this.#arrive(Math.min(position, this.last), withHistory || position === this.position ? "" : `goto ${position}`);
    if (withHistory && shown.pixel) await this.#readHistory(shown.pixel);
  }

  /** @type {(place: Stand) => Promise<void>} */
  async #lead({ at, pixel, off }) {
    const { after } = shown, other = this.events.filter(({ number, on }) => on === off.has(number)), to = Math.min(at, this.last);
    const lines = other.map(({ number, on }) => `${on ? "off" : "on"} ${number}`);
    for (const { number, on } of this.events) if (!on && off.has(number)) tell(`off ${number}`, "at 0");      // it was off before this page came
    if (lines.length) {
      await this.#askAndTell(["goto 0", ...lines], 1);
      await this.#refresh(0);
    }
    await this.#arrive(to, `goto ${to}`);
    if (pixel && after && pixel.x < after.width && pixel.y < after.height) await this.#readHistory(pixel, true);
  }

  // ---- Switches, and lines
  /** @type {(numbers: number[], on: boolean, isUndo?: boolean) => Promise<void>} */
  async #switchAll(numbers, on, isUndo = false) {
    const lines = numbers.filter(number => this.events[number - 1].on !== on).map(number => `${on ? "on" : "off"} ${number}`);
    if (!lines.length) return;
    if (!isUndo) this.#switches.push(this.off);
    const many = lines.length > 1, here = `goto ${this.position}`;
    const asked = many ? [`goto ${numbers[0] - 1}`, ...lines, here] : [here, ...lines];
    await this.#refresh(await this.#askAndTell(asked, many ? 0 : 1));
  }

  // Tells of each line, but for some at first, and gives the position that they lead to
  /** @type {(lines: string[], untold: number) => Promise<number>} */
  async #askAndTell(lines, untold) {
    let { position } = this;
    for (let i = 0; i < lines.length; i += AT_ONCE) {
      for (const [k, { text }] of (await ask(lines.slice(i, i + AT_ONCE))).entries()) {
        if (i + k >= untold) tell(lines[i + k], text);
        position = positionIn(text) ?? position;
        if (isRefusal(text)) notice(text, true);
      }
    }
    return position;
  }

  // The replies at the end of the frame, that of the way there before them: by a run that stays there, so that nothing is drawn anew
  /** @type {(lines: string[]) => Promise<Reply[]>} */
  #askEnd(lines) { return ask([`goto ${this.last}`, ...lines], null, "end"); }

  // ---- A pixel, and a triangle
  /** @type {(pixel: Place | null) => Promise<void> | undefined} */
  #choose(pixel) {
    if (!pixel) return undefined;
    if (shown.outlined) this.#outline(null);
    return this.#readHistory(pixel, true);
  }

  // The pixel here, and the whole frame's history, so that it stays while one walks through it. Another page may have moved the run
  /** @type {(place: Place, told?: boolean) => Promise<void>} */
  async #readHistory({ x, y }, told = false) {
    const here = `goto ${this.position}`, there = `goto ${this.last}`, pixel = `pixel ${x} ${y}`, history = `history ${x} ${y}`, isAway = this.position !== this.last;
    const [, value, ...found] = await (isAway ? ask([here, pixel], null, null, [there, history]) : ask([here, pixel, history])), entries = found[found.length - 1];
    show({ pixel: { x, y } });
    if (told) {
      tell(pixel, value.text);
      if (isAway) tell(there, found[0].text);
      tell(history, entries.text);
      if (isAway) tell(here, `at ${this.position}`);
    }
    for (const { text } of [value, entries]) if (isRefusal(text)) notice(text, true);
    if (value.text.startsWith("pixel ")) show({ value: readPixel(value.text) });
    if (entries.lines) show({ entries: entries.lines.map(readEntry) });
    if (entries.left_out) notice(`${entries.left_out} more entries aren't listed here`);
    if (switchedElsewhere()) return this.#refresh();
    const { outlined } = shown, same = outlined && shown.entries.find(entry => entry.event === outlined.event && entry.triangle === outlined.triangle);
    show({ outlined: same ?? null, writers: new Set(shown.entries.filter(entry => entry.verdict === "drawn").map(entry => entry.event)) });
    this.onShow("history");
  }

  // An entry's triangle as the capture's file has it, or none
  /** @type {(entry: Entry | null) => Promise<void>} */
  async #outline(entry) {
    show({ outlined: null, corners: null });
    if (entry && entry.triangle !== null) {
      show({ outlined: entry });
      const corners = await triangle(entry.event, entry.triangle);
      if (shown.outlined === entry) show({ corners });
    }
    this.onShow("outline");
  }

  // ---- Maps
  // The map here: of few pixels at once, and of more in its turn
  async #drawMap() {
    const map = await this.#readMap(() => true);
    show({ map });
    if (map && isCoarse(shown.after, map)) this.#refine(map);
  }

  // Until something else waits; then again after that, unless another map is shown by then
  /** @type {(coarse: Chart) => Promise<void>} */
  #refine(coarse) {
    return this.inTurn(async () => {
      if (shown.map !== coarse) return;
      const fine = await this.#readMap(() => this.#turns.waiting === 0, true);
      if (shown.map !== coarse) return;
      if (!fine) return void this.#refine(coarse);
      show({ map: fine });
      this.onShow("map");
    });
  }

  /** @type {(goesOn: () => boolean, isFine?: boolean) => Promise<Chart | null>} */
  #readMap(goesOn, isFine = false) {
    return readMap(this.position, shown, { ask, askEnd: lines => this.#askEnd(lines), depths }, goesOn, isFine);
  }

  // ---- Stops and faults
  // After a stop: to where the page stood, or to the start where the way back was stopped too
  #goBack() {
    return this.inTurn(async () => {
      const to = this.#isReturning ? 0 : this.position;
      this.#isReturning = true;
      try {
        await this.#refresh(to, false);
        this.#isReturning = false;
        notice(`Stopped: at ${this.position}`);
      } catch (fault) {
        this.#isReturning = fault instanceof Stopped;
        throw fault;
      }
    });
  }

  /** @type {(fault: any) => void} */
  #fail(fault) {
    if (fault instanceof Stopped) return void this.#goBack();
    if (!(fault instanceof Ended)) return tellFault(fault);
    notice(`The run has ended: ${fault.message}`, true, "Start again", () => {
      const off = this.off.map(number => `off ${number}`);
      this.inTurn(async () => {
        await restart();
        for (let i = 0; i < off.length; i += AT_ONCE) await ask(off.slice(i, i + AT_ONCE));
        await this.#refresh();
      });
    });
  }
}

export const frame = new Frame();
onForeign(() => frame.again());
