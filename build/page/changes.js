// The kinds of change, in the order in which they are tried: each changes one thing of one event, or where it stands. The words are those of framedbg-blame.

import { DRAWN, STATES } from "./capture.js";
import { AT_START } from "./setters.js";
import { valuesFor } from "./worked.js";

const FACTORS = ["ZERO", "ONE", ...["SRC_COLOR", "SRC_ALPHA", "DEST_ALPHA", "DEST_COLOR", "BLEND_FACTOR"].flatMap(name => [name, `INV_${name}`])];
const OPERATIONS = ["ADD", "SUBTRACT", "REV_SUBTRACT", "MIN", "MAX"];
const FUNCTIONS = ["LESS", "LESS_EQUAL", "NEVER", "EQUAL", "GREATER", "NOT_EQUAL", "GREATER_EQUAL", "ALWAYS"];
const MOST_BOXES = 6, MOST_MOVES = 24, FAR = 65_535;
const USUAL = {              // states that a program often sets, for where the one that is wanted is nowhere in the frame
  blend: ["SRC_ALPHA INV_SRC_ALPHA ADD", "ONE INV_SRC_ALPHA ADD", "SRC_ALPHA ONE ADD", "ONE ONE ADD", "DEST_COLOR ZERO ADD", "ZERO SRC_COLOR ADD"].map(part =>
    ({ ...AT_START.blend, enable: true, rgb: part.split(" "), alpha: ["ONE", "INV_SRC_ALPHA", "ADD"] })),
  raster: [false, true].flatMap(front_ccw => ["none", "front", "back"].map(cull => ({ ...AT_START.raster, cull, front_ccw }))),
  depth: [true, false].flatMap(write => ["LESS", "LESS_EQUAL", "ALWAYS"].map(func => ({ kind: "depth", enable: true, write, func }))),
};

const turned = (name, what, [on, off] = ["on", "off"]) => event => [[`${what}${event[name] ? off : on}`, { [name]: !event[name] }]];
const others = (name, what, values) => event => values.map(value => [`${what}${value} in place of ${event[name]}`, { [name]: value }]);

// A kind of change of events of a kind, by what gives [words, members with other values]
const members = (kind, make) => [[kind], function* (it, number) {
  const event = it.capture.event(number);
  for (const [says, other] of make(event, it, number)) if (!has(event, other)) yield [says, it.capture.events.with(number - 1, { ...event, ...other })];
}];

// Of kinds of events what gives [words, the events after it]
const KINDS = [
  members("blend", masks), members("blend", turned("enable", "blending ")), members("blend", factors), members("blend", operations),
  members("raster", others("cull", "cull ", ["none", "front", "back"])),
  members("raster", turned("front_ccw", "front faces ", ["counter-clockwise", "clockwise"])),
  members("raster", turned("scissor", "scissor ")), members("scissor", rectangles),
  members("depth", turned("enable", "depth test ")), members("depth", turned("write", "depth writes ")),
  members("depth", others("func", "depth function ", FUNCTIONS)), members("depth_clear", depths),
  members("draw", interpolations), members("clear", colours("clear")), members("factor", colours("factor")),
  [["draw"], before], [[...DRAWN, ...STATES], without], [DRAWN, moves], [STATES, stateMoves], [DRAWN, exchanged], [DRAWN, doubled],
];

// All changes of some events of a case, { capture, samples, clusters, isNear, channels }, kind by kind: { event, rank, change, events }
export function* changesOf(it, numbers) {
  for (const [rank, [kinds, make]] of KINDS.entries()) {
    for (const event of numbers.filter(number => kinds.includes(it.capture.kind(number)))) {
      for (const [change, events] of make(it, event)) yield { event, rank, change, events };
    }
  }
}

const ascending = (one, two) => one - two;
const has = (event, members) => Object.entries(members).every(([name, value]) => String(event[name]) === String(value));

// ---- Members
// A draw with a picture has no other colours
function interpolations(event) {
  return event.interp === "picture" ? [] : others("interp", "", ["flat", "linear"])(event);
}

function masks({ mask: was }) {
  const bits = mask => [1, 2, 4, 8].filter(bit => mask & bit).length;
  const order = [...Array(16).keys()].sort((one, two) => (two === 15) - (one === 15) || bits(one ^ was) - bits(two ^ was));
  return order.map(mask => [`mask ${mask} in place of ${was}`, { mask }]);
}

const parts = ({ rgb, alpha }) => [{ part: "rgb", word: "colour", names: FACTORS, was: rgb },
  { part: "alpha", word: "alpha", names: FACTORS.filter(name => !name.endsWith("_COLOR")), was: alpha }];

function factors(event) {
  return parts(event).flatMap(({ part, word, names, was }) => ["source", "destination"].flatMap((side, at) =>
    names.map(name => [`the ${side} factor of ${word} ${name} in place of ${was[at]}`, { [part]: was.with(at, name), enable: true }])));
}

function operations(event) {
  return parts(event).flatMap(({ part, word, was }) =>
    OPERATIONS.map(name => [`the operation of ${word} ${name} in place of ${was[2]}`, { [part]: was.with(2, name), enable: true }]));
}

// The whole target, one edge where wrong pixels end, and the rectangle with them
function rectangles({ rect: was }, { capture: { width, height }, clusters }) {
  const whole = [0, 0, width, height], boxes = clusters.slice(0, MOST_BOXES).map(({ box }) => box);
  const ends = whole.map((end, at) => [...new Set([...boxes.flatMap(box => [box[at % 2], box[at % 2 + 2]]), end])].sort(ascending));
  const edges = ["left", "top", "right", "bottom"].flatMap((side, at) =>
    ends[at].map(end => [`${side} ${end} in place of ${was[at]}`, { rect: was.with(at, end) }]));
  const wider = boxes.slice(0, 2).map(box => was.map((edge, at) => Math[at < 2 ? "min" : "max"](edge, box[at])));
  return [["the whole target as its rectangle", { rect: whole }], ...edges, ...wider.map(rect => [`the rectangle ${rect.join(" ")}`, { rect }])];
}

// The two ends, and values between the depths that wrong pixels met
function depths({ depth: was }, { samples }, number) {
  const later = samples.flatMap(({ entries }) => entries).filter(({ event, depth }) => event > number && depth);
  const met = [...new Set(later.map(({ depth }) => depth.source))].sort(ascending);
  const between = met.length ? [...Array(16).keys()].map(i => met[Math.round(i * (met.length - 1) / 15)]) : [];
  const values = new Set([FAR, 0, ...between.flatMap(least => [least, least + 1]), FAR + 1 >> 1]);
  return [...values].filter(depth => depth <= FAR).map(depth => [`depth ${depth} in place of ${was}`, { depth }]);
}

function colours(kind) {
  return ({ color: was }, it, number) => valuesFor(it, number).map(color => [`${kind} ${color.join(" ")} in place of ${was.join(" ")}`, { color }]);
}

// ---- Lists
const inserted = (events, at, event) => events.toSpliced(at - 1, 0, event);
const told = ({ kind, ...members }) => Object.values(members).flat().map(value => typeof value === "boolean" ? +value : value).join(" ");

// A state that was never set, or never taken back: as at the start, as another event sets it, or as is usual
function* before({ capture }, number) {
  for (const part of capture.states) {
    const held = [["as at the start", AT_START[part]], ...capture.those([part]).map(i => [`as event ${i} sets it`, capture.event(i)]),
      ...(USUAL[part] ?? []).map(state => [told(state), state])];
    const seen = [capture.state(number, part)], members = Object.keys(AT_START[part]);
    for (const [says, state] of held) {
      if (seen.some(other => members.every(name => String(other[name]) === String(state[name])))) continue;
      seen.push(state);
      yield [`with ${part} ${says}`, inserted(capture.events, number, state)];
    }
  }
}

function without({ capture }, number) { return [["without it", capture.events.toSpliced(number - 1, 1)]]; }

// The events with one at another place
const moved = ({ events }, number, to) => inserted(events.toSpliced(number - 1, 1), to, events[number - 1]);

// Before or after another one that meets it at a wrong pixel, or that is its neighbour
function* moves({ capture, samples }, number) {
  const draws = capture.those(DRAWN), at = draws.indexOf(number), near = [...draws.slice(Math.max(0, at - 3), at), ...draws.slice(at + 1, at + 4)];
  const all = [...new Set([...near, ...touched(capture, samples)])].filter(other => other !== number).sort(ascending);
  const nearest = all.sort((one, two) => Math.abs(one - number) - Math.abs(two - number)).slice(0, MOST_MOVES);
  for (const other of nearest) yield [`drawn ${other < number ? "before" : "after"} event ${other}`, moved(capture, number, other)];
  for (const other of nearest) {         // with the state events that stand between
    const [side, to] = other < number ? ["after", other + 1] : ["before", other - 1];
    yield [`drawn ${side} event ${other}`, moved(capture, number, to)];
  }
  yield ["drawn at the end", moved(capture, number, capture.events.length)];
}

function touched(capture, samples) {
  const met = new Set(samples.flatMap(({ entries }) => entries.map(({ event }) => event)));
  return capture.those(DRAWN).filter(number => met.has(number));
}

// A state that is set later or earlier: on the other side of a draw
function stateMoves({ capture }, number) {
  const draws = capture.those(DRAWN), some = [...draws.filter(draw => draw < number).slice(-3), ...draws.filter(draw => draw > number).slice(0, 3)];
  return some.map(other => [`set ${other < number ? "before" : "after"} event ${other}`, moved(capture, number, other)]);
}

function exchanged({ capture: { events }, capture, samples }, number) {
  const later = touched(capture, samples).filter(other => other > number).slice(0, MOST_MOVES);
  return later.map(other => [`exchanged with event ${other}`, events.with(number - 1, events[other - 1]).with(other - 1, events[number - 1])]);
}

// Drawn twice, or a clear that is missing later on
function doubled({ capture: { events }, capture, samples }, number) {
  const later = touched(capture, samples).filter(other => other > number + 1).slice(0, MOST_MOVES);
  const again = at => inserted(events, at, events[number - 1]);
  return [["twice", again(number)], ...later.map(other => [`once more before event ${other}`, again(other)])];
}
