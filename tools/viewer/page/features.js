// The features that a card is tried on, by name: the scenes of framedbg-driver, byte by byte.

import { box, HALF, PIXEL, REPLACE, Scene, SIDE, times } from "./scene.js";

/** @typedef {import("./types").Capture} Capture */
/** @typedef {import("./types").Draw} Draw */
/** @typedef {import("./types").Vertex} Vertex */
/** @typedef {import("./dice.js").Dice} Dice */
/** @typedef {(it: Scene) => void} Feature */

const FACTORS = ["ZERO", "ONE", "SRC_COLOR", "INV_SRC_COLOR", "SRC_ALPHA", "INV_SRC_ALPHA", "DEST_ALPHA", "INV_DEST_ALPHA", "DEST_COLOR",
  "INV_DEST_COLOR", "BLEND_FACTOR", "INV_BLEND_FACTOR"];
const ALPHA_FACTORS = FACTORS.filter(name => !name.endsWith("_COLOR"));
const OPERATIONS = ["ADD", "SUBTRACT", "REV_SUBTRACT", "MIN", "MAX"], CULLS = ["none", "front", "back"];
const FUNCTIONS = ["NEVER", "LESS", "EQUAL", "LESS_EQUAL", "GREATER", "NOT_EQUAL", "GREATER_EQUAL", "ALWAYS"];
const OVER = ["SRC_ALPHA", "INV_SRC_ALPHA", "ADD"], SUM = ["ONE", "ONE", "ADD"];
const DEEP = 65_535, LEAST_EDGE = -(2 ** 31), MOST_EDGE = 2 ** 31 - 1;
export const WHOLE = "every ";          // features that begin so have one scene

/** @template T @param {() => T} made @returns {T[]} */
const four = made => times(4, made);
/** @type {(dice: Dice) => number} */
const byte = dice => dice.below(256);

/** @type {(it: Scene) => Draw} */
const lastOf = it => /** @type {Draw} */ (it.events[it.events.length - 1]);

// ---- Coverage
/** @type {Feature} */
function sharedEdges(it) {
  it.blend(SUM, { alpha: SUM });
  const columns = it.dice.between(3, 12), rows = it.dice.between(3, 12);
  const push = Math.floor(Math.floor(SIDE * PIXEL / Math.max(columns, rows)) / 4);
  const triangles = it.mesh(columns, rows, it.dice.choice([it.step, 4096, HALF]), push);
  it.draw(triangles, triangles.flatMap(() => Array(3).fill([40, 40, 40, 40])));
}

/** @type {Feature} */
function topLeftRule(it) {
  for (let turn = 0; turn < 4; turn++) {
    it.flat(times(8, () => {
      const size = it.dice.between(1, 24) * PIXEL, [x, y] = times(2, () => it.dice.below(SIDE) * PIXEL + HALF);
      const first = it.dice.choice([[1, 1], [1, 2], [2, 1], [1, 0], [0, 1], [1, 3]]), second = it.dice.choice([[1, -1], [0, 1], [-1, 0], [-1, 1], [2, -1]]);
      const corners = [[0, 0], first, second].map(([i, j]) => [x + i * size, y + j * size]);
      return it.dice.isSo(5) ? corners : corners.reverse();
    }));
  }
}

/** @type {(it: Scene, isLinear?: boolean) => void} */
function slivers(it, isLinear = false) {
  for (let turn = 0; turn < 4; turn++) {
    const triangles = times(60, () => {
      const start = it.place(), end = it.place();
      return [start, end, end.map(part => part + it.dice.between(-96, 97) * it.step)];
    });
    if (isLinear) it.linear(triangles);
    else it.flat(triangles);
  }
}

/** @type {Feature} */
function smallTriangles(it) {
  for (let turn = 0; turn < 4; turn++) {
    const places = times(120, () => it.place(0));
    it.flat(places.map(place => [place, it.near(place, 3 * HALF), it.near(place, 3 * HALF)]));
  }
}

/** @type {(reach: number, isLinear?: boolean) => Feature} */
const huge = (reach, isLinear = false) => it => {
  const far = () => times(2, () => it.dice.between(-reach, reach) * PIXEL);
  for (let turn = 0; turn < 4; turn++) {
    const triangles = times(4, () => [far(), far(), it.dice.isSo(4) ? it.place() : far()]);
    if (isLinear) it.linear(triangles);
    else it.flat(triangles);
  }
};

// ---- Colours
/** @type {Feature} */
function flat(it) {
  for (let turn = 0; turn < 4; turn++) {
    const triangles = it.soup(6), indices = turn % 2 ? null : times(18, () => it.dice.below(18));
    it.draw(triangles, times(18, () => it.any()), { indices });
  }
}

/** @type {Feature} */
function linearHalfway(it) {
  for (let turn = 0; turn < 3; turn++) {
    const triangles = [], colours = [];
    for (const pair of it.cells(16)) {
      const first = it.any(), second = it.any(), third = it.any();
      triangles.push(...pair);
      colours.push(first, second, third, second, third, third);
    }
    it.draw(triangles, colours, { interp: "linear" });
  }
}

/** @type {(name: string, isSource: boolean) => Feature} */
const factor = (name, isSource) => it => {
  it.mosaic();
  it.factor(...it.any());
  const part = isSource ? [name, "ZERO", "ADD"] : ["ZERO", name, "ADD"];
  it.blend(part, { alpha: ALPHA_FACTORS.includes(name) ? part : REPLACE });
  it.mosaic();
};

/** @type {(name: string) => Feature} */
const operation = name => it => {
  it.mosaic();
  it.blend(["ONE", "ONE", name], { alpha: ["ONE", "ONE", name] });
  it.mosaic();
};

/** @type {Feature} */
function alphaOver(it) {
  it.mosaic();
  it.blend(OVER, { alpha: ["ONE", "INV_SRC_ALPHA", "ADD"] });
  it.mosaic();
}

/** @type {Feature} */
function anyBlending(it) {
  it.mosaic();
  for (let turn = 0; turn < 4; turn++) {
    it.factor(...it.any());
    const [rgb, alpha] = [FACTORS, ALPHA_FACTORS].map(names => [it.dice.choice(names), it.dice.choice(names), it.dice.choice(OPERATIONS)]);
    it.blend(rgb, { alpha });
    it.mosaic();
  }
}

// All pairs of a source's byte (its column) and a destination's (its row)
/** @type {(rgb: string[], alpha?: number | null) => Feature} */
const everyPair = (rgb, alpha = 255) => it => {
  it.side = 256;
  for (const isRow of [true, false]) {
    const bytes = times(256, n => n), pairs = bytes.map(n => isRow ? box(0, n, 256, n + 1) : box(n, 0, n + 1, 256));
    it.draw(pairs.flat(), bytes.flatMap(n => Array(6).fill([n, n, 255 - n, alpha ?? n])));
    it.blend(rgb);
  }
};

// ---- State
/** @type {Feature} */
function mask(it) {
  it.mosaic(8);
  for (let bits = 0; bits < 16; bits++) {
    it.blend(bits % 2 ? REPLACE : SUM, { mask: bits, enable: it.dice.isSo(5) });
    it.flat(it.soup(3));
  }
}

/** @type {Feature} */
function scissor(it) {
  const edge = () => it.dice.choice([0, SIDE, it.dice.between(-9, SIDE + 9), it.dice.below(SIDE), LEAST_EDGE, MOST_EDGE]);
  for (let turn = 0; turn < 10; turn++) {
    it.scissor(...four(edge));
    it.raster("none", false, it.dice.isSo(8));
    it.flat(it.soup(4));
  }
}

/** @type {Feature} */
function culling(it) {
  for (let turn = 0; turn < 3; turn++) {
    for (const cull of CULLS) {
      for (const isCounter of [false, true]) {
        it.raster(cull, isCounter);
        const places = times(10, () => it.place(0));
        it.flat([...it.soup(3), ...places.map(place => [place, it.near(place, 3 * PIXEL), it.near(place, 3 * PIXEL)])]);
      }
    }
  }
}

/** @type {Feature} */
function clears(it) {
  for (let turn = 0; turn < 8; turn++) {
    it.scissor(...four(() => it.dice.below(SIDE)));
    it.raster("none", false, true);
    it.blend(SUM, { mask: it.dice.below(16) });
    const enable = it.dice.isSo(5), write = it.dice.isSo(5);
    it.depth(it.dice.choice(FUNCTIONS), { enable, write });
    it.clear(...four(() => byte(it.dice)));
    it.depthClear(it.dice.below(DEEP + 1));
  }
}

/** @type {Feature} */
function oddLists(it) {
  for (let turn = 0; turn < 4; turn++) {
    const p = it.place(), q = it.place();
    it.flat([[p, p, q], [p, q, q], [p, q, q.map((b, axis) => 2 * b - p[axis])], [p, p, p], ...it.soup(2)]);
    const { vertices } = lastOf(it);
    vertices.push(...vertices.slice(0, it.dice.below(3)));
    it.add({ kind: "draw", interp: "flat", vertices: [] });
    const indices = times(it.dice.below(12), () => it.dice.below(vertices.length));
    it.add({ kind: "draw", interp: "flat", vertices, indices });
  }
}

/** @type {Feature} */
function order(it) {
  it.blend(OVER);
  for (let turn = 0; turn < 3; turn++) {
    const triangles = it.soup(20), colours = triangles.map(() => four(() => it.dice.choice([0, 255])));
    it.draw(triangles, colours.flatMap(colour => [colour, colour, colour]));
  }
}

// ---- Depth
/** @type {(name: string) => Feature} */
const depthFunction = name => it => {
  it.depthClear(it.dice.choice([0, DEEP, it.dice.below(DEEP + 1)]));
  it.depth("ALWAYS");
  const levels = [0, DEEP, ...four(() => it.dice.below(DEEP + 1))];
  levels.push(...levels.map(level => Math.min(DEEP, level + 1)));
  for (let turn = 0; turn < 4; turn++) {
    const triangles = it.soup(8);
    it.flat(triangles, times(8, () => Array(3).fill(it.dice.choice(levels))).flat());
    it.depth(name, { write: it.dice.isSo(8) });
  }
};

/** @type {(it: Scene, count: number) => number[]} */
const anyDepths = (it, count) => times(3 * count, () => it.dice.choice([0, DEEP, it.dice.below(DEEP + 1), it.dice.below(DEEP + 1)]));

/** @type {Feature} */
function depthValues(it) {
  it.depth("ALWAYS");
  for (let turn = 0; turn < 3; turn++) {
    const triangles = it.soup(3);
    it.flat(triangles, anyDepths(it, 3));
  }
}

/** @type {Feature} */
function depthCrossing(it) {
  it.depth("LESS");
  for (let turn = 0; turn < 4; turn++) {
    const triangles = it.soup(4);
    it.flat(triangles, times(12, () => it.dice.below(DEEP + 1)));
  }
}

// The same triangles a second time, EQUAL: each passes where it was in front
/** @type {Feature} */
function depthAgain(it) {
  it.depth("LESS_EQUAL");
  const triangles = it.soup(6);
  it.flat(triangles, times(18, () => it.dice.below(DEEP + 1)));
  const { vertices } = lastOf(it);
  it.depth("EQUAL", { write: false });
  /** @type {(vertex: Vertex) => Vertex} */
  const turned = ({ color: [r, g, b], ...place }) => ({ ...place, color: [255 - r, 255 - g, 255 - b, 255] });
  it.add({ kind: "draw", interp: "flat", vertices: vertices.map(turned) });
}

/** @type {(prefix: string, names: string[], made: (name: string) => Feature) => Record<string, Feature>} */
const named = (prefix, names, made) => Object.fromEntries(names.map(name => [`${prefix} ${name}`, made(name)]));

/** @type {Record<string, Feature>} */
export const FEATURES = {
  subpixels: it => times(4, () => it.flat(it.soup(8))), "shared edges": sharedEdges, "top-left rule": topLeftRule, slivers: it => slivers(it),
  "small triangles": smallTriangles, "huge, to 1,000": huge(1000), "huge, to 8,000": huge(8000), "huge, to 16,000": huge(16_000),
  flat, linear: it => times(4, () => it.linear(it.soup(3))), "linear, halfway": linearHalfway, "linear, slivers": it => slivers(it, true),
  "linear, huge": huge(4000, true),
  ...named("source factor", FACTORS, name => factor(name, true)), ...named("destination factor", FACTORS, name => factor(name, false)),
  ...named("operation", OPERATIONS, operation), "alpha over": alphaOver, "any blending": anyBlending,
  mask, scissor, culling, clears, "odd lists": oddLists, order,
  ...named("depth", FUNCTIONS, depthFunction),
  "depth values": depthValues, "depth, crossing": depthCrossing, "depth, again EQUAL": depthAgain,
  "every product": everyPair(["DEST_COLOR", "ZERO", "ADD"]), "every sum": everyPair(SUM), "every difference": everyPair(["ONE", "ONE", "SUBTRACT"]),
  "every half over": everyPair(OVER, 128), "every own alpha over": everyPair(OVER, null), "every third over": everyPair(OVER, 85),
};

// A capture with its corners moved to the nearest places that so many bits of a pixel's fraction hold
/** @type {(capture: Capture, bits: number) => Capture} */
export function coarse(capture, bits) {
  const step = 2 ** (16 - bits), moved = /** @param {number} value */ value => Math.floor((value + step / 2) / step) * step;
  /** @type {(vertex: Vertex) => Vertex} */
  const place = vertex => ({ ...vertex, x: moved(vertex.x), y: moved(vertex.y) });
  /** @type {(event: Capture["events"][0]) => Capture["events"][0]} */
  const held = event => event.kind === "draw" ? { ...event, vertices: event.vertices.map(place) } : event;
  return bits >= 8 ? capture : { ...capture, events: capture.events.map(held) };
}

// A capture of a feature, with corners on so many bits of a pixel's fraction
/** @type {(feature: string, seed: number, bits?: number) => Capture} */
export function sceneOf(feature, seed, bits = 8) {
  const made = new Scene(feature, seed, bits);
  FEATURES[feature](made);
  return { format: "framedbg", version: /^(depth|clears)/.test(feature) ? 2 : 1, width: made.side, height: made.side, events: made.events };
}
