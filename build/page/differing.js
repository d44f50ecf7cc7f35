// Two captures that differ in some events: how these are paired, and where their pictures first differ on the way
// through both. In the words of fdb --diff and of the viewer's server.

import { aligned } from "./aligned.js";
import { unlike } from "./contents.js";

const MOST_TOLD = 10_000;       // events that differ; the rest is counted
const WRITERS = ["draw", "clear", "depth_clear"];
const SORTS = ["same", "changed", "moved", "went", "came"];

// The steps through both, and where events went that moved. An event moved that isn't in its order, and stands
// elsewhere in the other
export function stepsThrough(contents) {
  const keys = contents.map(({ keys }) => keys), kinds = contents.map(({ kinds }) => [...kinds]);
  const plain = aligned(...keys, kinds), waiting = new Map(), moves = new Map();
  const alike = plain.filter(([i, j]) => i && j && keys[0][i - 1] === keys[1][j - 1]);
  const together = [0, 1].map(side => new Set(alike.map(step => step[side])));
  keys[1].forEach((key, at) => {
    if (!together[1].has(at + 1)) waiting.get(key)?.push(at + 1) ?? waiting.set(key, [at + 1]);
  });
  keys[0].forEach((key, at) => {
    if (!together[0].has(at + 1) && waiting.get(key)?.length) moves.set(at + 1, waiting.get(key).shift());
  });
  // kinds of their own: no other event takes them for its changed one
  for (const [number, to] of moves) [kinds[0][number - 1], kinds[1][to - 1]] = [`from ${number}`, `to ${to}`];
  return [moves.size ? aligned(...keys, kinds) : plain, moves];
}

// What the page shows of both: { last, size, steps, told, left_out, counts }
export function differences(contents, [steps, moves]) {
  const told = [], counts = Object.fromEntries(SORTS.map(sort => [sort, 0])), arrived = new Set(moves.values());
  let at = [0, 0], leftOut = 0;
  for (const [i, j] of steps) {
    at = [i || at[0], j || at[1]];
    if (!i && arrived.has(j)) continue;
    const sort = i && j ? isSame(contents, i, j) ? "same" : "changed" : j ? "came" : moves.has(i) ? "moved" : "went";
    counts[sort]++;
    if (sort === "same") continue;
    if (told.length < MOST_TOLD) told.push([sort, ...at, tellOne(contents, sort, i, j)]);
    else leftOut++;
  }
  const [, { events, size }] = contents;
  return { last: events.length, size, steps: runsOf(steps), told, left_out: leftOut, counts };
}

const isSame = ([one, other], i, j) => one.keys[i - 1] === other.keys[j - 1];

function tellOne([one, other], sort, i, j) {
  if (sort !== "changed") return j ? other.told(j) : one.told(i);
  const [before, after] = [one.told(i), other.told(j)];
  return before === after ? `${before}: ${unlike(one.members(i), other.members(j))}` : `${before}, and then ${after}`;
}

// Steps as runs: [number in the one, number in the other, how many]; those of one sort that follow one another are one
function runsOf(steps) {
  const runs = [];
  for (const [i, j] of steps) {
    const last = runs.at(-1);
    if (last && !last[0] === !i && !last[1] === !j) last[2]++;
    else runs.push([i, j, 1]);
  }
  return runs;
}

// ---- Pictures
// Where they first differ, and by how much there and at the end. Each of the runs has ask(lines)
export async function tellPictures(runs, contents, steps) {
  if (`${contents[0].size}` !== `${contents[1].size}`) return ["pictures have other sizes"];
  const found = await firstDifference(runs, contents, steps);
  if (!found) return ["pictures differ nowhere"];
  const ends = contents.map(({ events }) => events.length);
  return [`pictures first differ at ${found.at.join(" and ")}`, ...tellImages(...found.images), "at the end",
    ...tellImages(...await picturesAt(runs, ends))];
}

// Where nothing was drawn otherwise and the states are the same, events that are the same keep it so, and are gone over
// at once. Depths aren't looked at: with a depth test they may differ unseen
async function firstDifference(runs, contents, steps) {
  const hasDepth = contents.some(({ kinds }) => kinds.includes("depth"));
  let isAlike = true, hasWritten = false, at = [0, 0];
  for (const [i, j] of steps) {
    at = [i || at[0], j || at[1]];
    const kinds = [i && contents[0].kinds[i - 1], j && contents[1].kinds[j - 1]].filter(Boolean);
    if (isAlike && (i && j && isSame(contents, i, j) || kinds.every(kind => kind === "marker"))) continue;
    if (kinds.some(kind => WRITERS.includes(kind))) {
      hasWritten = true;
      const images = await picturesAt(runs, at);
      if (images[0].bytes.some((byte, p) => byte !== images[1].bytes[p])) return { at, images };
    }
    isAlike = !(hasWritten && hasDepth) && await haveSameStates(runs, at, hasDepth);
    hasWritten &&= !isAlike;
  }
  return null;
}

async function picturesAt(runs, positions) {
  const replies = await Promise.all(runs.map((run, side) => run.ask([`goto ${positions[side]}`, "show"])));
  const isThere = replies.every(([{ text }], side) => text === `at ${positions[side]}`);
  if (!isThere) throw new Error("no more memory to compare both captures");
  return replies.map(([, { image }]) => image);
}

async function haveSameStates(runs, positions, hasDepth) {
  const replies = await Promise.all(runs.map((run, side) => run.ask([`goto ${positions[side]}`, "state"])));
  const [one, other] = replies.map(([, { text }]) => hasDepth ? text : text.replace(/ depth .*$/, ""));
  return one === other;
}

// How many pixels differ, in which box, and where the most; of several the first, row by row
function tellImages(one, other) {
  const { columns, rows, left, top, every } = one, box = [Infinity, Infinity, 0, 0];
  let count = 0, most = -1, place = null;
  for (let at = 0; at < columns * rows; at++) {
    let by = 0;
    for (let c = 4 * at; c < 4 * at + 4; c++) by = Math.max(by, Math.abs(one.bytes[c] - other.bytes[c]));
    if (!by) continue;
    const x = left + at % columns * every, y = top + Math.floor(at / columns) * every;
    count++;
    for (const [side, place] of [x, y].entries()) box[side] = Math.min(box[side], place);
    for (const [side, place] of [x, y].entries()) box[2 + side] = Math.max(box[2 + side], place + 1);
    if (by > most) [most, place] = [by, { x, y, at }];
  }
  if (!count) return ["images: the same"];
  const colours = [one, other].map(({ bytes }) => [...bytes.subarray(4 * place.at, 4 * place.at + 4)].join(" "));
  const all = `${columns * rows} pixels${every > 1 ? " that were looked at" : ""}`;
  return [`images: ${count} of ${all} differ, in the box ${box.join(" ")}`,
    `most at ${place.x} ${place.y}: ${colours.join(", and then ")}`];
}
