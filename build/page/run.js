// The run behind the page alone: the program itself, in a worker of this page. Lines out, replies back; there is no server.
// It has the names of the viewer's own run.js, so the rest of the viewer doesn't know.

import { Capture } from "./capture.js";
import { chooseCaptures } from "./choose.js";
import { Contents } from "./contents.js";
import { differences, stepsThrough, tellPictures } from "./differing.js";
import { bandsBetween } from "./image.js";
import { toldOf } from "./origin.js";
import { unpack } from "./packed.js";
import { explained } from "./refused.js";
import { positionIn } from "./replies.js";
import { Ended, MOST_LINES, Runner, Stopped } from "./runner.js";
import { Search } from "./search.js";

const WORDS = ["framedbg", "run", "--workers", "1", "CAPTURE"];
const MAX_OUTLINED = 32 << 20;     // bytes of a capture, for outlines without its pictures, that is read for outlines, and changed by a search
const TEXTS = /"(texels|holes)"(\s*:\s*)"[^"\\]*"/g;       // of pictures, which no outline needs
const PIXEL = 65536;               // positions are in 1/65536 pixel
const SECOND = "other";            // the run of a capture that is shown beside
const TOO_LARGE = "a capture of more than 32 MiB isn't shown beside another here: tools/view does it";

export { Ended, Stopped };

const text = name => document.getElementById(name).textContent;
const script = URL.createObjectURL(new Blob([text("program")], { type: "text/javascript" }));
const program = unpack(text("module")).then(bytes => WebAssembly.compile(bytes));
const main = new Runner(started), beside = new Map();      // the run that the page moves, and those that stand elsewhere
let turn = Promise.resolve(), events = null, hasDepths = true, capture, tried = null, newest = null, images = 0, stops = 0, search = null, second = null, tellCapture = () => {};

// What the address says, or the saved page of the capture that it opens
export const firstPlace = () => {
  const { opens, place = "" } = document.getElementById("own").dataset;
  return location.hash.slice(1) || (opens === undefined ? "" : place);
};
// Nobody else switches events here
export const onForeign = () => {};
export const switchedElsewhere = () => false;
// Another capture has been taken, and the run is its own
export const onCapture = told => { tellCapture = told; };

// One that framedbg refuses is told, and what is shown stays; the run that read another one goes on as the page's own
const chosen = new Promise(resolve => chooseCaptures(async other => {
  const run = new Runner(() => workerOf(other.bytes)), isFirst = !capture;
  tried?.end(new Stopped());
  tried = run;
  try {
    await run.ask(["state"], null);
    if (tried !== run) throw new Stopped();         // another one was chosen meanwhile
  } catch (fault) {
    run.end(fault);
    throw fault instanceof Ended ? new Ended(explained(fault.message, other.bytes)) : fault;
  }
  [capture, events, tried] = [other, null, null];
  endBeside(new Error(`${capture.name} is shown now`));
  second = null;
  main.takeOver(run, new Error(`${capture.name} is shown now`));
  if (isFirst) resolve();
  else tellCapture();
}, drawOther));

function endBeside(why) {
  for (const run of beside.values()) run.end(why);
  beside.clear();
}

function end(why) {
  main.end(why);
  endBeside(why);
}

// Unless something is stopped before that
async function isChosen() {
  const before = stops;
  await Promise.all([program, chosen]);
  if (before !== stops) throw new Stopped();
}

// A worker with the program in it, and the capture
async function started() {
  await isChosen();
  return workerOf(capture.bytes);
}

async function workerOf(bytes) {
  const compiled = await program, worker = new Worker(script);
  worker.postMessage({ program: compiled, words: WORDS, capture: bytes });
  return worker;
}

// The image of a capture that isn't the chosen one
async function drawOther(bytes) {
  const run = new Runner(() => workerOf(bytes)), [{ text: told }] = await run.ask(["events"], null), [, { image }] = await run.ask([`goto ${told.split(" ")[1]}`, "show"], null);
  run.end(new Ended("drawn"));
  return image;
}

// A run of another capture, for the view of the card: lines in, replies out. Where it has answered all lines that it may, another goes on there
export function openCapture(bytes) {
  const run = new Runner(() => workerOf(bytes));
  let position = 0;
  return {
    async ask(lines) {
      if (run.lines + lines.length > MOST_LINES) {
        await run.start();
        await run.ask([`goto ${position}`], null);
      }
      const replies = await run.ask(lines, null).catch(fault => { throw fault instanceof Ended ? new Ended(explained(fault.message, bytes)) : fault; });
      position = replies.reduce((at, { text }) => positionIn(text) ?? at, position);
      return replies;
    },
    end: () => run.end(new Ended("drawn")),
  };
}

// The capture that is shown
export const ownCapture = async () => {
  if (!capture) throw new Error("no capture is shown yet");
  return capture;
};

const inTurn = job => {
  const done = turn.then(job);
  turn = done.catch(() => {});
  return done;
};

// The replies to some lines, with no other caller's between: { text, lines?, left_out?, image? }. Of an image the part in the window comes.
// A run beside may answer them, "end" or "depths": it has the same events off, and where it stands is nobody else's. Or it answers more lines after them
export const ask = (lines, window = null, name = null, atEnd = []) => inTurn(async () => {
  await isChosen();
  if (name) return askBeside(name, lines, window);
  const own = follow(await main.ask(lines, window));
  return atEnd.length ? [...own, ...await askBeside("end", atEnd, window)] : own;
});

async function askBeside(name, lines, window) {
  if (name === SECOND && !second) throw new Error("no capture is shown beside");
  if (!beside.has(name)) beside.set(name, new Runner(name === SECOND ? () => workerOf(second.bytes) : started));
  const run = beside.get(name);
  try {
    await run.follow(name === SECOND ? new Set() : main.off, lines.length);        // all events of another capture are on
    return await run.ask(lines, window);
  } catch (fault) {
    run.end(fault);
    beside.delete(name);
    throw fault;
  }
}

// Each image has a number, and knows in which rows it differs from the one before it
function follow(replies) {
  for (const { image } of replies) {
    if (!image) continue;
    image.number = ++images;
    if (newest && ["width", "left", "top", "every", "columns", "rows"].every(side => newest[side] === image[side])) image.delta = { base: newest.number, bands: bandsBetween(image, newest) };
    newest = image;
  }
  return replies;
}

export const captureName = async () => { await chosen; return capture.name; };
export const restart = () => inTurn(() => {
  main.off.clear();
  end(new Ended("started again"));
});

// Ends the run in the midst of what it is at; another begins with the same events off where something is asked
export async function stop() {
  stops++;
  end(new Stopped());
}

// Who made the image at the end of the frame differ from a whole picture (blame.js): what is found, and the samples of the picture after the best change.
// It is told how many changes were tried
export async function blame(picture, by, told) {
  if (capture.bytes.length > MAX_OUTLINED) throw new Error("a capture of more than 32 MiB isn't searched here: framedbg-blame does it");
  search = new Search(new Capture(capture.bytes, main.off), picture, by, { open: workerOf, told });
  return search.run();
}
export const stopBlame = () => search.stop();

// The picture at the end of the frame after a change of an event (whatif.js), and the capture that is changed so; events that are off are none in it
export async function changedCapture(change) {
  const its = new Capture(capture.bytes, main.off), { events } = its;
  if (change.move) return its.bytesOf(events.toSpliced(change.move - 1, 1).toSpliced(change.to - 1, 0, events[change.move - 1]));
  return its.bytesOf(events.with(change.set - 1, { ...events[change.set - 1], ...change.members }));
}

export async function changed(change) {
  const bytes = await changedCapture(change);
  try {
    const { width, height, bytes: samples } = await drawOther(bytes);
    return { width, height, samples };
  } catch (fault) {
    throw fault instanceof Ended ? new Error(explained(fault.message, bytes).split("\n").at(-1)) : fault;      // the place alone, as the server says it
  }
}

// Depths are asked for by lines
export const depths = null;

// Another capture beside this one (beside.js), or none: what differs, and in which words the pictures do. It has a run of its own
export const takesBeside = true;
export const differing = async () => null;

export async function putBeside(file) {
  if (!file) return endSecond();
  const bytes = new Uint8Array(await file.arrayBuffer()), run = openCapture(bytes);
  if (Math.max(bytes.length, capture.bytes.length) > MAX_OUTLINED) throw new Error(TOO_LARGE);
  try {
    await run.ask(["state"]);        // what is refused is told, and what is beside stays
  } finally {
    run.end();
  }
  const contents = [capture.bytes, bytes].map(its => new Contents(its)), found = stepsThrough(contents);
  endSecond();
  second = { bytes, contents, steps: found[0] };
  return { name: file.name, ...differences(contents, found) };
}

export async function wherePicturesDiffer() {
  const { contents, steps } = second, runs = [capture.bytes, second.bytes].map(openCapture);
  try {
    return await tellPictures(runs, contents, steps);
  } finally {
    for (const run of runs) run.end();
  }
}

function endSecond() {
  beside.get(SECOND)?.end(new Error("another capture is shown beside, or none"));
  beside.delete(SECOND);
  return second = null;
}

// An event of the capture, or undefined where that is too large to be read for it
function eventOf(number) {
  const { bytes } = capture;
  events ??= eventsIn(new TextDecoder().decode(bytes).replace(TEXTS, '"$1"$2""'));
  return events[number - 1];
}

// Depths that stand in a capture of version 1 are passed over
function eventsIn(text) {
  const read = text.length > MAX_OUTLINED ? { events: [] } : JSON.parse(text);
  hasDepths = read.version !== 1;
  return read.events;
}

// The corners of a triangle in pixels, as the capture has them, or null
export async function triangle(event, number) {
  try {
    const { vertices, indices } = eventOf(event), corners = [0, 1, 2].map(i => vertices[indices ? indices[3 * number + i] : 3 * number + i]);
    return corners.map(({ x, y }) => [x / PIXEL, y / PIXEL]);
  } catch {
    return null;
  }
}

// A draw as the capture has it (mesh.js), or null
export async function draw(event) {
  const { interp, vertices, indices = null, picture } = eventOf(event) ?? {};
  if (!vertices) return null;
  if (interp !== "picture") return { interp, vertices: vertices.map(({ x, y, z = null, color }) => [x, y, hasDepths ? z : null, color]), indices };
  const { left, top, width, height } = picture;
  return { interp, vertices: vertices.map(({ x, y, z }) => [x, y, z, null]), indices, picture: [left, top, width, height] };
}

// The page alone has one capture, and no other targets of its frame
export const frameOf = async () => null;

// The calls that events come from: [number, { event, name, until, and what else is told (origin.js) }]
export async function sources() {
  try {
    eventOf(0);
    return events.flatMap(({ source }, i) => Number.isInteger(source?.event) ? [[i + 1, { event: source.event, name: String(source.name ?? ""), until: source.until ?? null, ...toldOf(source) }]] : []);
  } catch {
    return [];
  }
}
