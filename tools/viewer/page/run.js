// The run behind the page: lines out, replies back. The token came behind the # of the address, which the browser sends to nobody; a place may stand there too.

import { patched } from "./image.js";

/** @typedef {import("./types").Change} Change */
/** @typedef {import("./types").Fetched} Fetched */
/** @typedef {import("./types").Image} Image */
/** @typedef {import("./types").Mesh} Mesh */
/** @typedef {import("./types").Part} Part */
/** @typedef {import("./types").Reply} Reply */
/** @typedef {import("./types").Source} Source */
/** @typedef {import("./beside.js").Beside} Beside */
/** @typedef {import("./tabs.js").Tabs} Tabs */

const words = location.hash.slice(1).split("&"), place = words.filter(word => word.includes("=")).join("&");
const token = words.find(word => word && !word.includes("=")) || sessionStorage.getItem("token") || "";
sessionStorage.setItem("token", token);
history.replaceState(null, "", location.pathname + (place && `#${place}`));

export const firstPlace = () => place;

const REFUSED = 400;                  // whose text says why

export class Ended extends Error {}
export class Stopped extends Error {}

// Pages of one run tell each other of switches; those in another browser are noticed by the count that comes with each answer
const others = new BroadcastChannel("switches");
let foreign = false;
/** @type {number | null} */
let switches = null;
/** @type {Fetched | null} */
let newest = null;                    // the image that came last
/** @type {(told: (message: MessageEvent) => void) => void} */
export const onForeign = told => { others.onmessage = told; };
/** @type {(told: () => void) => void} */
export const onCapture = told => {};        // this run has one capture; that of the page alone has others

/** @type {(path: string, body?: BodyInit, headers?: Record<string, string | number>) => Promise<Response>} */
async function call(path, body = undefined, headers = {}) {
  const answer = await fetch(path, { method: body === undefined ? "GET" : "POST", body, headers: /** @type {Record<string, string>} */ ({ "X-Token": token, ...headers }), cache: "no-store" });
  if (answer.status === 410) {
    const { ended, stopped } = await answer.json();
    throw stopped ? new Stopped() : new Ended(ended);
  }
  if (!answer.ok) throw new Error(`${answer.status === REFUSED ? "" : `${answer.status} `}${(await answer.text()).trim()}`);
  return answer;
}

// The replies to some lines, with no other caller's between: { text, lines?, left_out?, image? }. Of an image the part in the window comes.
// A run beside may answer them, "end" or "depths": it has the same events off, and where it stands is nobody else's. Or it answers more lines after them, in the same call
/** @type {(lines: string[], window?: number[] | null, beside?: string | null, atEnd?: string[]) => Promise<Reply[]>} */
export async function ask(lines, window = null, beside = null, atEnd = []) {
  const isOther = beside === "other";             // whose answers come at any time: no image of ours follows on one of theirs
  const headers = { "X-Base": isOther ? 0 : newest?.number ?? 0, ...(window && { "X-Window": window.join(" ") }), ...(beside && { "X-Run": beside }), ...(atEnd.length && { "X-End": atEnd.length }) };
  const { told, images } = await repliesIn(await call("/commands", [...lines, ...atEnd, ""].join("\n"), headers));
  for (const [image, sent] of images) {
    if (newest && image.base && image.bands) Object.assign(image, { bytes: patched(newest, image.bands, sent), delta: { base: newest.number, bands: image.bands } });
    else image.bytes = sent.slice();                // a copy begins at a whole word, so it can be read by words
    if (!isOther) newest = image;
  }
  if (isOther) return told.replies;
  const [before, after] = told.switches;
  foreign ||= switches !== null && switches !== before;
  if (after !== before) others.postMessage(after);
  switches = after;
  return told.replies;
}

// What a call is answered with, and its images, each with the bytes that were sent of it
/** @type {(answer: Response) => Promise<{ told: { replies: Reply[], switches: [before: number, after: number] }, images: [Fetched, Uint8Array][] }>} */
async function repliesIn(answer) {
  const bytes = new Uint8Array(await answer.arrayBuffer()), cut = bytes.indexOf(10), told = JSON.parse(new TextDecoder().decode(bytes.subarray(0, cut)));
  let at = cut + 1;
  const sent = /** @type {any[]} */ (told.replies).filter(({ image }) => image);          // as yet without its bytes, but with their number
  const images = sent.map(({ image }) => /** @type {[Fetched, Uint8Array]} */ ([image, bytes.subarray(at, at += image.bytes)]));
  return { told, images };
}

// Whether events were switched by somebody else since this was asked last
export function switchedElsewhere() {
  const was = foreign;
  foreign = false;
  return was;
}

/** @type {() => Promise<string>} */
export const captureName = async () => (await (await call("/capture")).json()).name;

export async function restart() {
  await call("/restart", "");
  switches = null;
  others.postMessage(null);
}

// Ends the run in the midst of what it is at; another begins with the same events off
export const stop = () => call("/stop", "");

// Who made the image at the end of the frame differ from a whole picture (blame.js): what is found, and the samples of the picture after the best change
/** @type {(picture: Image, by: number, told: (tried: number) => void) => Promise<any>} */
export async function blame({ width, height, bytes, hasAlpha }, by, told) {
  const picture = new Blob([`P7\nWIDTH ${width}\nHEIGHT ${height}\nDEPTH 4\nMAXVAL 255\nTUPLTYPE RGB_ALPHA\nENDHDR\n`, bytes]);
  const answer = await call("/blame", picture, { "X-Tolerance": [by, by, by, hasAlpha === false ? 255 : by].join(" ") });
  const found = new Uint8Array(await answer.arrayBuffer()), cut = found.indexOf(10);
  return { ...JSON.parse(new TextDecoder().decode(found.subarray(0, cut))), samples: found.slice(cut + 1) };
}
export const stopBlame = () => call("/blame/stop", "");

// The picture at the end of the frame after a change of an event (whatif.js), and the capture that is changed so
/** @type {(change: Change) => Promise<{ width: number, height: number, samples: Uint8Array }>} */
export async function changed(change) {
  const bytes = new Uint8Array(await (await call("/changed", JSON.stringify(change))).arrayBuffer()), cut = bytes.indexOf(10);
  return { ...JSON.parse(new TextDecoder().decode(bytes.subarray(0, cut))), samples: bytes.slice(cut + 1) };
}
/** @type {(change: Change) => Promise<ArrayBuffer>} */
export const changedCapture = async change => (await call("/changed/capture", JSON.stringify(change))).arrayBuffer();

// A run of another capture, for the view of the card: lines in, replies out. There is one at a time
/** @type {(bytes: Uint8Array) => { ask: (lines: string[]) => Promise<Reply[]>, end: () => void }} */
export function openCapture(bytes) {
  /** @type {number | null} */
  let number = null;
  return {
    async ask(lines) {
      number ??= (await (await call("/card", bytes)).json()).run;
      const { told, images } = await repliesIn(await call("/card/commands", [...lines, ""].join("\n"), { "X-Card": Number(number) }));
      for (const [image, sent] of images) image.bytes = sent.slice();
      return told.replies;
    },
    end: () => number === null || call("/card/end", String(number)).catch(() => {}),
  };
}

// The capture that is shown, as its file has it
/** @type {() => Promise<{ name: string, bytes: Uint8Array }>} */
export const ownCapture = async () => ({ name: await captureName(), bytes: new Uint8Array(await (await call("/capture/file")).arrayBuffer()) });
// Another capture beside this one (beside.js), or none: what differs, where the server knows of one; and in which words the pictures differ
export const takesBeside = true;
/** @type {() => Promise<Beside | null>} */
export const differing = async () => (await call("/beside")).json();
/** @type {(file: File | null) => Promise<Beside | null>} */
export const putBeside = async file => (await call("/beside", file ? await file.arrayBuffer() : "", { "X-Name": JSON.stringify(file?.name ?? "").replace(/[^\x20-\x7e]/g, c => `\\u${c.charCodeAt(0).toString(16).padStart(4, "0")}`) })).json();
/** @type {() => Promise<string[]>} */
export const wherePicturesDiffer = async () => (await call("/beside/pictures", "")).json();

// The depths of a part at a position, in one go; a run beside answers, which has the same events off
/** @type {(position: number, part: Part) => Promise<Uint16Array>} */
export async function depths(position, { left, top, every, columns, rows }) {
  const bytes = await (await call("/depths", [position, left, top, every, columns, rows].join(" "))).arrayBuffer();
  return new Uint16Array(bytes);
}

// The corners of a triangle in pixels, as the capture's file has them, or null where that is too large to be read for it
/** @type {(event: number, number: number) => Promise<[x: number, y: number][] | null>} */
export const triangle = async (event, number) => (await call("/triangle", `${event} ${number}`)).json();

// A draw as the capture's file has it (mesh.js), or null
/** @type {(event: number) => Promise<Mesh | null>} */
export const draw = async event => (await call("/draw", String(event))).json();

// Of a frame with more targets { tabs: [{ name, target, address, own }], reads: [{ position, target, address, at }] }; null without
/** @type {() => Promise<Tabs | null>} */
export const frameOf = async () => (await call("/frame")).json();

// The calls that events come from, as the capture's file has them: [number, { event, name, until, and what else is told (origin.js) }]
/** @type {() => Promise<[number, Source][]>} */
export const sources = async () => (await call("/sources")).json();
