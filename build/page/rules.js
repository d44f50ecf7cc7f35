// What framedbg wants of a capture, and the first member that isn't so, in the order in which framedbg looks: tools/explaining/rules.py in the page.

import { Other } from "./json_text.js";
import { near } from "./near.js";
import { quoted } from "./printable.js";

const MOST_SIDE = 16_384, MOST_EVENTS = 1_000_000, MOST_CORNERS = 196_608, MOST_NAME = 64, FARTHEST = 65_535, MOST_POSITION = MOST_SIDE * 65_536, MOST_EDGE = 2 ** 31 - 1;
const CULLS = ["none", "front", "back"], OPERATIONS = ["ADD", "SUBTRACT", "REV_SUBTRACT", "MIN", "MAX"], INTERPOLATIONS = ["flat", "linear"], PICTURE = "picture";
const FUNCTIONS = ["NEVER", "LESS", "EQUAL", "LESS_EQUAL", "GREATER", "NOT_EQUAL", "GREATER_EQUAL", "ALWAYS"], SINCE_TWO = ["depth", "depth_clear"];
const FACTORS = ["ZERO", "ONE", "SRC_COLOR", "INV_SRC_COLOR", "SRC_ALPHA", "INV_SRC_ALPHA", "DEST_ALPHA", "INV_DEST_ALPHA", "DEST_COLOR", "INV_DEST_COLOR", "BLEND_FACTOR", "INV_BLEND_FACTOR"];
const SHOWN = 24, KEPT = 20;          // characters of a value that are shown, or of which so many are
const FAULTS = { 3: "not a capture", 4: "version", 5: "size", 6: "too many events", 7: "unknown event", 8: "bad field" };

// A fault of framedbg's list, at a path, and why
export class Wrong extends Error {
  constructor(fault, path, why) { super(why); Object.assign(this, { fault, path }); }

  // As framedbg tells it
  get verdict() { return `${this.fault} ${FAULTS[this.fault]}${this.fault >= 7 ? ` ${this.path[1] + 1}` : ""}`; }
}

// Throws Wrong where the capture is refused
export function check(capture) {
  if (!(capture instanceof Map)) throw new Wrong(3, [], `a capture is an object; this is ${told(capture)}`);
  if (capture.get("format") !== "framedbg") throw missingOr(3, capture, [], "format", 'the text "framedbg" is wanted');
  const events = capture.get("events"), version = capture.get("version");
  if (!Array.isArray(events)) throw missingOr(3, capture, [], "events", "an array is wanted");
  if (!isWhole(version, 1, 3)) throw missingOr(4, capture, [], "version", "1, 2 or 3 is wanted");
  for (const name of ["width", "height"]) if (!isWhole(capture.get(name), 1, MOST_SIDE)) throw missingOr(5, capture, [], name, `a whole number from 1 to ${MOST_SIDE} is wanted`);
  if (events.length > MOST_EVENTS) throw new Wrong(6, ["events"], `${events.length} events are more than ${MOST_EVENTS}`);
  for (const [number, event] of events.entries()) checkEvent(event, version, ["events", number]);
}

function checkEvent(event, version, path) {
  if (!(event instanceof Map)) throw new Wrong(8, path, `an event is an object; this is ${told(event)}`);
  const kind = event.get("kind"), kinds = Object.keys(KINDS).filter(name => version > 1 || !SINCE_TWO.includes(name));
  if (typeof kind !== "string") throw missingOr(8, event, path, "kind", "a text is wanted");
  if (!kinds.includes(kind)) throw new Wrong(7, [...path, "kind"], SINCE_TWO.includes(kind) ? `"${kind}" comes with version 2` : `there is no kind "${kind}"${near(kind, kinds)}`);
  KINDS[kind](event, version, path);
}

// ---- The kinds of events ----------------------------------------------------------------------------------

const KINDS = {
  clear: (event, _, path) => colour(event, path),
  raster(event, _, path) {
    oneOf(event, path, "cull", CULLS);
    flag(event, path, "front_ccw");
    flag(event, path, "scissor");
  },
  scissor: (event, _, path) => wholeNumbers(event, path, "rect", [4, -MOST_EDGE - 1, MOST_EDGE]),
  blend(event, _, path) {
    flag(event, path, "enable");
    for (const name of ["rgb", "alpha"]) blendPart(array(event, path, name, 3), [...path, name]);
    whole(event, path, "mask", 0, 15);
    for (const [i, factor] of event.get("alpha").slice(0, 2).entries()) {
      if (factor.endsWith("_COLOR")) throw new Wrong(8, [...path, "alpha", i], `${factor} is a colour, and the alpha part has none`);
    }
  },
  factor: (event, _, path) => colour(event, path),
  draw,
  marker(event, _, path) {
    const name = event.get("name"), bytes = typeof name === "string" ? new TextEncoder().encode(name).length : 0;
    if (typeof name !== "string") throw missingOr(8, event, path, "name", "a text is wanted");
    if (bytes > MOST_NAME) throw new Wrong(8, [...path, "name"], `the name's ${bytes} bytes are more than ${MOST_NAME}`);
    if (/[\x00-\x1f\x7f]/.test(name)) throw new Wrong(8, [...path, "name"], "the name has a control character");
  },
  depth(event, _, path) {
    flag(event, path, "enable");
    flag(event, path, "write");
    oneOf(event, path, "func", FUNCTIONS);
  },
  depth_clear: (event, _, path) => whole(event, path, "depth", 0, FARTHEST),
};

function blendPart(part, path) {
  for (const [i, allowed] of [FACTORS, FACTORS, OPERATIONS].entries()) {
    if (!allowed.includes(part[i])) throw new Wrong(8, [...path, i], `${i < 2 ? "a factor" : "an operation"} is wanted, not ${told(part[i])}${near(part[i], allowed)}`);
  }
}

function draw(event, version, path) {
  const hasPicture = event.get("interp") === PICTURE;
  if (hasPicture && version < 3) throw new Wrong(8, [...path, "interp"], `"${PICTURE}" comes with version 3: one of ${INTERPOLATIONS.join(", ")} is wanted`);
  if (hasPicture) picture(event, path);
  else oneOf(event, path, "interp", version === 3 ? [...INTERPOLATIONS, PICTURE] : INTERPOLATIONS);
  const vertices = array(event, path, "vertices");
  for (const [number, corner] of vertices.entries()) {
    vertex(corner, version, [...path, "vertices", number]);
    if (!hasPicture) colour(corner, [...path, "vertices", number]);
  }
  const indices = event.has("indices") ? array(event, path, "indices") : [], isAt = number => [...path, "indices", number];
  for (const [number, index] of indices.entries()) if (!isWhole(index, 0, 2 ** 32 - 1)) throw new Wrong(8, isAt(number), `a vertex' number is wanted, not ${told(index)}`);
  for (const [name, some] of [["vertices", vertices], ["indices", indices]]) {
    if (some.length > MOST_CORNERS) throw new Wrong(8, [...path, name], `${some.length} are more than ${MOST_CORNERS}`);
  }
  for (const [number, index] of indices.entries()) {
    if (index >= vertices.length) throw new Wrong(8, isAt(number), `${index} names no vertex: the draw has ${vertices.length}, numbered from 0`);
  }
}

function vertex(corner, version, path) {
  if (!(corner instanceof Map)) throw new Wrong(8, path, `a vertex is an object; this is ${told(corner)}`);
  for (const name of ["x", "y"]) whole(corner, path, name, -MOST_POSITION, MOST_POSITION, " of 1/65536 pixel");
  if (version > 1) whole(corner, path, "z", 0, FARTHEST);
}

function picture(event, path) {
  const box = event.get("picture"), inside = [...path, "picture"];
  if (!(box instanceof Map)) throw missingOr(8, event, path, "picture", "an object is wanted");
  for (const name of ["left", "top"]) whole(box, inside, name, 0, MOST_SIDE - 1, " of pixels");
  for (const name of ["width", "height"]) whole(box, inside, name, 1, MOST_SIDE);
  const [wide, high] = [box.get("width"), box.get("height")], size = `${wide} by ${high} texels`;
  inBase64(box, inside, "texels", 4 * wide * high, `four for each of ${size}`);
  if (box.has("holes")) inBase64(box, inside, "holes", Math.ceil(wide * high / 8), `a bit for each of ${size}`);
}

// ---- Members ----------------------------------------------------------------------------------------------

const isWhole = (value, low, high) => (typeof value === "number" || typeof value === "bigint") && value >= low && value <= high;

function whole(owner, path, name, low, high, unit = "") {
  if (!isWhole(owner.get(name), low, high)) throw missingOr(8, owner, path, name, `a whole number from ${low} to ${high}${unit} is wanted`);
}

function flag(owner, path, name) {
  if (typeof owner.get(name) !== "boolean") throw missingOr(8, owner, path, name, "true or false is wanted");
}

function oneOf(owner, path, name, allowed) {
  const value = owner.get(name);
  if (!allowed.includes(value)) throw missingOr(8, owner, path, name, `one of ${allowed.join(", ")} is wanted${near(value, allowed)}`);
}

function array(owner, path, name, length = null) {
  const value = owner.get(name);
  if (!Array.isArray(value) || (length !== null && value.length !== length)) throw missingOr(8, owner, path, name, length === null ? "an array is wanted" : `an array of ${length} is wanted`);
  return value;
}

function wholeNumbers(owner, path, name, [length, low, high]) {
  for (const [i, value] of array(owner, path, name, length).entries()) {
    if (!isWhole(value, low, high)) throw new Wrong(8, [...path, name, i], `a whole number from ${low} to ${high} is wanted, not ${told(value)}`);
  }
}

const colour = (owner, path) => wholeNumbers(owner, path, "color", [4, 0, 255]);

// Bytes as a text, in its one spelling; the reason why it isn't names the first character that is at fault
function inBase64(owner, path, name, length, why) {
  const text = owner.get(name), wrong = because => new Wrong(8, [...path, name], because);
  if (typeof text !== "string") throw missingOr(8, owner, path, name, `a text in base64 is wanted, of ${counted(length)}`);
  const strange = text.match(/[^A-Za-z0-9+/](?!=*\n?$)|[^A-Za-z0-9+/=]/u);
  if (strange) throw wrong(`character ${strange.index} of the text is ${quoted(strange[0])}, which is none of base64's (A to Z, a to z, 0 to 9, + and /)`);
  const letters = [...text.slice(-8)], padding = text.length - text.replace(/=+$/, "").length;
  if (text.length % 4 || padding > 2) {
    const characters = text.length === 1 ? "1 character isn't" : `${text.length} characters aren't`;
    throw wrong(`the text's ${characters} padded by = to whole fours, as base64 is`);
  }
  if (padding && btoa(atob(letters.slice(-4).join(""))) !== letters.slice(-4).join("")) {
    throw wrong(`behind the last byte of the text stand bits that aren't zero: base64 spells these bytes with another last letter before ${letters.at(-1)}`);
  }
  const has = text.length / 4 * 3 - padding;
  if (has !== length) throw wrong(`${counted(length)} in base64 ${length === 1 ? "is" : "are"} wanted, ${why}; the text has ${has}`);
}

const counted = bytes => bytes === 1 ? "1 byte" : `${bytes} bytes`;

// ---- Words ------------------------------------------------------------------------------------------------

// A member that isn't there, or isn't as it should be
function missingOr(fault, owner, path, name, wanted) {
  if (owner.has(name)) return new Wrong(fault, [...path, name], `${wanted}, not ${told(owner.get(name))}`);
  return new Wrong(fault, path, `the member ${name} is missing: ${wanted}${near(name, owner.keys())}`);
}

function told(value) {
  if (typeof value === "string") {
    const letters = [...value.slice(0, 2 * SHOWN + 2)];
    return `the text "${letters.length <= SHOWN ? value : `${letters.slice(0, KEPT).join("")} ..`}"`;
  }
  if (Array.isArray(value)) return `an array of ${value.length}`;
  if (value instanceof Map) return "an object";
  if (value instanceof Other) return value.text.length <= SHOWN ? value.text : `${value.text.slice(0, KEPT)} ..`;
  return String(value);
}
