// JSON as framedbg reads it (RFC 8259, no deeper than 127), and where in its text a value stands: tools/explaining/json_text.py in the page.
// An object is a Map. A whole number of 64 bits is a number, or a BigInt where that is too small for it; any other number is an Other, which keeps its text.

const MOST_NESTING = 127, MOST_WHOLE = 20;          // values within values; letters of a whole number of 64 bits
const SPACE = /[ \t\n\r]*/y, NUMBER = /-?(?:0|[1-9][0-9]*)(?:\.[0-9]+)?(?:[eE][+-]?[0-9]+)?/y, WORD = /true|false|null/y, HALF = /[0-9a-fA-F]{4}/y;
const SPECIAL = /["\\\x00-\x1f]/g;                  // what a text doesn't hold as it is
const LETTERS = { '"': '"', "\\": "\\", "/": "/", b: "\b", f: "\f", n: "\n", r: "\r", t: "\t" }, WORDS = { true: true, false: false, null: null };

export class Malformed extends Error {
  constructor(at, why) { super(why); this.at = at; }
}

export class Other {
  constructor(text) { this.text = text; }
}

// The text of some bytes: whatever begins their first fault is the last that can be read without one
export function decoded(bytes) {
  const upTo = (end, stream) => new TextDecoder("utf-8", { fatal: true, ignoreBOM: true }).decode(bytes.subarray(0, end), { stream });
  try {
    return upTo(bytes.length, false);
  } catch {
    let [good, bad] = [0, bytes.length + 1];
    while (bad - good > 1) {
      const middle = (good + bad) >> 1;
      try { upTo(middle, true); good = middle; } catch { bad = middle; }
    }
    throw new Malformed(upTo(good, true).length, "these bytes are no UTF-8");
  }
}

// The one value of a text
export function read(text) {
  const [value, at] = readValue(text, space(text, 0), MOST_NESTING);
  if (at < text.length) throw new Malformed(at, "something follows the value");
  return value;
}

// Where the value stands that a path of names and numbers leads to; of equal names the last counts
export function locate(text, path) {
  let at = space(text, 0);
  for (const [depth, step] of path.entries()) {
    const places = new Map();
    readValue(text, at, MOST_NESTING - depth, places);
    at = places.get(step);
  }
  return at;
}

// Both from 1, the column in characters
export function lineAndColumn(text, at) {
  const start = text.lastIndexOf("\n", at - 1) + 1;
  let line = 1, column = 1;
  for (let next = text.indexOf("\n"); at > 0 && next >= 0 && next < at; next = text.indexOf("\n", next + 1)) line++;
  for (let i = at > 0 ? start : 0; i < at; i++) if ((text.charCodeAt(i) & 0xfc00) !== 0xdc00) column++;
  return [line, column];
}

function found(pattern, text, at) {
  pattern.lastIndex = at;
  return pattern.exec(text)?.[0];
}

const space = (text, at) => at + found(SPACE, text, at).length;

// The value that begins here, and where the next token does. The places of its own members or items are written down where asked for
function readValue(text, at, depth, places = null) {
  const first = text[at];
  if (first === "{" || first === "[") {
    if (depth === 0) throw new Malformed(at, `values are nested deeper than ${MOST_NESTING}`);
    return (first === "{" ? readObject : readArray)(text, space(text, at + 1), depth - 1, places);
  }
  if (first === '"') return readString(text, at);
  const number = found(NUMBER, text, at), word = number ?? found(WORD, text, at);
  if (word === undefined) throw new Malformed(at, first ? "a value is wanted here" : "the text ends too early");
  return [number === undefined ? WORDS[word] : numberOf(number, at), space(text, at + word.length)];
}

function readObject(text, at, depth, places) {
  const made = new Map();
  if (text[at] === "}") return [made, space(text, at + 1)];
  for (let name, value; ;) {
    if (text[at] !== '"') throw new Malformed(at, "a member's name is wanted here");
    [name, at] = readString(text, at);
    at = space(text, expect(text, at, ":"));
    places?.set(name, at);
    [value, at] = readValue(text, at, depth);
    made.set(name, value);
    if (text[at] === "}") return [made, space(text, at + 1)];
    at = space(text, expect(text, at, ",", "}"));
  }
}

function readArray(text, at, depth, places) {
  const made = [];
  if (text[at] === "]") return [made, space(text, at + 1)];
  for (let item; ;) {
    places?.set(made.length, at);
    [item, at] = readValue(text, at, depth);
    made.push(item);
    if (text[at] === "]") return [made, space(text, at + 1)];
    at = space(text, expect(text, at, ",", "]"));
  }
}

function expect(text, at, ...wanted) {
  if (text[at] !== wanted[0]) throw new Malformed(at, at < text.length ? `${wanted.join(" or ")} is wanted here` : "the text ends too early");
  return at + 1;
}

function readString(text, start) {
  let made = "", hasEscapes = false;
  for (let at = start + 1; ;) {
    SPECIAL.lastIndex = at;
    const end = SPECIAL.exec(text)?.index, letter = text[end + 1];
    if (end === undefined || text[end] < " ") throw noText(start);
    made += text.slice(at, end);
    if (text[end] === '"') {
      if (hasEscapes && !made.isWellFormed()) throw new Malformed(start + 1, "half of a surrogate pair");
      return [made, space(text, end + 1)];
    }
    const half = letter === "u" ? found(HALF, text, end + 2) : undefined;
    if (half === undefined && !Object.hasOwn(LETTERS, letter)) throw noText(start);
    made += half === undefined ? LETTERS[letter] : String.fromCharCode(parseInt(half, 16));
    [at, hasEscapes] = [end + (half === undefined ? 2 : 6), true];
  }
}

const noText = at => new Malformed(at, "this text has no end, or a character that must be escaped");

function numberOf(text, at) {
  if (!/[.eE]/.test(text) && text.length <= MOST_WHOLE && text !== "-0") {
    const whole = BigInt(text);
    if (whole === BigInt.asIntN(64, whole)) return Number.isSafeInteger(Number(text)) ? Number(text) : whole;
  }
  if (!Number.isFinite(Number(text))) throw new Malformed(at, "a number that is too large");
  return new Other(text);
}
