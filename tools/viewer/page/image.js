// An image, or the part of it that was fetched: { width, height, left, top, every, columns, rows, most, bytes }. Width and height are the
// target's; the part begins at (left, top), of its pixels every so many in a row and a column is there, four bytes each, and at most so many are.

/** @typedef {import("./types").Band} Band */
/** @typedef {import("./types").Colour} Colour */
/** @typedef {import("./types").Difference} Difference */
/** @typedef {import("./types").Image} Image */
/** @typedef {import("./types").Part} Part */
/** @typedef {import("./types").Place} Place */

const SIDES = /** @type {const} */ (["left", "top", "every", "columns", "rows"]);

/** @type {(image: Image) => boolean} */
export const isWhole = image => image.columns === image.width && image.rows === image.height;
/** @type {(bytes: Uint8Array, width: number, height: number) => Image} */
export const pictureOf = (bytes, width, height) => ({ name: "mended", width, height, left: 0, top: 0, every: 1, columns: width, rows: height, bytes });
/** @type {(part: Part, x: number, y: number) => number} */
const indexIn = ({ left, top, every, columns }, x, y) => 4 * (Math.floor((y - top) / every) * columns + Math.floor((x - left) / every));
/** @type {(part: Part, x: number, y: number) => boolean} */
const holds = ({ left, top, every, columns, rows }, x, y) => x >= left && y >= top && x < left + columns * every && y < top + rows * every;

// The colour that stands for a pixel in what was fetched, or null
/** @type {(image: Image, x: number, y: number) => Colour | null} */
export function colourAt(image, x, y) {
  if (!holds(image, x, y)) return null;
  const { bytes } = image, at = indexIn(image, x, y);
  return { r: bytes[at], g: bytes[at + 1], b: bytes[at + 2], a: bytes[at + 3] };
}

// The bytes of an image with some bands of rows exchanged, each [first row, rows]; theirs stand one after another
/** @type {(image: Image, bands: Band[], theirs: Uint8Array) => Uint8Array} */
export function patched({ bytes, columns }, bands, theirs) {
  if (!bands.length) return bytes;
  const made = bytes.slice();
  let at = 0;
  for (const [first, count] of bands) {
    made.set(theirs.subarray(at, at + 4 * columns * count), 4 * columns * first);
    at += 4 * columns * count;
  }
  return made;
}

// The bands of rows in which two images of one part differ
/** @type {(image: Image, other: Image) => Band[]} */
export function bandsBetween({ bytes, columns, rows }, other) {
  const one = wordsOf(bytes), two = wordsOf(other.bytes);
  /** @type {Band[]} */
  const bands = [];
  for (let row = 0, at = 0; row < rows; row++, at += columns) {
    let i = at;
    while (i < at + columns && one[i] === two[i]) i++;
    if (i === at + columns) continue;
    const last = bands.at(-1);
    if (last && last[0] + last[1] === row) last[1]++;
    else bands.push([row, 1]);
  }
  return bands;
}

// The bands outside of which two images are the same, as far as that is known: of an image itself, and where one was told of as the other with some rows changed
/** @type {(image: Image, other: Image) => Band[] | null} */
export const knownBands = (image, other) => image === other ? [] : follows(image, other) ?? follows(other, image);

// By its number, so that no image holds the one before it
/** @type {(image: Image, other: Image) => Band[] | null} */
const follows = ({ delta }, { number }) => delta !== undefined && delta.base === number ? delta.bands : null;

// Whether two images can be compared: the other is whole, or the same part
/** @type {(image: Image, other: Image) => boolean} */
export const isComparable = (image, other) => isWhole(other) || SIDES.every(name => image[name] === other[name]);

// The pixels of an image as words of 32 bits, alpha highest: every machine that a browser runs on has the lowest byte first
/** @type {(bytes: Uint8Array | Uint8ClampedArray) => Uint32Array} */
export const wordsOf = bytes => new Uint32Array(bytes.buffer, bytes.byteOffset, bytes.length >> 2);

// Which of the fetched pixels of two images differ by more than a tolerance: a mask, by how much each, how many, the box round them, the most that a channel differs
/** @type {(image: Image, other: Image, tolerance?: number) => Difference} */
export function difference(image, other, tolerance = 0) {
  const { left, top, every, columns, rows } = image, one = wordsOf(image.bytes), two = wordsOf(other.bytes);
  const compared = other.hasAlpha === false ? 0xffffff : -1, mask = new Uint8Array(columns * rows);
  const found = { mask, by: new Uint8Array(columns * rows), count: 0, most: 0, left: Infinity, top: Infinity, right: -1, bottom: -1, every, whole: isWhole(image) };
  const aside = every / other.every;              // from one of the kept pixels to the next, in the other's
  for (const [first, count] of knownBands(image, other) ?? [[0, rows]]) {
    for (let row = first; row < first + count; row++) compareRow(found, row, { one, two, compared, tolerance, aside, columns, q: indexIn(other, left, top + row * every) / 4 });
  }
  for (const [side, start] of /** @type {["left" | "right" | "top" | "bottom", number][]} */ ([["left", left], ["right", left], ["top", top], ["bottom", top]])) found[side] = start + found[side] * every;
  return found;
}

/** @type {(found: Difference, row: number, how: { one: Uint32Array, two: Uint32Array, compared: number, tolerance: number, aside: number, columns: number, q: number }) => void} */
function compareRow(found, row, { one, two, compared, tolerance, aside, columns, q }) {
  for (let column = 0, i = row * columns; column < columns; column++, i++, q += aside) {
    if (((one[i] ^ two[q]) & compared) === 0) continue;
    const by = mostBetween(one[i] & compared, two[q] & compared);
    if (by <= tolerance) continue;
    found.mask[i] = 1;
    found.by[i] = by;
    found.count++;
    if (by > found.most) found.most = by;
    if (column < found.left) found.left = column;
    if (column > found.right) found.right = column;
    if (row < found.top) found.top = row;
    found.bottom = row;
  }
}

/** @type {(a: number, b: number) => number} */
function mostBetween(a, b) {
  let most = 0;
  for (let shift = 0; shift < 32; shift += 8) most = Math.max(most, Math.abs((a >>> shift & 255) - (b >>> shift & 255)));
  return most;
}

// The place of the first pixel in a mask at or after another place in reading order, and round again; null where there is none
/** @type {(part: Part, mask: Uint8Array, from: Place | null) => Place | null} */
export function nextIn({ left, top, every, columns, rows }, mask, from) {
  const start = from ? Math.floor((from.y - top) / every) * columns + Math.floor((from.x - left) / every) + 1 : 0;
  const next = mask.indexOf(1, Math.max(0, Math.min(start, columns * rows))), at = next < 0 ? mask.indexOf(1) : next;
  return at < 0 ? null : { x: left + at % columns * every, y: top + Math.floor(at / columns) * every };
}
