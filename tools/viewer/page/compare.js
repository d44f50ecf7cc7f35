// A picture from a file, to be compared with the image: PAM and PPM as framedbg and netpbm write them, and PNG of eight bits, exactly.
// The browser's own readers scale colours by alpha and back, so they can't be asked.

import { adviceOn, kindOf } from "./files.js";

/** @typedef {import("./types").Image} Image */

/** @type {(file: File) => Promise<Image & { name: string }>} */
export async function readPicture(file) {
  const bytes = new Uint8Array(await file.arrayBuffer()), magic = String.fromCharCode(...bytes.subarray(0, 4));
  const picture = magic.startsWith("P7") || magic.startsWith("P6") ? readNetpbm(bytes) : magic.endsWith("PNG") ? await readPng(bytes) : null;
  if (!picture) throw new Error(await toldOf(file));
  return { name: file.name, ...picture };
}

// Why a file is no picture, and what to do with it
/** @type {(file: File) => Promise<string>} */
async function toldOf(file) {
  const kind = await kindOf(file);
  return adviceOn(file.name, kind) || (kind === "capture" ? `${file.name} is a capture, and no picture to compare with` : `${file.name} is no PNG, PAM or PPM`);
}

// Samples of `depth` channels, made four; without an alpha of its own a picture has none to compare
/** @type {(width: number, height: number, samples: Uint8Array, depth: number) => Image} */
function spread(width, height, samples, depth) {
  const bytes = new Uint8Array(4 * width * height).fill(255), grey = depth < 3;
  if (samples.length < depth * width * height) throw new Error("the picture is cut short");
  for (let i = 0, s = 0; i < bytes.length; i += 4, s += depth) {
    for (let c = 0; c < 3; c++) bytes[i + c] = samples[s + (grey ? 0 : c)];
    if (depth % 2 === 0) bytes[i + 3] = samples[s + depth - 1];
  }
  return { width, height, left: 0, top: 0, every: 1, columns: width, rows: height, bytes, hasAlpha: depth % 2 === 0 };
}

/** @type {(bytes: Uint8Array) => Image} */
function readNetpbm(bytes) {
  const text = new TextDecoder("latin1").decode(bytes.subarray(0, 1024)).replace(/#[^\n]*/g, comment => " ".repeat(comment.length));
  const plain = text.match(/^P6\s+(\d+)\s+(\d+)\s+255\s/);
  if (plain) return spread(+plain[1], +plain[2], bytes.subarray(plain[0].length), 3);
  const end = text.indexOf("ENDHDR\n"), field = /** @param {string} name */ name => +(text.match(new RegExp(`^${name}\\s+(\\d+)`, "m"))?.[1] ?? 0);
  if (end < 0 || field("MAXVAL") !== 255) throw new Error("only PAM and PPM of eight bits are read");
  return spread(field("WIDTH"), field("HEIGHT"), bytes.subarray(end + 7), field("DEPTH"));
}

/** @type {(bytes: Uint8Array) => Promise<Image>} */
async function readPng(bytes) {
  const at = new DataView(bytes.buffer, bytes.byteOffset), pieces = [];
  const width = at.getUint32(16), height = at.getUint32(20), depth = /** @type {Record<number, number>} */ ({ 0: 1, 2: 3, 4: 2, 6: 4 })[bytes[25]];
  if (bytes[24] !== 8 || !depth || bytes[28] !== 0) throw new Error("only PNG of eight bits a channel, without palette and interlacing, is read");
  for (let p = 8; p + 8 < bytes.length; p += 12 + at.getUint32(p)) {
    if (String.fromCharCode(...bytes.subarray(p + 4, p + 8)) === "IDAT") pieces.push(bytes.subarray(p + 8, p + 8 + at.getUint32(p)));
  }
  const stream = new Blob(pieces).stream().pipeThrough(new DecompressionStream("deflate"));
  return spread(width, height, unfilter(new Uint8Array(await new Response(stream).arrayBuffer()), width * depth, height, depth), depth);
}

// The five filters of PNG, undone row by row
/** @type {(raw: Uint8Array, stride: number, height: number, depth: number) => Uint8Array} */
function unfilter(raw, stride, height, depth) {
  const out = new Uint8Array(stride * height);
  /** @type {((a: number, b: number, c: number) => number)[]} */
  const filters = [() => 0, a => a, (a, b) => b, (a, b) => a + b >> 1, paeth];
  for (let y = 0; y < height; y++) {
    const guess = filters[raw[y * (stride + 1)]], row = y * stride;
    for (let x = 0; x < stride; x++) {
      const a = x >= depth ? out[row + x - depth] : 0, b = y ? out[row - stride + x] : 0, c = x >= depth && y ? out[row - stride + x - depth] : 0;
      out[row + x] = raw[y * (stride + 1) + 1 + x] + guess(a, b, c);
    }
  }
  return out;
}

/** @type {(a: number, b: number, c: number) => number} */
function paeth(a, b, c) {
  const pa = Math.abs(b - c), pb = Math.abs(a - c), pc = Math.abs(a + b - 2 * c);
  return pa <= pb && pa <= pc ? a : pb <= pc ? b : c;
}
