// What the program has written and nobody has taken: lines, counts of bytes, images. The end of the run is an error for whoever waits.

import { keptPart } from "./part.js";

const MAX_LISTED = 100_000;        // lines of a list that are kept; the rest is read and counted
const HEADER_LINES = 7;            // of an image

export class Output {
  pieces = []; first = 0; ended = null; arrived = () => {};

  add(pieces) { this.pieces = this.pieces.slice(this.first).concat(pieces); this.first = 0; this.arrived(); }
  end(why) { this.ended = why; this.arrived(); }

  async some() {
    while (this.first === this.pieces.length) {
      if (this.ended !== null) throw this.ended;
      await new Promise(resolve => { this.arrived = resolve; });
    }
    return this.pieces[this.first];
  }

  drop(count) {
    if (count === this.pieces[this.first].length) this.pieces[this.first++] = null;
    else this.pieces[this.first] = this.pieces[this.first].subarray(count);
  }

  // So many bytes, told piece by piece
  async pass(count, told = () => {}) {
    for (let at = 0; at < count;) {
      const part = (await this.some()).subarray(0, count - at);
      told(part, at);
      at += part.length;
      this.drop(part.length);
    }
  }

  async take(count) {
    const taken = new Uint8Array(count);
    await this.pass(count, (part, at) => taken.set(part, at));
    return taken;
  }

  async line() {
    const decoder = new TextDecoder();
    for (let line = ""; ;) {
      const piece = this.first < this.pieces.length ? this.pieces[this.first] : await this.some();
      const end = piece.indexOf(10);
      line += decoder.decode(end < 0 ? piece : piece.subarray(0, end), { stream: end < 0 });
      this.drop(end < 0 ? piece.length : end + 1);
      if (end >= 0) return line;
    }
  }

  // A reply: { text, lines?, left_out?, image? }
  async reply(window) {
    const text = await this.line(), [word, number] = text.split(" ");
    if (word === "pam") return { text, image: await this.image(window) };
    return word === "history" || word === "events" ? { text, ...await this.list(+number) } : { text };
  }

  async list(count) {
    const lines = [];
    for (let i = 0; i < count; i++) {
      const line = await this.line();
      if (i < MAX_LISTED) lines.push(line);
    }
    return { lines, left_out: count - lines.length };
  }

  // The part of an image that is in the window, with pixels left out where it is too large
  async image(window) {
    const fields = {};
    for (let i = 0; i < HEADER_LINES; i++) {
      const [name, value] = (await this.line()).split(" ");
      fields[name] = +value;
    }
    const part = keptPart(fields.WIDTH, fields.HEIGHT, window);
    return { ...part, bytes: await this.part(part) };
  }

  async part({ width, height, left, top, every, columns, rows }) {
    if (columns === width && rows === height) return this.take(4 * width * height);
    const kept = new Uint32Array(columns * rows);
    await this.pass(4 * width * top);
    for (let row = 0; row < rows; row++) {
      const pixels = new Uint32Array((await this.take(4 * width)).buffer);
      for (let column = 0; column < columns; column++) kept[row * columns + column] = pixels[left + column * every];
      const next = row + 1 < rows ? top + (row + 1) * every : height;
      await this.pass(4 * width * (next - top - row * every - 1));
    }
    return new Uint8Array(kept.buffer);
  }
}
