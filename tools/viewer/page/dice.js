// Numbers by a seed, the same as in framedbg-driver: mulberry32, seeded by FNV-1a of a text.

export class Dice {
  state = 0x811c9dc5;

  /** @param {string} seed */
  constructor(seed) {
    for (const byte of new TextEncoder().encode(seed)) this.state = Math.imul(this.state ^ byte, 0x01000193) >>> 0;
  }

  // A number of 32 bits
  next() {
    this.state = (this.state + 0x6d2b79f5) >>> 0;
    let mixed = Math.imul(this.state ^ this.state >>> 15, this.state | 1);
    mixed ^= mixed + Math.imul(mixed ^ mixed >>> 7, mixed | 61);
    return (mixed ^ mixed >>> 14) >>> 0;
  }

  // A whole number from 0 to one less than the end
  /** @type {(end: number) => number} */
  below(end) { return this.next() % end; }
  /** @type {(first: number, end: number) => number} */
  between(first, end) { return first + this.below(end - first); }
  /** @template T @param {readonly T[]} some @returns {T} */
  choice(some) { return some[this.below(some.length)]; }

  // True in so many of ten
  /** @type {(tenths: number) => boolean} */
  isSo(tenths) { return this.below(10) < tenths; }
}
