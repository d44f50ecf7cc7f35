// The images of the positions at which the frame stood last.

/** @typedef {import("./types").Fetched} Fetched */

const KEPT = 6;

export class Images {
  /** @type {Map<number, Fetched>} */ #kept = new Map();

  /** @type {(position: number) => Fetched | null} */
  at(position) { return this.#kept.get(position) ?? null; }

  /** @type {(position: number, image: Fetched) => void} */
  keep(position, image) {
    this.#kept.delete(position);
    this.#kept.set(position, image);
    while (this.#kept.size > KEPT) this.#kept.delete(this.#kept.keys().next().value);
  }

  clear() { this.#kept.clear(); }
}
