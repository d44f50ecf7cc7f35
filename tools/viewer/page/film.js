// The frame as a film: event by event from where it stands, as fast as pictures come, but no faster than the eye.

import { $ } from "./elements.js";
import { frame } from "./frame.js";

/** @typedef {import("./frame.js").Frame} Frame */

const LENGTH = 8000, LEAST = 20, MOST = 250;      // milliseconds: of a whole film, and of an event at least and at most
const WAITS = -1;        // for a picture, in the place of a timer's number

class Film {
  next = 0; shownAt = 0;           // the timer of the next event, and when this one was shown

  /** @param {Frame} frame @param {(plays: boolean) => void} told */
  constructor(frame, told) {
    this.frame = frame;
    this.told = told;
  }

  get plays() { return this.next !== 0; }

  // From here on, or from the start where the end is reached
  play() {
    if (this.plays) return this.stop();
    this.told(true);
    this.next = WAITS;
    if (this.frame.position === this.frame.last) this.frame.goTo(0);
    else this.step();
  }

  stop() {
    if (this.plays) this.told(false);
    clearTimeout(this.next);
    this.next = 0;
  }

  // The picture that was asked for is there
  arrived() {
    if (!this.plays || this.frame.target !== this.frame.position) return;
    if (this.frame.position === this.frame.last) return this.stop();
    const each = Math.min(MOST, Math.max(LEAST, LENGTH / this.frame.last));
    clearTimeout(this.next);
    this.next = setTimeout(() => this.step(), Math.max(0, this.shownAt + each - performance.now()));
  }

  step() {
    this.shownAt = performance.now();
    this.frame.goTo(Math.min(this.frame.last, this.frame.position + 1));
  }
}

export const film = new Film(frame, plays => $("play").setAttribute("aria-pressed", plays));
