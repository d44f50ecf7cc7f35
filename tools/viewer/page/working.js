// What the runs are asked, one thing after another. An answer that takes a while can be stopped: then whoever waits for it gets Stopped.

import { ask as askRun, depths as depthsOfRun, stop as stopRun, Stopped } from "./run.js";

/** @typedef {import("./types").Part} Part */
/** @typedef {import("./types").Reply} Reply */

const A_WHILE = 300;     // milliseconds
/** @type {{ stopped: boolean } | null} */
let asked = null;
/** @type {(isSlow: boolean) => void} */
let tell = () => {};

// Told true where an answer takes a while, and false when it is there
/** @type {(told: (isSlow: boolean) => void) => void} */
export const onWorking = told => { tell = told; };

/** @type {(lines: string[], window?: number[] | null, beside?: string | null, atEnd?: string[]) => Promise<Reply[]>} */
export const ask = (...given) => answered(() => askRun(...given));

// The depths of a part at a position in one go, where the run has such a call
/** @type {((position: number, part: Part) => Promise<Uint16Array>) | null} */
export const depths = depthsOfRun && ((...given) => answered(() => depthsOfRun(...given)));

/** @template T @param {() => Promise<T>} job @returns {Promise<T>} */
async function answered(job) {
  const its = asked = { stopped: false }, late = setTimeout(() => tell(true), A_WHILE);
  try {
    const replies = await job();
    if (its.stopped) throw new Stopped();
    return replies;
  } finally {
    asked = null;
    clearTimeout(late);
    tell(false);
  }
}

// Whether there was an answer to be stopped
export function stop() {
  if (!asked || asked.stopped) return null;
  asked.stopped = true;
  return stopRun();
}
