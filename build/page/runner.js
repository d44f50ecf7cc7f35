// A run of the program in a worker of its own: lines out, replies back, and which events are off.

import { Output } from "./output.js";

export const MOST_LINES = 1_000_000;      // that framedbg answers in a run

export class Ended extends Error {}
export class Stopped extends Error {}

export class Runner {
  worker = null; output = null; lines = 0; off = new Set();

  // `started` gives a worker with the program in it
  constructor(started) { this.started = started; }

  // Whoever waits for an answer is told why there is none; the next line begins another run
  end(why) {
    this.worker?.terminate();
    this.output?.end(why);
    this.worker = null;
  }

  async start() {
    this.end(new Ended("started again"));
    const worker = await this.started(), its = this.output = new Output();
    worker.onmessage = ({ data: { pieces, ended } }) => pieces ? its.add(pieces) : its.end(new Ended(`${ended.errors.trim() || "framedbg has ended"} (${ended.ending})`));
    worker.onerror = fault => its.end(new Ended(fault.message));
    Object.assign(this, { worker, lines: 0 });
  }

  async ask(lines, window) {
    if (!this.worker) {
      await this.start();
      if (this.off.size) await this.answer([...this.off].map(number => `off ${number}`), null);     // no lines at all would end the input
    }
    const replies = await this.answer(lines, window);
    for (const [i, { text }] of replies.entries()) {
      const [word, number] = lines[i].trim().split(/ +/);
      if (/^(at|stopped) /.test(text) && word === "off") this.off.add(+number);
      if (/^(at|stopped) /.test(text) && word === "on") this.off.delete(+number);
    }
    return replies;
  }

  async answer(lines, window) {
    const { output } = this, replies = [];           // those of this worker, whichever is there when they come
    this.lines += lines.length;
    this.worker?.postMessage({ lines: new TextEncoder().encode(lines.map(line => line + "\n").join("")) });
    for (const _ of lines) replies.push(await output.reply(window));
    return replies;
  }

  // Goes on with another run's worker, which has all events on; whoever waits for an answer is told why there is none
  takeOver(other, why) {
    this.end(why);
    this.off.clear();
    Object.assign(this, { worker: other.worker, output: other.output, lines: other.lines });
  }

  // Has the same events off as another run, and lines left for so many more
  async follow(off, count) {
    const other = [...off].filter(number => !this.off.has(number)).concat([...this.off].filter(number => !off.has(number))).sort((one, two) => one - two);
    if (this.lines + count + other.length + 1 > MOST_LINES) this.end(new Ended("started again"));
    const lines = other.map(number => `${off.has(number) ? "off" : "on"} ${number}`);
    if (lines.length) await this.ask(lines.length > 1 ? [`goto ${other[0] - 1}`, ...lines] : lines, null);
  }
}
