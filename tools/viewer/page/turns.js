// Jobs, one after another, so that each finds the run where the page says it is. What waits when something is stopped is dropped.

export class Turns {
  waiting = 0;                         // how many have not begun
  #round = 0;
  /** @type {Promise<any>} */ #queue = Promise.resolve();

  /** @param {(fault: any) => any} fail is told of what a job throws */
  constructor(fail) { this.fail = fail; }

  /** @template T @param {() => T | Promise<T>} job @returns {Promise<T | undefined>} */
  take(job) {
    const its = this.#round;
    this.waiting++;
    return (this.#queue = this.#queue.then(() => { this.waiting--; return its === this.#round ? job() : undefined; }).catch(this.fail));
  }

  drop() { this.#round++; }
}
