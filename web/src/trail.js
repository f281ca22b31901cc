// The trail of a run: the statement and the action of each state, asked of the debugger a stretch at a time.
// With the deck it says what each step does: so the page finds where a statement ends, a call returns, or
// something was saved.

const STRETCH = 4096;     // states
const MOST_STRETCHES = 4; // that are asked for at once where much is gone through
const MOST_KEPT = 400;    // stretches

/** @typedef {{statement: number, action: number}} Spot */

export class Trail {
  /**
   * `ask` answers the trail of so many states from one on.
   * @param {(first: number, count: number) => Promise<any>} ask
   */
  constructor(ask) {
    this.ask = ask;
    /** @type {Map<number, {statements: Int32Array, actions: Uint8Array}>} */
    this.stretches = new Map();
    this.last = Infinity; // the last state's number, once it is known
  }

  // Where the run is in a state, or null where it is past the last one. `ahead` is how many stretches may be
  // asked for if it is not known: a positive number goes on from this one, a negative one comes before it.
  /**
   * @param {number} number
   * @returns {Promise<Spot | null>}
   */
  async at(number, ahead = 1) {
    if (number < 0 || number > this.last) return null;
    const index = Math.floor(number / STRETCH);
    if (!this.stretches.has(index)) await this.fetch(index, ahead);
    const stretch = this.stretches.get(index);
    const at = number - index * STRETCH;
    if (!stretch || at >= stretch.statements.length) return null;
    return {statement: stretch.statements[at], action: stretch.actions[at]};
  }

  /**
   * @param {number} index
   * @param {number} ahead
   */
  async fetch(index, ahead) {
    const count = Math.min(Math.abs(ahead), MOST_STRETCHES);
    const first = ahead < 0 ? Math.max(0, index - count + 1) : index;
    const states = (ahead < 0 ? index - first + 1 : count) * STRETCH;
    const {number, statements, actions, ending} = await this.ask(first * STRETCH, states);
    if (number < first * STRETCH) {
      this.last = number;
      return;
    }
    if (ending) this.last = first * STRETCH + statements.length - 1;
    for (let at = 0; at < statements.length; at += STRETCH) {
      const part = {
        statements: statements.subarray(at, at + STRETCH),
        actions: actions.subarray(at, at + STRETCH)
      };
      this.stretches.set(first + at / STRETCH, part);
    }
    for (const [old] of this.stretches) {
      if (this.stretches.size <= MOST_KEPT) break;
      this.stretches.delete(old);
    }
  }

  // The number of the first state after one, for which `isFound` holds of where the run is there; else of the
  // last state. `isFound` is called for each state in turn.
  /**
   * @param {number} number
   * @param {(spot: Spot, at: number) => boolean} isFound
   * @returns {Promise<number>}
   */
  async find(number, isFound) {
    for (let at = number + 1, fetched = 1;; at++) {
      const spot = await this.near(at, fetched);
      if (!spot) return Math.max(number, this.last);
      if (isFound(spot, at)) return at;
      if (at % STRETCH === 0) fetched = Math.min(MOST_STRETCHES, fetched * 2);
    }
  }

  // As `at`, but only waits where the state is not known: a search goes through very many of them.
  /**
   * @param {number} number
   * @param {number} ahead
   * @returns {Spot | Promise<Spot | null>}
   */
  near(number, ahead) {
    const stretch = this.stretches.get(Math.floor(number / STRETCH));
    const at = number % STRETCH;
    if (number >= 0 && stretch && at < stretch.statements.length)
      return {statement: stretch.statements[at], action: stretch.actions[at]};
    return this.at(number, ahead);
  }
}
