// A state of a run as the page shows it.

import {Store} from "./store.js";

/**
 * What is known of a state: the bugs and fields, which blocks are shown of those that are drawn, the store, and
 * what was printed from a place on.
 * @typedef {{state: import("./transcript.js").State, bugs: Map<string, number>,
 *   amounts: import("./transcript.js").Amounts, fields: Map<string, import("./transcript.js").Field>,
 *   draw: import("./choice.js").Chosen, shown: {places: number[], hidden: number, hiddenLost: number},
 *   store: import("./transcript.js").StoreData, output: {from: number, text: string}, cost: number}} Known
 */

export class View {
  /** @param {Known} known */
  constructor({state, bugs, amounts, fields, draw, shown, store, output, cost}) {
    this.state = state;
    this.bugs = bugs;
    this.amounts = amounts;
    this.fields = fields;
    this.draw = draw;
    this.shown = shown;
    this.cost = cost;
    this.store = new Store(store);
    /** @type {Map<number, number[] | null>} */
    this.words = new Map(); // of blocks, by their places
    this.out = output;      // what was printed, from a place on, up to this state or some later one
  }

  // What was printed up to this state, or the end of that.
  get output() {
    const {from, text} = this.out;
    const printed = text.slice(0, this.amounts.output - from);
    return from > 0 ? `.. ${printed}` : printed;
  }

  // What was printed after so many bytes, as far as it is known.
  /** @param {number} bytes */
  printedSince(bytes) {
    const {from, text} = this.out;
    return text.slice(Math.max(0, bytes - from), this.amounts.output - from);
  }

  // The words of the block at a place: null where none begins, undefined where they were not asked for.
  /** @param {number} place */
  wordsAt(place) {
    return this.store.block(place) ? this.words.get(place) : null;
  }
}
