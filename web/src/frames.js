// The calls that wait, and what is saved on the two pushdowns, by name and value. The debugger tells how many
// there are; which they are follows from the steps that led to the state: the latest call, or save, that was
// not taken back since.

import {stackingAt} from "./steps.js";

/** @typedef {import("./session.js").Session} Session */
/** @typedef {import("./view.js").View} View */
/** @typedef {import("./transcript.js").Field} Field */
/**
 * A call that waits, or what is saved: the state before it, where that is, its operation, and what was saved.
 * @typedef {{number: number, spot: import("./trail.js").Spot, operation: import("./deck.js").Group,
 *   content?: number | null, definition?: Field | null}} Entry
 * @typedef {{returns: Entry[], contents: Entry[], definitions: Entry[]}} Found
 * @typedef {{call: Entry | null, contents: Entry[], definitions: Entry[]}} Frame
 * @typedef {keyof Found} Name
 */

/** @type {Name[]} */
const NAMES = ["returns", "contents", "definitions"];

const MOST_FRAMES = 200;   // of each kind that are found
const MOST_BACK = 400_000; // states that are gone back through for them

// What is saved, with the call in which it was: the newest call first, and last what was saved outside of any.
// `found` has calls, contents and definitions, newest first, each with the number of its state.
/** @param {Found} found */
export function byCalls({returns, contents, definitions}) {
  /** @type {Frame[]} */
  const calls = [...returns, null].map((call) => ({call, contents: [], definitions: []}));
  const frameOf = (/** @type {Entry} */ {number}) => calls.find(({call}) => !call || call.number < number);
  for (const it of contents) frameOf(it)?.contents.push(it);
  for (const it of definitions) frameOf(it)?.definitions.push(it);
  return calls.filter((it) => it.call || it.contents.length + it.definitions.length > 0);
}

export class Frames {
  /** @param {Session} session */
  constructor(session) {
    this.session = session;
    // (what was saved, by the numbers of the states before)
    /** @type {Map<number, number | null>} */
    this.contents = new Map();
    /** @type {Map<number, Field | null>} */
    this.definitions = new Map();
  }

  /**
   * The calls, contents and definitions of a state, newest first; of each the number of the state before it
   * was called or saved, the spot, and its operation; of what was saved also the value.
   * @param {View} view
   * @returns {Promise<Found>}
   */
  async of(view) {
    const {returns, contents, definitions} = view.amounts;
    /** @type {Found} */
    const found = {returns: [], contents: [], definitions: []};
    if (returns + contents + definitions > 0) await this.find(view, found);
    await this.addContents(found.contents);
    await this.addDefinitions(found.definitions);
    return found;
  }

  /**
   * @param {View} view
   * @param {Found} found
   */
  async find(view, found) {
    const {trail, reading} = this.session;
    const wanted = (/** @type {Name} */ name) => Math.min(MOST_FRAMES, view.amounts[name]);
    const left = {returns: 0, contents: 0, definitions: 0}; // that were taken back later
    const isWhole = () => NAMES.every((name) => found[name].length >= wanted(name));
    const least = Math.max(0, view.state.steps - MOST_BACK);
    for (let number = view.state.steps - 1; number >= least && !isWhole(); number--) {
      const spot = await trail.near(number, -4);
      if (!spot) continue;
      const stacking = stackingAt(reading, spot);
      if (!stacking) continue;
      const {name, change, operation} = stacking;
      if (change < 0)
        left[name]++;
      else if (left[name] > 0)
        left[name]--;
      else if (operation && found[name].length < wanted(name))
        found[name].push({number, spot, operation});
    }
  }

  /** @param {Entry[]} entries */
  async addContents(entries) {
    const unknown = entries.filter(({number}) => !this.contents.has(number)).reverse();
    if (unknown.length) {
      const wanted = unknown.map(({number, operation}) => ({number, chain: operation.elements[2]}));
      const values = await this.session.values.ofChains(wanted);
      unknown.forEach(({number}, index) => this.contents.set(number, values[index]));
    }
    for (const entry of entries) entry.content = this.contents.get(entry.number);
  }

  /** @param {Entry[]} entries */
  async addDefinitions(entries) {
    const unknown = entries.filter(({number}) => !this.definitions.has(number)).reverse();
    if (unknown.length) {
      const states = await this.session.values.look(unknown.map(({number}) => number), () => undefined);
      unknown.forEach(({number, operation}, index) => {
        this.definitions.set(number, states[index].fields.get(operation.elements[2]) ?? null);
      });
    }
    for (const entry of entries) entry.definition = this.definitions.get(entry.number);
  }
}
