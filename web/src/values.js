// What chains lead to in states other than the one that is shown: asked of the debugger for many states at
// once, a block at a time along each chain.

import {follow} from "./chain.js";
import {seenThrough} from "./word.js";

const FIRST_LOOK = 64;  // states that are looked at for a change, next to the one that is shown
const MOST_LOOK = 8192; // and at most, further away
const LARGE_BLOCK = 16; // words; of a larger block fewer states are looked at at once

/**
 * What the reader follows through a run: a chain, the definition of a field, or a field of one block.
 * @typedef {{chain?: string, definition?: string, place?: number, field?: string}} Watched
 *
 * A state that was looked at, with the blocks that are known of it.
 * @typedef {import("./chain.js").Glimpse & {number: number, state: import("./transcript.js").State,
 *   known: Map<number, number[] | null>}} Looked
 */

export class Values {
  /** @param {import("./session.js").Session} session */
  constructor(session) {
    this.session = session;
  }

  // What is followed, in a few words.
  /** @param {Watched} watched */
  static nameOf({chain, definition, place, field}) {
    if (definition) return `field ${definition}`;
    return field ? `${field} of ${place}` : chain ?? "";
  }

  /**
   * The states with these numbers, which are in order, each with the blocks that `wants` asks for: it has a
   * state and answers a place, or undefined where it needs none.
   * @param {number[]} numbers
   * @param {(state: Looked) => number | undefined} wants
   * @param {boolean} hasFields
   */
  async look(numbers, wants, hasFields = true) {
    const states = await this.begin(numbers, hasFields);
    for (;;) {
      /** @type {[Looked, number][]} */
      const missing = [];
      for (const state of states) {
        const place = wants(state);
        if (place !== undefined) missing.push([state, place]);
      }
      if (!missing.length) return states;
      await this.addBlocks(missing);
    }
  }

  /**
   * @param {number[]} numbers
   * @param {boolean} hasFields
   * @returns {Promise<Looked[]>}
   */
  async begin(numbers, hasFields) {
    const commands = [];
    let at = 0;
    for (const number of numbers) {
      commands.push(`step ${number - at}`, "show", ...(hasFields ? ["fields"] : []));
      at = number;
    }
    const transcript = await this.session.question(commands);
    return numbers.map((number) => {
      transcript.line();
      const {state, bugs} = transcript.show();
      if (state.ending) this.session.last = state.number;
      /** @type {Looked["known"]} */
      const known = new Map();
      const fields = hasFields ? transcript.fields() : new Map();
      return {number, state, bugs, fields, known, wordsAt: (/** @type {number} */ place) => known.get(place)};
    });
  }

  /** @param {[Looked, number][]} missing */
  async addBlocks(missing) {
    const commands = [];
    let at = 0;
    for (const [{number}, place] of missing) {
      commands.push(`step ${number - at}`, `block ${place}`);
      at = number;
    }
    const transcript = await this.session.question(commands);
    for (const [state, place] of missing) {
      transcript.line();
      state.known.set(place, transcript.block());
    }
  }

  // A chain's value in each of some states, whose numbers are in order: a number, or null where it traps.
  /** @param {{number: number, chain: string}[]} wanted */
  async ofChains(wanted) {
    const chains = new Map(wanted.map(({number, chain}) => [number, chain]));
    const followed = (/** @type {Looked} */ state) => follow(chains.get(state.number) ?? "", state);
    const states = await this.look(wanted.map(({number}) => number), (state) => followed(state).missing);
    return states.map((state) => {
      const {steps, trap} = followed(state);
      return trap ? null : steps.at(-1)?.value ?? null;
    });
  }

  /**
   * What is followed, in each of some states, as a text.
   * @param {Watched} watched
   * @param {number[]} numbers
   */
  async of(watched, numbers) {
    const {chain = "", definition = "", place = -1, field = ""} = watched;
    const wants = (/** @type {Looked} */ state) => {
      if (chain) return follow(chain, state).missing;
      return definition || state.known.has(place) ? undefined : place;
    };
    const states = await this.look(numbers, wants, chain.length !== 1);
    return states.map((state) => {
      if (definition) return JSON.stringify(state.fields.get(definition) ?? null);
      if (chain) {
        const {steps, trap} = follow(chain, state);
        return trap ? `trap ${trap.number}` : String(steps.at(-1)?.value);
      }
      const window = state.fields.get(field);
      const words = state.known.get(place);
      if (!window || !words) return "none";
      return window.word < words.length ? String(seenThrough(words[window.word], window)) : "outside";
    });
  }

  /**
   * The number of the latest state before one, or of the first after it, in which what is followed differs
   * from the state before that; null where there is none.
   * @param {Watched} watched
   * @param {number} number
   * @param {boolean} isForward
   */
  async change(watched, number, isForward) {
    const most = watched.field ? Math.max(FIRST_LOOK, MOST_LOOK / LARGE_BLOCK) : MOST_LOOK;
    const last = () => this.session.last ?? Infinity;
    let near = number; // the states from here to `number` were looked at
    for (let size = FIRST_LOOK; isForward ? near < last() : near > 1; size = Math.min(most, size * 4)) {
      const far = isForward ? Math.min(last(), near + size) : Math.max(0, near - size - 1);
      const [from, to] = isForward ? [near, far] : [far, near - 1];
      const numbers = Array.from({length: to - from + 1}, (_, index) => from + index);
      const values = await this.of(watched, numbers);
      const differs = (/** @type {number} */ index) => index > 0 && values[index] !== values[index - 1];
      const found = isForward ? values.findIndex((_, index) => differs(index)) : lastIndex(values, differs);
      if (found >= 0) return numbers[found];
      near = isForward ? far : far + 1;
    }
    return null;
  }
}

/**
 * @param {string[]} values
 * @param {(index: number) => boolean} isFound
 */
function lastIndex(values, isFound) {
  for (let index = values.length - 1; index >= 0; index--)
    if (isFound(index)) return index;
  return -1;
}
