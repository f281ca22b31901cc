// What a chain leads to in a state, step by step, with the trap that it would meet.

import {seenThrough} from "./word.js";

export const CHAIN = /^[A-Z][A-Z0-9]{0,5}$/;

/**
 * A state as far as a chain needs it: `wordsAt` answers the words of the block that begins at a place, null
 * where none begins, and undefined where that is not known.
 * @typedef {{bugs: Map<string, number>, fields: Map<string, import("./transcript.js").Field>,
 *   wordsAt: (place: number) => number[] | null | undefined}} Glimpse
 * @typedef {{name: string, text: string, value: number, place: number | null,
 *   window: import("./transcript.js").Field | null}} ChainStep
 * @typedef {{number: number, name: string, value: number, text: string}} ChainTrap
 * @typedef {{steps: ChainStep[], trap?: ChainTrap, wrong?: string, missing?: number}} Followed
 */

/**
 * The steps of a chain: each has the name, what it is, and the value. `trap` says why the next can't be
 * taken, `wrong` why it is no chain; `missing` is a place whose words must be asked for first.
 * @param {string} chain
 * @param {Glimpse} state
 * @returns {Followed}
 */
export function follow(chain, state) {
  const names = [...chain.toUpperCase()];
  if (!CHAIN.test(chain.toUpperCase()))
    return {steps: [], wrong: "a chain is 1 to 6 names, the first a letter"};
  let value = state.bugs.get(names[0]) ?? 0;
  /** @type {ChainStep[]} */
  const steps = [{name: names[0], text: `bug ${names[0]}`, value, place: null, window: null}];
  for (const name of names.slice(1)) {
    const trap = (/** @type {number} */ number, /** @type {string} */ text) =>
      ({steps, trap: {number, name, value, text}});
    const window = state.fields.get(name);
    if (!window) return trap(1, `${name} is not defined`);
    const words = state.wordsAt(value);
    if (words === undefined) return {steps, missing: value};
    if (words === null) return trap(2, `no block begins at ${value}`);
    if (window.word >= words.length)
      return trap(3, `${name} is in word ${window.word}, and block ${value} has ${words.length}`);
    const place = value;
    value = seenThrough(words[window.word], window);
    steps.push({name, text: `${name} of block ${place}`, value, place, window});
  }
  return {steps};
}

/**
 * The value of a chain or a number, or null where there is none.
 * @param {string} text
 * @param {Glimpse} state
 * @returns {number | null}
 */
export function valueOf(text, state) {
  if (/^[0-9]/.test(text)) return Number(text);
  const {steps, trap, missing} = follow(text, state);
  return trap || missing !== undefined ? null : steps.at(-1)?.value ?? null;
}
