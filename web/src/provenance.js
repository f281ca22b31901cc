// Where pointers come from: those that dangle, since the block for which they were made is freed. Nothing may be
// at its place now, or another block. And the steps that follow such a pointer, which is a use after free, also
// where the machine does not trap.

import {follow} from "./chain.js";

/** @typedef {import("./chronicle.js").Chronicle} Chronicle */
/** @typedef {import("./chronicle.js").Life} Life */
/** @typedef {import("./chronicle.js").Window} Window */
/**
 * A pointer that dangles: a bug, or a window of the block at `from`, holds the place of a life that is over.
 * `now` is the block that is there now, or null.
 * @typedef {{bug?: string, from?: number, window?: Window, target: number, life: Life,
 *   now: Life | null}} Dangling
 */

/**
 * The pointers that dangle in a view, of bugs that are not hidden and of the blocks that are drawn, and the freed
 * blocks to which they lead where nothing is now.
 * @param {import("./view.js").View} view
 * @param {Chronicle | null} chronicle
 * @param {number[]} shown
 * @param {Window[]} windows
 * @returns {{pointers: Dangling[], ghosts: Life[]}}
 */
export function danglingOf(view, chronicle, shown, windows) {
  const {number} = view.state;
  if (!chronicle?.knows(number)) return {pointers: [], ghosts: []};
  /** @type {Dangling[]} */
  const pointers = [];
  const look = (/** @type {string} */ key, /** @type {object} */ holder) => {
    const life = deadLife(chronicle, key, number);
    if (life) pointers.push({...holder, target: life.place, life, now: chronicle.lifeAt(life.place, number)});
  };
  const {hiddenBugs} = view.draw;
  for (const [name, value] of view.bugs) if (value && !hiddenBugs.includes(name)) look(name, {bug: name});
  for (const place of shown) {
    const life = chronicle.lifeAt(place, number);
    if (life) for (const window of windows) look(`${life.id} ${window.key}`, {from: place, window});
  }
  const ghosts = new Map();
  for (const {life, now} of pointers) if (!now) ghosts.set(life.place, life);
  return {pointers, ghosts: [...ghosts.values()]};
}

/**
 * The life for which a bug or a field holds a pointer, if it is over; else null.
 * @param {Chronicle} chronicle
 * @param {string} key
 * @param {number} number
 */
function deadLife(chronicle, key, number) {
  const held = chronicle.heldAt(key, number);
  const life = held?.life;
  return life && life.dead <= number && held.value === life.place ? life : null;
}

/**
 * Whether a bug holds a number that was never made as a pointer, and only happens to be a place.
 * @param {string} name
 * @param {number} number
 * @param {Chronicle | null} chronicle
 */
export function isNumber(name, number, chronicle) {
  if (!chronicle?.knows(number)) return false;
  const held = chronicle.heldAt(name, number);
  return held !== undefined && held.life === null;
}

/**
 * What is said of the pointers that dangle.
 * @param {Dangling[]} pointers
 */
export function danglingInWords(pointers) {
  return pointers.map(({bug, from, window, target, life, now}) => {
    const who = bug ?? `${window?.name} of ${from}`;
    if (!now) return `${who} leads to ${target}, which was freed at state ${life.dead}`;
    return `${who} leads to ${target} from get ${life.id}; now the block of get ${now.id} is there`;
  });
}

/**
 * The uses after free of one step: the chains that it follows through a pointer that dangles, in words.
 * `elements` are those of its operation, or of the tests of its condition; `view` is the state before it.
 * @param {string[][]} groups
 * @param {import("./view.js").View} view
 * @param {Chronicle | null} chronicle
 */
export function usesAfterFree(groups, view, chronicle) {
  const {number} = view.state;
  if (!chronicle?.knows(number)) return [];
  const found = new Set();
  for (const elements of groups)
    for (const chain of elements.filter((it) => /^[A-Z][A-Z0-9]{0,5}$/.test(it))) {
      const isFreed = chain === elements[0] && elements[1] === "FR";
      for (const use of usesOf(chain, isFreed, view, chronicle)) found.add(use);
    }
  return [...found];
}

/**
 * @param {string} chain
 * @param {boolean} isFreed whether the block at its end is freed, too
 * @param {import("./view.js").View} view
 * @param {Chronicle} chronicle
 */
function usesOf(chain, isFreed, view, chronicle) {
  const {number} = view.state;
  const {steps = []} = follow(chain, view);
  const found = [];
  for (const [index, {name, place, window}] of steps.entries()) {
    if (index === chain.length - 1 && !isFreed) break;
    const owner = place === null ? null : chronicle.lifeAt(place, number);
    const {word, first, last} = /** @type {any} */ (window ?? {});
    const key = place === null ? name : `${owner?.id} ${word}.${first}.${last}`;
    const life = deadLife(chronicle, key, number);
    if (!life) continue;
    const now = chronicle.lifeAt(life.place, number);
    const what = now ? `, and follows it to the block of get ${now.id}` : "";
    found.push(`${chain.slice(0, index + 1)} leads to ${life.place}, freed at state ${life.dead}${what}`);
  }
  return found;
}
