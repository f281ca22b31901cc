// Why a run has trapped: which chain could not be followed, with the values on the way, and what happened
// before to the block that it came to.

import {follow, valueOf} from "./chain.js";
import {make} from "./dom.js";
import {chainBehind, chainsOf} from "./group.js";
import {operationAt} from "./steps.js";
import {changedThrough, count, withCommas} from "./word.js";

const MOST_BACK = 400_000; // states that are gone back through for the step that freed a block
const FIRST_FREES = 32;    // frees that are looked at at once, next to the trap
const MOST_FREES = 1024;

const FULL = 1024; // entries of a pushdown, and calls that wait

/** @typedef {import("./view.js").View} View */
/** @typedef {import("./session.js").Session} Session */
/** @typedef {import("./deck.js").Reading} Reading */
/** @typedef {import("./transcript.js").State} State */
/** @typedef {import("./chain.js").ChainStep} ChainStep */
/** @typedef {import("./chain.js").ChainTrap} ChainTrap */
/** @typedef {(number: number) => void} GoTo */
/** @typedef {{number: number, operation: import("./deck.js").Group}} Free */
/**
 * What is said of a trap, the chain that could not be followed, and the step that freed its block.
 * @typedef {{text: (string | Node)[], steps?: ChainStep[], trap?: ChainTrap, freed?: Free}} Told
 *
 * By what a trap is explained: `is` says what a chain or number is, `value` is its value.
 * @typedef {{is: (text: string) => string, value: (text: string) => number | null, view: View,
 *   session: Session}} By
 */

/**
 * Puts the explanation into a frame. Answers the chain that could not be followed, or {}; null where there is
 * nothing to be said beyond the trap's own text.
 * @param {HTMLElement} frame
 * @param {View} view
 * @param {Session} session
 * @param {GoTo} goTo
 * @returns {Promise<Told | null>}
 */
export async function showTrap(frame, view, session, goTo) {
  const number = Number(/TRAP (\d+)/.exec(view.state.line)?.[1]);
  const told = number <= 3 ? await chainTrap(number, view, session) : await otherTrap(number, view, session);
  if (!told) return null;
  const {text, freed} = told;
  frame.replaceChildren(...text, ...(freed ? freedInWords(freed, goTo) : []), ".");
  return told;
}

/**
 * @param {Free} free
 * @param {GoTo} goTo
 */
function freedInWords({number, operation}, goTo) {
  const state = `state ${number + 1}`;
  return [
    "whose block was freed at ",
    make("button", {type: "button", class: "to", onclick: () => goTo(number + 1)}, state),
    ` by (${operation.text})`
  ];
}

// ---- Chains

/**
 * The chain that trapped: the first, in the order in which they are read, that can't be followed.
 * @param {number} number
 * @param {View} view
 * @param {Session} session
 * @returns {Promise<Told | null>}
 */
async function chainTrap(number, view, session) {
  for (const chain of chainsAt(session.reading, view.state)) {
    const {steps, trap} = await followed(chain, view, session);
    if (trap?.number === number) return tellChain(chain, steps, trap, view, session);
  }
  const pointer = number === 2 ? pointerAt(session.reading, view.state) : null;
  if (!pointer) return chainBehindGet(number, view, session);
  const {steps} = await followed(pointer, view, session);
  const last = steps?.at(-1);
  return last ? tellChain(pointer, steps, {number, name: "", value: last.value, text: ""}, view, session) : null;
}

/**
 * The chain behind a get. It is followed where the get's first chain has the place of the new block already, which is
 * taken back by the trap: so a free piece stands for it here, one of those that are just large enough, with which the
 * chain traps so, too.
 * @param {number} number
 * @param {View} view
 * @param {Session} session
 * @returns {Promise<Told | null>}
 */
async function chainBehindGet(number, view, session) {
  const elements = operationAt(session.reading, view.state)?.elements ?? [];
  const chain = chainBehind(elements);
  if (!chain) return null;
  const size = 2 ** Math.ceil(Math.log2(valueOf(elements[2], view) ?? 1));
  const {store} = view;
  const free = store.piecesBetween(store.begin, store.end).filter((it) => it.isFree && it.size >= size);
  const least = free.reduce((most, it) => Math.min(most, it.size), Infinity);
  for (const {place} of free.filter((it) => it.size === least)) {
    const {steps, trap} = await followed(chain, view, session, stateWith(elements[0], place, size, view));
    if (trap?.number === number) return tellBehindGet(chain, steps, trap, {place, size}, view, session);
  }
  return null;
}

/**
 * @param {string} chain
 * @param {ChainStep[]} steps
 * @param {ChainTrap} trap
 * @param {{place: number, size: number}} block that stands for the new one
 * @param {View} view
 * @param {Session} session
 * @returns {Promise<Told>}
 */
async function tellBehindGet(chain, steps, trap, {place, size}, view, session) {
  const {number} = trap;
  const last = steps[steps.length - 1];
  const isInside = last.place === place || last.value === place;
  if (!isInside || number === 1) return tellChain(chain, steps, trap, view, session);
  const what = number === 2 ? `${last.name} of the new block is 0, no block` :
    `${last.name} leads to the new block, of ${count(size, "word")}, and ${trap.name} is in word ${
      view.fields.get(trap.name)?.word}${size === 1 ? ", counted from 0" : ""}`;
  return {text: [make("code", {}, chain), ` ends before ${trap.name}: ${what}`]};
}

/**
 * What a chain needs of a state in which another chain leads to a new block.
 * @param {string} chain
 * @param {number} place
 * @param {number} size
 * @param {View} view
 * @returns {import("./chain.js").Glimpse}
 */
function stateWith(chain, place, size, view) {
  const {bugs, fields} = view;
  const wordsAt = (/** @type {number} */ at) => (at === place ? Array(size).fill(0) : view.wordsAt(at));
  if (chain.length === 1) return {bugs: new Map([...bugs, [chain, place]]), fields, wordsAt};
  const {place: owner, window} = follow(chain, view).steps[chain.length - 1];
  const withNew = (/** @type {number} */ at) => {
    const words = wordsAt(at);
    if (at !== owner || !words || !window) return words;
    return words.map((it, index) => (index === window.word ? changedThrough(it, window, place) : it));
  };
  return {bugs, fields, wordsAt: withNew};
}

/**
 * @param {string} chain
 * @param {View} view
 * @param {Session} session
 * @param {import("./chain.js").Glimpse} state what of it the chain is followed in
 */
async function followed(chain, view, session, state = view) {
  for (;;) {
    const answer = follow(chain, state);
    if (answer.missing === undefined) return answer;
    await session.addBlock(view, answer.missing);
  }
}

/**
 * @param {string} chain
 * @param {ChainStep[]} steps
 * @param {ChainTrap} trap
 * @param {View} view
 * @param {Session} session
 * @returns {Promise<Told>}
 */
async function tellChain(chain, steps, trap, view, session) {
  const [last, code] = [steps[steps.length - 1], make("code", {}, chain)];
  const what = `${last.place === null ? last.name : last.text} is ${last.value}`;
  const way = trap.name ? [code, ` ends before ${trap.name}: `] : [];
  if (trap.number === 1) return {steps, trap, text: [code, `: ${trap.name} has no definition here`]};
  const block = view.store.block(last.value);
  if (trap.number === 3 && block) {
    const {size} = block;
    const word = view.fields.get(trap.name)?.word;
    const text = `${what}, a block of ${count(size, "word")}, and ${trap.name} is in word ${word}`;
    return {steps, trap, text: [...way, text, size === 1 ? ", counted from 0" : ""]};
  }
  const {text, freed} = await whyNoBlock(last.value, view, session);
  return {steps, trap, freed, text: [...way, `${what}, ${text}`]};
}

/**
 * Why no block begins at a place.
 * @param {number} place
 * @param {View} view
 * @param {Session} session
 * @returns {Promise<{text: string, freed?: Free}>}
 */
async function whyNoBlock(place, view, session) {
  if (place === 0) return {text: "no block"};
  const piece = view.store.pieceWith(place);
  if (!piece) return {text: "which is no place of the store"};
  if (!piece.isFree) return {text: `which is inside the block at ${piece.place}`};
  const freed = await freeOf(place, view, session);
  if (freed) return {text: "", freed};
  return {text: freed === null ? "which was never a block" : "where no block begins"};
}

/**
 * The latest step that freed the block at a place: null where there was none, undefined where that is not
 * known. A block is gone only by such a step.
 * @param {number} place
 * @param {View} view
 * @param {Session} session
 */
async function freeOf(place, view, session) {
  const {trail, reading, values} = session;
  const least = Math.max(0, view.state.steps - MOST_BACK);
  let size = FIRST_FREES;
  /** @type {(Free & {chain: string})[]} */
  let frees = [];
  for (let number = view.state.steps - 1; number >= least; number--) {
    const spot = await trail.near(number, -4);
    const operation = spot && operationAt(reading, spot);
    if (operation?.elements[1] === "FR") frees.push({number, operation, chain: operation.elements[0]});
    if (frees.length < size && number > least) continue;
    const places = frees.length ? await values.ofChains([...frees].reverse()) : [];
    const found = places.lastIndexOf(place);
    if (found >= 0) return frees[frees.length - 1 - found];
    frees = [];
    size = Math.min(MOST_FREES, size * 2);
  }
  return least === 0 ? null : undefined;
}

/**
 * The chains that are read at a spot, in their order.
 * @param {Reading} deck
 * @param {State} state
 */
function chainsAt(deck, state) {
  const operation = operationAt(deck, state);
  const groups = operation ? [operation] : deck.statements[state.statement ?? -1]?.tests ?? [];
  return groups.flatMap(({elements}) => chainsOf(elements, !operation));
}

/**
 * The chain whose value must be the place of a block, or null.
 * @param {Reading} deck
 * @param {State} state
 */
function pointerAt(deck, state) {
  const elements = operationAt(deck, state)?.elements ?? [];
  if (elements[1] === "FR") return elements[0];
  return elements[1] === "DP" && /^[A-Z]/.test(elements[2]) ? elements[2] : null;
}

// ---- Other traps

/**
 * @param {number} number
 * @param {View} view
 * @param {Session} session
 * @returns {Promise<Told | null>}
 */
async function otherTrap(number, view, session) {
  const operation = operationAt(session.reading, view.state);
  const elements = operation?.elements ?? [];
  for (const chain of elements.filter((it) => /^[A-Z][A-Z0-9]{0,5}$/.test(it)))
    await followed(chain, view, session);
  const value = (/** @type {string} */ text) => valueOf(text, view);
  const is = (/** @type {string} */ text) =>
    (/^[0-9]/.test(text) ? `${Number(text)}` : `${text} is ${withCommas(value(text) ?? 0)}`);
  const text = TELL[number]?.(elements, {is, value, view, session});
  return text ? {text: [text[0].toUpperCase() + text.slice(1)]} : null;
}

// What there is to say of a trap, by its number.
/** @type {Record<number, (elements: string[], by: By) => string>} */
const TELL = {
  4: ([word, , first, last], {is}) =>
    `the word: ${is(word)}; the first bit: ${is(first)}; the last: ${is(last)}`,
  5: ([chain, , divisor], {is}) => `the divisor of ${chain}: ${is(divisor)}`,
  6: ([, , size], {is}) => `the size that is asked for: ${is(size)}`,
  7: (elements, {value, view}) => storeFull(elements, value, view),
  8: ([, , size], {is, view, session}) =>
    `asked for: ${is(size)}; left: ${count(charactersOf(session.input) - view.amounts.input, "character")}`,
  9: ([, verb]) => `no ${verb === "FC" ? "content" : "definition"} is saved here`,
  10: ([, verb]) => `${withCommas(FULL)} ${verb === "FC" ? "contents" : "definitions"} are saved`,
  11: ([label]) => `${withCommas(FULL)} calls wait, and ${label} is called once more`,
  12: () => "the latest call has no second label, to which FAIL could lead",
  13: ([, , size], {is}) => `the number of characters: ${is(size)}`,
  14: (_, {view, session}) => `${count(view.amounts.output, "byte")} are printed, and ${
    withCommas(session.options.output)} is the most`,
};

/**
 * @param {string[]} elements
 * @param {(text: string) => number | null} value
 * @param {View} view
 */
function storeFull([, verb, third], value, view) {
  const wanted = verb === "DP" ? view.store.block(value(third) ?? 0)?.size : value(third);
  const {free, largestFree} = view.store;
  const largest = largestFree ? `the largest free piece has ${withCommas(largestFree)}` : "none is free";
  return `${count(wanted ?? 0, "word")} asked for; ${count(free, "word")} free, and ${largest}`;
}

// How many characters an input has: each line has 80.
/** @param {string} input */
function charactersOf(input) {
  const lines = input.split("\n");
  if (lines.at(-1) === "") lines.pop();
  return lines.length * 80;
}
