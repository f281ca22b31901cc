// What changed from the state that was shown before to this one, in sentences.

import {valueOf} from "./chain.js";
import {windowsOf} from "./shape.js";
import {KINDS} from "./store.js";
import {count, seenThrough, UNIT, withCommas} from "./word.js";

const MOST_TOLD = 7;
const MOST_FOUND = 1000; // blocks that are named one by one

/** @typedef {import("./view.js").View} View */
/** @typedef {import("./store.js").Store} Store */
/** @typedef {import("./store.js").Piece} Piece */
/** @typedef {import("./transcript.js").State} State */
/** @typedef {{operation: import("./deck.js").Group | null}} Step */

/**
 * The sentences. Of one step, which has the operation that was done or null, they also say how often the
 * store halved or joined pieces.
 * @param {View | null} before
 * @param {View} view
 * @param {string} input
 * @param {Step | null} step
 */
export function changesOf(before, view, input, step = null) {
  if (!before) return [];
  return [
    ...blocksOf(before, view, step),
    ...bugsOf(before, view),
    ...fieldsOf(before, view),
    ...wordsOf(before, view),
    ...amountsOf(before, view, input),
  ];
}

// As many of them as a reader takes in.
/** @param {string[]} changes */
export function shortened(changes) {
  if (changes.length <= MOST_TOLD) return changes;
  return [...changes.slice(0, MOST_TOLD - 1), `and ${changes.length - MOST_TOLD + 1} more changes`];
}

/** @type {Record<string, string>} */
const ENDINGS = {
  DONE: "the run is done",
  FAIL: "the run has failed",
  LIMIT: "the run has made all the steps it may"
};

/**
 * How the run has ended in this state, in a sentence, or "". `traps` says of each trap, by its number, when it happens.
 * @param {{state: State}} view
 * @param {Record<string, string>} traps
 * @returns {string}
 */
export function endingOf({state}, traps) {
  const number = /TRAP (\d+)/.exec(state.line)?.[1] ?? "";
  if (state.ending === "TRAP") return `trap ${number}: ${traps[number]}`;
  return ENDINGS[state.ending] ?? "";
}

/**
 * @param {View} before
 * @param {View} view
 * @param {Step | null} step
 * @returns {string[]}
 */
function blocksOf(before, view, step) {
  /** @type {string[]} */
  const found = [];
  let more = 0;
  const tell = (/** @type {() => string} */ text) => (found.length < MOST_FOUND ? found.push(text()) : more++);
  eachBlock(before.store, view.store, (was, is) => {
    if (is && was?.size !== is.size)
      tell(() => `got ${count(is.size, "word")} at ${is.place}${step ? gotHow(before, is, step) : ""}`);
    if (is?.isLost && !was?.isLost) tell(() => `block ${is.place} is lost: nothing leads to it`);
    if (is && !is.isLost && was?.isLost) tell(() => `block ${is.place} is lost no more`);
    if (was && was.size !== is?.size)
      tell(() => `freed ${count(was.size, "word")} at ${was.place}${step ? joined(view, was) : ""}`);
  });
  return more ? [...found, `and ${count(more, "more block", "more blocks")}`] : found;
}

/**
 * Calls with the block of one store and that of another at each place where one has a block that the other
 * has not, or not so.
 * @param {Store} one
 * @param {Store} other
 * @param {(was: Piece | null, is: Piece | null) => void} call
 */
function eachBlock(one, other, call) {
  const [a, b] = [one.places, other.places];
  let [i, j] = [0, 0];
  const block = (/** @type {Store} */ store, /** @type {number} */ index) =>
    (store.kinds[index] === KINDS.free ? null : store.piece(index));
  while (i < a.length || j < b.length) {
    const isSame = a[i] === b[j];
    if (isSame && one.sizes[i] === other.sizes[j] && one.kinds[i] === other.kinds[j]) {
      i++;
      j++;
    } else if (isSame)
      call(block(one, i++), block(other, j++));
    else if (j >= b.length || a[i] < b[j])
      call(block(one, i++), null);
    else
      call(null, block(other, j++));
  }
}

/**
 * How often a free piece was halved for a block that was got, and how many of its words were not asked for.
 * @param {View} before
 * @param {Piece} block
 * @param {Step} step
 */
function gotHow(before, block, {operation}) {
  const wanted = operation?.elements[1] === "GT" ? valueOf(operation.elements[2], before) : null;
  const wasted = wanted === null ? 0 : block.size - wanted;
  const waste = wanted !== null && wasted > 0 ?
    `${withCommas(wanted)} asked for, so ${withCommas(wasted)} wasted; ` :
    "";
  const size = before.store.freePieceWith(block.place);
  if (!size) return "";
  const times = Math.log2(size / block.size);
  return times > 0 ? ` (${waste}a free piece of ${withCommas(size)} was halved ${count(times, "time")})` :
                     ` (${waste}a free piece of this size was there: none was halved)`;
}

/**
 * How often the words of a freed block were joined with their buddies, and why not once more.
 * @param {View} view
 * @param {Piece} block
 */
function joined(view, block) {
  const size = view.store.freePieceWith(block.place);
  if (!size) return "";
  const times = Math.log2(size / block.size);
  if (size === UNIT && times > 0)
    return ` (it was joined ${count(times, "time")}, to a free piece of 1,024, which is a whole unit)`;
  if (size === UNIT) return " (it is a whole unit, which has no buddy)";
  const why = whyNoMore(view.store, block.place - (block.place % size), size);
  if (times === 0) return ` (it was not joined, since its buddy ${why})`;
  return ` (it was joined ${count(times, "time")}, to a free piece of ${
           withCommas(size)}, and no more, since ` +
    `the buddy of that piece ${why})`;
}

/**
 * @param {Store} store
 * @param {number} place
 * @param {number} size
 */
function whyNoMore(store, place, size) {
  const buddy = place % (2 * size) === 0 ? place + size : place - size;
  const piece = store.pieceWith(buddy);
  const isBlock = piece && !piece.isFree && piece.place === buddy && piece.size === size;
  return `at ${buddy} is ${isBlock ? "a block" : "not free as a whole"}`;
}

/**
 * @param {View} before
 * @param {View} view
 */
function bugsOf(before, view) {
  const names = [...new Set([...before.bugs.keys(), ...view.bugs.keys()])].sort();
  return names.flatMap((name) => {
    const [was, is] = [before.bugs.get(name) ?? 0, view.bugs.get(name) ?? 0];
    return was === is ? [] : [`${name} was ${was}, is ${is}`];
  });
}

/**
 * @param {View} before
 * @param {View} view
 */
function fieldsOf(before, view) {
  const names = [...new Set([...before.fields.keys(), ...view.fields.keys()])].sort();
  const tell = (/** @type {import("./transcript.js").Field | undefined} */ it) =>
    it && `word ${it.word}, bits ${it.first} to ${it.last}`;
  return names.flatMap((name) => {
    const [was, is] = [tell(before.fields.get(name)), tell(view.fields.get(name))];
    if (was === is) return [];
    return [is ? `field ${name} is ${is}` : `field ${name} has no definition`];
  });
}

/**
 * @param {View} before
 * @param {View} view
 */
function wordsOf(before, view) {
  const windows = windowsOf(view.fields);
  /** @type {string[]} */
  const found = [];
  for (const [place, words] of view.words) {
    const old = before.words.get(place);
    if (!words || !old || old.length !== words.length) continue;
    words.forEach((word, index) => {
      if (word === old[index]) return;
      const own =
        windows.filter((it) => it.word === index && seenThrough(word, it) !== seenThrough(old[index], it));
      if (own.length)
        for (const it of own)
          found.push(`${it.name} of ${place} was ${seenThrough(old[index], it)}, is ${seenThrough(word, it)}`
          );
      else
        found.push(`word ${index} of ${place} is another`);
    });
  }
  return found;
}

/**
 * @param {View} before
 * @param {View} view
 * @param {string} input
 */
function amountsOf(before, view, input) {
  const [was, is] = [before.amounts, view.amounts];
  const found = [];
  const change = (/** @type {"contents" | "definitions"} */ name, /** @type {string} */ one) => {
    const more = is[name] - was[name];
    if (more) found.push(more > 0 ? `saved ${count(more, one)}` : `restored ${count(-more, one)}`);
  };
  change("contents", "content");
  change("definitions", "definition");
  if (is.returns > was.returns) found.push(`called: ${count(is.returns, "return waits", "returns wait")}`);
  if (is.returns < was.returns) found.push("returned");
  if (is.input > was.input) found.push(`took ${takenOf(input, was.input, is.input)} from the input`);
  if (is.output > was.output) found.push(`printed ${quoted(view.printedSince(was.output))}`);
  return found;
}

/**
 * The characters that were taken: of each line 80.
 * @param {string} input
 * @param {number} from
 * @param {number} to
 */
function takenOf(input, from, to) {
  if (to - from > 20) return count(to - from, "character");
  const lines = input.split("\n");
  let text = "";
  for (let place = from; place < to; place++) {
    text += (lines[Math.floor(place / 80)] ?? "").replace(/\r$/, "")[place % 80] ?? " ";
  }
  return quoted(text.toUpperCase());
}

/** @param {string} text */
function quoted(text) {
  const line = text.replaceAll("\n", "⏎");
  return line.length > 30 ? `“${line.slice(0, 28)}..”` : `“${line}”`;
}
