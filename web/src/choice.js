// Which blocks are shown where there are too many: those nearest to the bugs, and some of the lost ones.

import {KINDS} from "./store.js";

export const MOST_BLOCKS = 300;
export const MOST_LOST = 40;
const MOST_WORDS = 20_000; // of all blocks that are shown

/** @typedef {import("./transcript.js").Drawn} Drawn */
/** @typedef {{place: number, size: number, links: {field: string, target: number}[]}} DrawnBlock */
/**
 * What is drawn: the bugs that lead to blocks, those that the reader hid, and the blocks by their places.
 * @typedef {{bugs: Map<string, number>, hiddenBugs: string[], blocks: Map<number, DrawnBlock>}} Chosen
 */

/**
 * Of what `draw` and `store` answered: the bugs that lead to blocks, the blocks that are shown with their
 * links, and how many are not. Bugs that the reader hid lead nowhere.
 * @param {Drawn} drawn
 * @param {import("./transcript.js").StoreData} store
 * @param {string[]} hiddenBugs
 */
export function choose(drawn, store, hiddenBugs = []) {
  const bugs = new Map([...drawn.bugs].filter(([name]) => !hiddenBugs.includes(name)));
  /** @type {Map<number, DrawnBlock>} */
  const blocks = new Map();
  let words = 0;
  const hasRoom = (/** @type {number} */ size) => {
    words += size;
    return words <= MOST_WORDS || blocks.size === 0;
  };
  const near = nearest(bugs, drawn, hasRoom, blocks);
  const lost = [];
  let lostCount = 0;
  for (let index = 0; index < store.kinds.length; index++) {
    if (store.kinds[index] !== KINDS.lost) continue;
    lostCount++;
    if (lost.length < MOST_LOST && words + store.sizes[index] <= MOST_WORDS) {
      words += store.sizes[index];
      lost.push(store.places[index]);
    }
  }
  return {
    draw: {bugs, hiddenBugs, blocks},
    shown:
      {places: [...near, ...lost], hidden: drawn.count - near.length, hiddenLost: lostCount - lost.length},
  };
}

/**
 * The first blocks that are met from the bugs on, level by level.
 * @param {Map<string, number>} bugs
 * @param {Drawn} drawn
 * @param {(size: number) => boolean} hasRoom
 * @param {Map<number, DrawnBlock>} blocks
 */
function nearest(bugs, drawn, hasRoom, blocks) {
  const met = new Set();
  /** @type {number[]} */
  const queue = [];
  const meet = (/** @type {number} */ place) => {
    if (met.size >= MOST_BLOCKS || met.has(place)) return;
    const block = drawn.block(place);
    if (!block || !hasRoom(block.size)) return;
    met.add(place);
    blocks.set(place, block);
    queue.push(place);
  };
  [...bugs.values()].forEach(meet);
  for (let next = 0; next < queue.length; next++)
    blocks.get(queue[next])?.links.forEach((it) => meet(it.target));
  return queue;
}
