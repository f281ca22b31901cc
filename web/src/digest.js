// What the worker makes of the debugger's answers: as much as is shown, and no more. A store of 255 units has
// up to 261,120 blocks, and the page itself must never wait for a list of them.

import {choose} from "./choice.js";
import {Store} from "./store.js";
import {stateOf, Transcript} from "./transcript.js";

const BYTES = 9; // that are kept of each block and each run of free words

export const DIGESTS = {
  views,
  trail,
  totals
};

// The states that were looked at: `skip` lines come first, and then, for each state, the answers to `show`,
// `fields`, `draw` and `store`; last comes that to `out`, of which the end is kept. Bugs in `hidden` lead to
// no block that is shown.
/**
 * @param {string} text
 * @param {{skip: number, count: number, hidden: string[], mostOutput: number}} more
 */
function views(text, {skip, count, hidden, mostOutput}) {
  const transcript = new Transcript(text);
  for (let line = 0; line < skip; line++) transcript.line();
  /** @type {any[]} */
  const found = [];
  for (let state = 0; state < count; state++) {
    if (state > 0) transcript.line();
    const begun = transcript.place;
    const shown = {...transcript.show(), fields: transcript.fields()};
    const seen = transcript.place;
    const draw = transcript.draw();
    const store = transcript.store();
    if (found.at(-1)?.state.number === shown.state.number) continue;
    const cost = seen - begun + store.places.length * BYTES;
    found.push({...shown, ...choose(draw, store, hidden), store, cost});
  }
  const output = transcript.out();
  const from = Math.max(0, found[0].amounts.output - mostOutput);
  return {views: found, output: {from, text: output.slice(from)}, size: text.length};
}

// Where the run is in a state and the states after it: the number of the first, the statements and actions,
// and the line of the last one if the run has ended there.
/** @param {string} text */
function trail(text) {
  const lines = text.split("\n");
  lines.pop();
  const statements = new Int32Array(lines.length);
  const actions = new Uint8Array(lines.length);
  let [count, ending] = [0, ""];
  for (const line of lines) {
    const state = stateOf(line);
    statements[count] = state.statement ?? -1;
    actions[count] = state.action ?? 0;
    count++;
    if (!state.ending) continue;
    ending = line;
    break;
  }
  const {number} = stateOf(lines[0]);
  return {number, statements: statements.slice(0, count), actions: actions.slice(0, count), ending};
}

// Of some states: how many words are in blocks, how many are free, and how large the largest free piece is.
/**
 * @param {string} text
 * @param {{count: number}} more
 */
function totals(text, {count}) {
  const transcript = new Transcript(text);
  const found = [];
  for (let state = 0; state < count; state++) {
    const {number} = transcript.state();
    const store = new Store(transcript.store());
    found.push({number, used: store.used, free: store.free, largest: store.largestFree});
  }
  return found;
}
