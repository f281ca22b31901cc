// Whether an answer solves a task: what it prints for the input that is seen and for the hidden ones, and what
// its blocks are like at the end of each run.

import {chainBehind, chainsOf} from "./group.js";
import {Session} from "./session.js";
import {seenThrough} from "./word.js";

/**
 * Conditions on the end of each run: no block is lost; from a bug on, a field leads through a list of so many
 * blocks; and the answer uses a field.
 * @typedef {{noLost?: boolean, list?: {bug: string, field: string, length: number}, uses?: string}} Conditions
 * @typedef {{input: string, printout: string}} Test
 * @typedef {{printout: string, input?: string, tests?: Test[], conditions?: Conditions}} Task
 * @typedef {{deck: string, input: string, options: {store: number, steps: number, output: number}}} Job
 */

/**
 * Why an answer does not solve a task, or "" where it does.
 * @param {Task} task
 * @param {Job} job
 * @param {(words: string[], input: Uint8Array, digest?: object | null) => Promise<any>} ask
 */
export async function verdictOf({printout, input = "", tests = [], conditions = {}}, job, ask) {
  const all = [{input: input || job.input, printout}, ...tests];
  for (const [index, test] of all.entries()) {
    const session = new Session(ask, {...job, input: test.input});
    const which = index === 0 ? "" : `with hidden input ${index} of ${tests.length}, `;
    const {printed, ending} = await session.run();
    if (ending.ending !== "DONE") return `${which}the run does not end by DONE`;
    if (linesOf(printed) !== linesOf(test.printout)) return `${which}something else is printed than is wanted`;
    const why = await wrongAtEnd(session, conditions);
    if (why) return `${which}${why}`;
  }
  return "";
}

// A printout, whose last line may have a line feed or not.
/** @param {string} text */
export function linesOf(text) {
  return text.trimEnd();
}

/**
 * Which condition does not hold at the end of a run, in words, or "".
 * @param {Session} session
 * @param {Conditions} conditions
 */
async function wrongAtEnd(session, {noLost, list, uses}) {
  if (uses && !isUsed(session.reading, uses)) return `field ${uses} is not used`;
  if (!noLost && !list) return "";
  const view = await session.view(session.last ?? 0);
  if (noLost && view.store.lost > 0) return "a block is lost at the end";
  if (!list) return "";
  const length = await lengthOf(session, view, list);
  return length === list.length ? "" :
    `at the end the list at ${list.bug} has ${length === null ? "no end" : length} and not ${list.length} blocks`;
}

/**
 * Whether a chain of a deck has a field.
 * @param {import("./deck.js").Reading} reading
 * @param {string} field
 */
export function isUsed(reading, field) {
  const chains = reading.statements.flatMap(({tests, operations}) => [
    ...tests.flatMap(({elements}) => chainsOf(elements, true)),
    ...operations.flatMap(({elements}) => [...chainsOf(elements, false), chainBehind(elements)])
  ]);
  return chains.some((it) => it.slice(1).includes(field));
}

/**
 * How many blocks a list has, or null where it is a ring.
 * @param {Session} session
 * @param {import("./view.js").View} view
 * @param {{bug: string, field: string}} list
 */
async function lengthOf(session, view, {bug, field}) {
  const window = view.fields.get(field);
  const met = new Set();
  for (let place = view.bugs.get(bug) ?? 0; place !== 0 && view.store.block(place);) {
    if (met.has(place)) return null;
    met.add(place);
    await session.addBlock(view, place);
    const words = view.words.get(place);
    if (!window || !words || window.word >= words.length) break;
    place = seenThrough(words[window.word], window);
  }
  return met.size;
}

/**
 * Conditions as a link or a file has them, without what is none.
 * @param {any} value
 * @returns {Conditions}
 */
export function conditionsOf(value) {
  /** @type {Conditions} */
  const found = {};
  if (value?.noLost === true) found.noLost = true;
  if (/^[A-Z0-9]$/.test(value?.uses)) found.uses = value.uses;
  const {bug, field, length} = value?.list ?? {};
  if (/^[A-Z]$/.test(bug) && /^[A-Z0-9]$/.test(field) && Number.isInteger(length) && length >= 0)
    found.list = {bug, field, length};
  return found;
}

/**
 * Hidden inputs with their printouts, as a link or a file has them.
 * @param {any} value
 * @returns {Test[]}
 */
export function testsOf(value) {
  if (!Array.isArray(value)) return [];
  return value.filter((it) => typeof it?.input === "string" && typeof it?.printout === "string")
    .map(({input, printout}) => ({input, printout}));
}
