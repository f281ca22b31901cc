// Files that the reader opens: decks, whole jobs and tasks.

import {textOfBytes} from "./bytes.js";
import {partsOf} from "./job.js";
import {taskOf} from "./tasks.js";
import {withCommas} from "./word.js";

const MOST_JOB = 16_777_216; // bytes
const MOST_PART = 1_048_576; // of a deck, an input, or commands

/** @typedef {import("./library.js").Own} Own */

/**
 * What a file has: a job, and the task that it is, if it is one; or why it is not opened.
 * @param {File} file
 * @returns {Promise<{own?: Own, task: import("./library.js").Exercise | null, why: string}>}
 */
export async function readFile(file) {
  const refused = (/** @type {string} */ why) => ({task: null, why});
  if (file.size > MOST_JOB)
    return refused(`it has ${withCommas(file.size)} bytes, and a job has at most ${withCommas(MOST_JOB)}.`);
  const text = textOfFile(new Uint8Array(await file.arrayBuffer()));
  const task = taskOf(text);
  /** @type {Own} */
  const own = task ?? partsOf(text);
  const {deck, input = "", commands = ""} = own;
  const long = Object.entries({deck, input, commands}).find(([, it]) => it.length > MOST_PART);
  if (!long) return {own, task, why: ""};
  const [name, {length}] = long;
  return refused(`its ${name} has ${withCommas(length)} bytes, and ${withCommas(MOST_PART)} is the most.`);
}

// A file's bytes as a text: UTF-8, or else a character for each byte.
/** @param {Uint8Array} bytes */
function textOfFile(bytes) {
  try {
    return new TextDecoder("utf-8", {fatal: true, ignoreBOM: false}).decode(bytes);
  } catch {
    return textOfBytes(bytes);
  }
}
