// The limits of a run that the reader sets. Each has a range.

import {byId} from "./dom.js";
import {withCommas} from "./word.js";

export const DEFAULTS = {
  store: 8,
  steps: 1_000_000,
  output: 1_048_576
};
/** @type {Record<string, [number, number]>} */
export const RANGES = {
  store: [1, 255],
  steps: [0, 1_000_000_000],
  output: [0, 16_777_216],
  memory: [1, 2048]
};
/** @type {Record<string, string>} */
const NAMES = {
  store: "Units of the store",
  steps: "Steps",
  output: "Bytes of output",
  memory: "Memory"
};
const MEBIBYTE = 2 ** 20;

export const OPTIONS = Object.keys(RANGES);

/** @param {string} name */
function valueOf(name) {
  return byId(name).value.trim() === "" ? NaN : Number(byId(name).value);
}

/** @param {string} name */
function isRight(name) {
  const [least, most] = RANGES[name];
  const number = valueOf(name);
  return Number.isInteger(number) && number >= least && number <= most;
}

// The options that the program is given.
export function optionsChosen() {
  return {store: valueOf("store"), steps: valueOf("steps"), output: valueOf("output")};
}

// The most bytes of memory that the program may have.
export function memoryChosen() {
  return isRight("memory") ? valueOf("memory") * MEBIBYTE : RANGES.memory[1] * MEBIBYTE;
}

/**
 * Whether options are those of an example or an exercise.
 * @param {{options?: object}} own
 * @param {object} options
 */
export function areOptionsOf(own, options) {
  return JSON.stringify(options) === JSON.stringify({...DEFAULTS, ...own.options});
}

/** @param {object} options */
export function showOptions(options) {
  for (const [name, value] of Object.entries({...DEFAULTS, ...options})) byId(name).value = String(value);
  sayWrongOptions();
}

// Says which numbers are out of their ranges, and answers that, or "". Nothing is run with such a number.
export function sayWrongOptions() {
  const wrong = OPTIONS.filter((name) => !isRight(name));
  const tell = (/** @type {string} */ name) => {
    const [least, most] = RANGES[name];
    return `${NAMES[name]}: a number from ${withCommas(least)} to ${withCommas(most)}, and not “${
      byId(name).value}”.`;
  };
  const text = wrong.map(tell).join(" ");
  byId("options-note").textContent = text;
  for (const name of OPTIONS) byId(name).setAttribute("aria-invalid", String(wrong.includes(name)));
  return text;
}
