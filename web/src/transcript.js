// Reads the debugger's answers (docs/debugger.md). All that the page shows of a run comes from here.

import {KINDS} from "./store.js";

const [ZERO, NINE] = [48, 57]; // the codes of the digits

/**
 * Where the run is in a state: its line, its number, and how it has ended, or "".
 * @typedef {{line: string, steps: number, ending: string, number: number, statement?: number,
 *   action?: number}} State
 * @typedef {{contents: number, definitions: number, returns: number, input: number, output: number}} Amounts
 * @typedef {{word: number, first: number, last: number}} Field
 * @typedef {{places: Int32Array, sizes: Int32Array, kinds: Uint8Array, used: number, free: number}} StoreData
 */

export class Transcript {
  /** @param {string} text */
  constructor(text) {
    this.text = text;
    this.place = 0;
    this.end = 0; // of the number that was read last
  }

  get isAtEnd() {
    return this.place >= this.text.length;
  }

  // The next line, which stays.
  peek() {
    const end = this.text.indexOf("\n", this.place);
    return this.text.slice(this.place, end < 0 ? this.text.length : end);
  }

  // The next line, which is taken.
  line() {
    if (this.isAtEnd) throw new Error("the transcript ends early");
    const line = this.peek();
    this.place += line.length + 1;
    return line;
  }

  // The answer to `step`, `go` and `back`.
  state() {
    return stateOf(this.line());
  }

  // The answer to `show`.
  show() {
    const state = this.state();
    /** @type {Map<string, number>} */
    const bugs = new Map();
    for (let found; (found = /^([A-Z]) [0-7]{12} (\d+)$/.exec(this.peek()));) {
      bugs.set(found[1], Number(found[2]));
      this.line();
    }
    const found =
      /^CONTENTS (\d+) DEFINITIONS (\d+) RETURNS (\d+) INPUT (\d+) OUTPUT (\d+)$/.exec(this.line()) ?? [];
    const [contents, definitions, returns, input, output] = found.slice(1).map(Number);
    return {state, bugs, amounts: {contents, definitions, returns, input, output}};
  }

  // The answer to `fields`: the windows by their names.
  fields() {
    /** @type {Map<string, Field>} */
    const fields = new Map();
    if (this.peek() === "NO FIELDS") {
      this.line();
      return fields;
    }
    for (let found; (found = /^([0-9A-Z]) (\d+) (\d+) (\d+)$/.exec(this.peek()));) {
      const [word, first, last] = found.slice(2).map(Number);
      fields.set(found[1], {word, first, last});
      this.line();
    }
    return fields;
  }

  /**
   * The answer to `block`: its words, or null where no block begins.
   * @returns {number[] | null}
   */
  block() {
    const found = /^BLOCK \d+ SIZE (\d+)$/.exec(this.line());
    if (!found) return null;
    return Array.from({length: Number(found[1])}, () => parseInt(this.line().trim().split(" ")[1], 8));
  }

  // The number that begins at a place of the text; `end` is where it ends then.
  /** @param {number} place */
  numberAt(place) {
    let value = 0;
    let at = place;
    for (let code = this.text.charCodeAt(at); code >= ZERO && code <= NINE; code = this.text.charCodeAt(++at))
      value = value * 10 + code - ZERO;
    this.end = at;
    return value;
  }

  // Goes to the line after the one that has a place.
  /** @param {number} place */
  after(place) {
    const end = this.text.indexOf("\n", place);
    this.place = end < 0 ? this.text.length : end + 1;
  }

  // The answer to `draw`: the bugs that lead to blocks, and the blocks that are reached. The links of a block
  // are read where they are asked for. (There may be hundreds of thousands of lines, so none is cut out.)
  draw() {
    const {text} = this;
    const bugs = new Map();
    const places = [];
    const sizes = [];
    const offsets = []; // where the lines of a block's links begin
    for (;;) {
      const {place} = this;
      if (text.startsWith("BLOCK ", place)) {
        places.push(this.numberAt(place + 6));
        sizes.push(this.numberAt(this.end + 6)); // (after " SIZE ")
        this.after(this.end);
        offsets.push(this.place);
      } else if (text.startsWith("  ", place)) {
        this.after(place);
      } else if (text.startsWith(" -> ", place + 1)) {
        bugs.set(text[place], this.numberAt(place + 5));
        this.after(this.end);
      } else {
        this.line();
        return new Drawn(text, bugs, {places, sizes, offsets});
      }
    }
  }

  // The answer to `store`: blocks and runs of free words in the order of their places.
  store() {
    const {text} = this;
    const places = [];
    const sizes = [];
    const kinds = [];
    for (;;) {
      const begun = this.place;
      const first = this.numberAt(begun);
      const kind = text[this.end + 1];
      if (kind !== "B" && kind !== "F") {
        const words = this.line().split(" ");
        return {
          places: Int32Array.from(places),
          sizes: Int32Array.from(sizes),
          kinds: Uint8Array.from(kinds),
          used: first,
          free: Number(words[3])
        };
      }
      places.push(first);
      sizes.push(this.numberAt(this.end + (kind === "B" ? 7 : 6))); // (after " BLOCK " and " FREE ")
      kinds.push(kind === "F" ? KINDS.free : text[this.end] === " " ? KINDS.lost : KINDS.block);
      this.after(this.end);
    }
  }

  // The answer to `out`.
  out() {
    const size = Number(this.line().split(" ")[1]);
    const text = this.text.slice(this.place, this.place + size);
    this.place += size + (size > 0 && !text.endsWith("\n") ? 1 : 0);
    return text;
  }
}

// The blocks that are reached, as `draw` answers them.
export class Drawn {
  /**
   * @param {string} text
   * @param {Map<string, number>} bugs
   * @param {{places: number[], sizes: number[], offsets: number[]}} lines
   */
  constructor(text, bugs, {places, sizes, offsets}) {
    this.text = text;
    this.bugs = bugs;
    this.places = places;
    this.sizes = sizes;
    this.offsets = offsets;
  }

  get count() {
    return this.places.length;
  }

  // The block that begins at a place, with its links, or null.
  /** @param {number} place */
  block(place) {
    let [low, high] = [0, this.places.length - 1];
    while (low <= high) {
      const middle = (low + high) >> 1;
      if (this.places[middle] === place)
        return {place, size: this.sizes[middle], links: this.linksFrom(this.offsets[middle])};
      if (this.places[middle] < place)
        low = middle + 1;
      else
        high = middle - 1;
    }
    return null;
  }

  /** @param {number} offset */
  linksFrom(offset) {
    const links = [];
    for (let at = offset; this.text.startsWith("  ", at);) {
      const end = this.text.indexOf("\n", at);
      links.push({field: this.text[at + 2], target: Number(this.text.slice(at + 7, end))});
      at = end + 1;
    }
    return links;
  }
}

/**
 * What the line of a state says. Its number is the count of steps, but one more after a trap.
 * @param {string} line
 * @returns {State}
 */
export function stateOf(line) {
  const steps = Number(/AFTER (\d+) STEPS$/.exec(line)?.[1]);
  const at = /AT (\d+)\.(\d+) /.exec(line);
  const ending = /^== (\w+)/.exec(line)?.[1] ?? "";
  const place = at ? {statement: Number(at[1]), action: Number(at[2])} : {};
  return {line, steps, ending, number: steps + (ending === "TRAP" ? 1 : 0), ...place};
}
