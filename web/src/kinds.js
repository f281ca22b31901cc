// What the fields of a run hold: links, numbers or texts. A field holds links if all that it got were pointers
// to blocks, and 0; the reader may choose otherwise.

import {textNames} from "./texts.js";

export const KINDS = ["link", "number", "text"];

/** @typedef {import("./chronicle.js").Chronicle} Chronicle */
/** @typedef {"link" | "number" | "text"} Kind */

export class Kinds {
  constructor() {
    /** @type {Map<string, Kind>} */
    this.chosen = new Map(); // by windows
    /** @type {Chronicle | null} */
    this.chronicle = null;
    /** @type {Set<string>} */
    this.texts = new Set(); // names of fields that hold texts by the deck
  }

  forget() {
    this.chosen.clear();
    this.chronicle = null;
  }

  // Takes what is known of a run: what is read in its deck, and its chronicle or null.
  /**
   * @param {import("./deck.js").Reading} reading
   * @param {Chronicle | null} chronicle
   */
  begin(reading, chronicle) {
    this.texts = textNames(reading);
    this.chronicle = chronicle;
  }

  /**
   * The kind of a window in a state: what the reader chose, else what the run up to there has stored, else
   * what it stores later. Where the run is not known all may be links.
   * @param {{key: string, names: string[]}} window
   * @param {number} number
   * @returns {Kind}
   */
  of({key, names}, number) {
    const chosen = this.chosen.get(key);
    if (chosen) return chosen;
    if (this.isLink(key, number)) return "link";
    return names.some((it) => this.texts.has(it)) ? "text" : "number";
  }

  /**
   * @param {string} key
   * @param {number} number
   */
  isLink(key, number) {
    if (!this.chronicle) return true;
    if (!this.chronicle.knows(number)) return this.chronicle.kindOf(key, Infinity) !== "number";
    const found = this.chronicle.kindOf(key, number) ?? this.chronicle.kindOf(key, Infinity);
    return found === "link" || (found === null && !this.chronicle.isWhole);
  }

  /**
   * Whether a window ever holds links, so that they have room in the drawing.
   * @param {string} key
   */
  mayLink(key) {
    const chosen = this.chosen.get(key);
    if (chosen) return chosen === "link";
    return !this.chronicle || this.chronicle.kindOf(key, 0) !== null ||
      (this.chronicle.evidence.get(key)?.some((it) => it.isPointer) ?? !this.chronicle.isWhole);
  }

  // The reader chooses the next kind of a window.
  /**
   * @param {{key: string, names: string[]}} window
   * @param {number} number
   */
  turn(window, number) {
    const next = (KINDS.indexOf(this.of(window, number)) + 1) % KINDS.length;
    this.chosen.set(window.key, /** @type {Kind} */ (KINDS[next]));
  }

  // What the reader chose, for a link: each window with the first letter of its kind.
  get code() {
    return [...this.chosen].map(([key, kind]) => `${key}${kind[0]}`).join("_");
  }

  /** @param {string} code */
  set code(code) {
    this.chosen.clear();
    for (const [, key, letter] of code.matchAll(/(\d+\.\d+\.\d+)([lnt])/g)) {
      const kind = KINDS.find((it) => it[0] === letter);
      if (kind) this.chosen.set(key, /** @type {Kind} */ (kind));
    }
  }
}
