// Writes the chronicle of a run: each step that changed something is told to it, in order, with what was there
// before and after. Get and duplicate make a pointer to a new block; copies, exchanges and what is saved carry
// it along; arithmetic, literals and input make a number.

import {follow} from "./chain.js";
import {windowsOf} from "./shape.js";
import {seenThrough} from "./word.js";

const MOST_SEEN = 500;      // blocks that are looked at where a field is defined again
const MOST_EVIDENCE = 4000; // stores that are remembered of one window

/** @typedef {import("./chronicle.js").Life} Life */
/** @typedef {import("./chronicle.js").Held} Held */
/** @typedef {import("./chronicle.js").Window} Window */
/** @typedef {import("./chronicle.js").Told} Told */
/** @typedef {import("./chain.js").Glimpse & {number: number}} Moment */
/** @typedef {{number: number, elements: string[], made?: number | null, before?: Moment, after?: Moment}} Step */
/** @typedef {{key: string, from: Life, to: Life, since: number | null}} OpenLink */

export class Recorder {
  constructor() {
    /** @type {Map<number, Life[]>} */
    this.lives = new Map();
    /** @type {Map<string, Held[]>} */
    this.held = new Map();
    /** @type {import("./chronicle.js").Link[]} */
    this.links = [];
    /** @type {Map<string, {number: number, isPointer: boolean}[]>} */
    this.evidence = new Map();
    /** @type {Map<string, Window>} */
    this.windows = new Map(); // all that were ever defined
    /** @type {Window[]} */
    this.current = []; // those that are defined now
    /** @type {Map<string, OpenLink>} */
    this.open = new Map(); // links that are there
    /** @type {Map<Life, Set<string>>} */
    this.ends = new Map(); // the names of those that begin or end at a life
    /** @type {(Life | null)[]} */
    this.saved = []; // for which blocks the saved contents were made
    this.count = 0;  // of gets
  }

  /**
   * All that was told, up to the last state that was read.
   * @param {number} last
   * @param {boolean} isWhole
   * @param {import("./chronicle.js").Call[]} calls
   * @returns {Told}
   */
  told(last, isWhole, calls) {
    for (const name of [...this.open.keys()]) this.close(name, last + 1);
    const {lives, held, links, windows, evidence} = this;
    return {last, isWhole, calls, lives, held, links, windows, evidence};
  }

  // Takes the next step.
  /** @param {Step} step */
  take(step) {
    const {before, after} = step;
    if (!before || !after) {
      this.note(step.elements[0], {number: step.number, value: step.made ?? null, life: null});
      return;
    }
    if (after.fields !== before.fields) this.define(after.fields, step.number);
    for (const [chain, life, moment] of this.storesOf(step, before, after))
      this.store(chain, life, moment, after);
  }

  /**
   * What a step stores: the chains, the block for which each pointer was made, and where a chain is followed.
   * @param {Step} step
   * @param {Moment} before
   * @param {Moment} after
   * @returns {[string, Life | null, Moment][]}
   */
  storesOf({number, elements}, before, after) {
    if (isDefinition(elements)) return [];
    const [first, verb, third, fourth] = elements;
    const made = (/** @type {string} */ chain) =>
      (isChain(chain) ? this.holderOf(chain, before)?.life ?? null : null);
    switch (verb) {
      case "E": return [[first, made(third), before]];
      case "I": return [[first, made(third), before], [third, made(first), before]];
      case "FR": {
        const next = made(third);
        const place = placeOf(first, before);
        if (before.wordsAt(place) && after.wordsAt(place) === null) this.free(place, number);
        return [[first, next, before]];
      }
      case "GT":
      case "DP": {
        const old = made(first);
        const place = valueAfter(first, before, after) ?? 0;
        const words = after.wordsAt(place);
        if (!words || before.wordsAt(place) !== null) return []; // (there was no room)
        const life = this.get(place, words, number);
        if (verb === "DP") this.copy(life, this.living(placeOf(third, before)));
        return isChain(fourth) ? [[first, life, before], [fourth, old, after]] : [[first, life, before]];
      }
      case "FC":
        if (first !== "S") return [[third, this.saved.pop() ?? null, before]];
        this.saved.push(made(third));
        return [];
      default: return [[first, null, before]];
    }
  }

  // ---- Fields

  /**
   * Other fields are defined: links of those that are gone end, and begin again with them.
   * @param {Map<string, import("./transcript.js").Field>} fields
   * @param {number} number
   */
  define(fields, number) {
    const windows = /** @type {Window[]} */ (windowsOf(fields));
    const now = new Set(windows.map((it) => it.key));
    for (const link of this.open.values()) {
      if (link.since !== null && !now.has(link.key)) {
        this.end(link, number);
        link.since = null;
      } else if (link.since === null && now.has(link.key))
        link.since = number;
    }
    for (const window of windows) {
      const names = [...new Set([...(this.windows.get(window.key)?.names ?? []), ...window.names])];
      this.windows.set(window.key, {...window, names, name: names.join(" ")});
    }
    const known = new Set(this.current.map((it) => it.key));
    this.current = windows;
    for (const window of windows) if (!known.has(window.key)) this.see(window, number);
  }

  /**
   * What a window that is defined again shows of the blocks that are there. For which block it was made is not
   * known then: that which is there.
   * @param {Window} window
   * @param {number} number
   */
  see(window, number) {
    let seen = 0;
    for (const lives of this.lives.values()) {
      const life = lives[lives.length - 1];
      if (life.dead !== Infinity || window.word >= life.words.length) continue;
      const value = seenThrough(life.words[window.word], window);
      const held = this.held.get(`${life.id} ${window.key}`)?.at(-1);
      if ((held?.value ?? 0) !== value) this.hold(life, window, number, value, this.living(value));
      if (++seen > MOST_SEEN) return;
    }
  }

  // ---- Blocks

  /**
   * @param {number} place
   * @param {number[]} words
   * @param {number} number
   * @returns {Life}
   */
  get(place, words, number) {
    const life = {id: ++this.count, place, size: words.length, born: number, dead: Infinity, words: [...words]};
    const lives = this.lives.get(place);
    if (lives)
      lives.push(life);
    else
      this.lives.set(place, [life]);
    return life;
  }

  /**
   * @param {number} place
   * @param {number} number
   */
  free(place, number) {
    const life = this.living(place);
    if (!life) return;
    life.dead = number;
    for (const name of [...(this.ends.get(life) ?? [])]) this.close(name, number);
    this.ends.delete(life);
  }

  /**
   * A copy has the pointers of its original.
   * @param {Life} life
   * @param {Life | null} original
   */
  copy(life, original) {
    for (const window of this.current) {
      const held = original && this.held.get(`${original.id} ${window.key}`)?.at(-1);
      if (held?.value) this.hold(life, window, life.born, held.value, held.life);
    }
  }

  // ---- Stores

  /**
   * A bug or a field got what it holds after the step. Other windows on the same word change with it.
   * @param {string} chain
   * @param {Life | null} life
   * @param {Moment} moment
   * @param {Moment} after
   */
  store(chain, life, moment, after) {
    const {number} = after;
    if (chain.length === 1) {
      this.note(chain, {number, value: after.bugs.get(chain) ?? 0, life});
      return;
    }
    const place = placeOf(chain.slice(0, -1), moment);
    const words = after.wordsAt(place);
    const owner = this.living(place);
    if (!words || !owner) return;
    const own = after.fields.get(chain[chain.length - 1]);
    for (const window of this.current) {
      if (window.word >= words.length) continue;
      const isOwn = own && window.key === keyOf(own);
      const value = seenThrough(words[window.word], window);
      if (!isOwn && value === seenThrough(owner.words[window.word], window)) continue;
      this.hold(owner, window, number, value, isOwn ? life : this.living(value));
    }
    owner.words = [...words];
  }

  /**
   * A field of a block holds another value from a state on.
   * @param {Life} owner
   * @param {Window} window
   * @param {number} number
   * @param {number} value
   * @param {Life | null} life
   */
  hold(owner, window, number, value, life) {
    const name = `${owner.id} ${window.key}`;
    this.note(name, {number, value, life: value === 0 ? null : life});
    if (this.open.has(name)) this.close(name, number);
    if (value === 0) return;
    this.witness(window.key, number, life !== null);
    if (!life || life.dead !== Infinity) return;
    this.open.set(name, {key: window.key, from: owner, to: life, since: number});
    for (const end of [owner, life]) {
      const names = this.ends.get(end) ?? new Set();
      this.ends.set(end, names.add(name));
    }
  }

  /**
   * @param {string} key
   * @param {number} number
   * @param {boolean} isPointer
   */
  witness(key, number, isPointer) {
    const all = this.evidence.get(key) ?? [];
    this.evidence.set(key, all);
    const isKnown = all.length > 0 && all[all.length - 1].isPointer === isPointer;
    if (!isKnown && all.length < MOST_EVIDENCE) all.push({number, isPointer});
  }

  /**
   * @param {string} name
   * @param {Held} held
   */
  note(name, held) {
    const all = this.held.get(name);
    if (all)
      all.push(held);
    else
      this.held.set(name, [held]);
  }

  /**
   * @param {string} name
   * @param {number} number
   */
  close(name, number) {
    const link = this.open.get(name);
    if (!link) return;
    this.open.delete(name);
    for (const end of [link.from, link.to]) this.ends.get(end)?.delete(name);
    this.end(link, number);
  }

  /**
   * @param {OpenLink} link
   * @param {number} number
   */
  end({key, from, to, since}, number) {
    if (since !== null && number > since)
      this.links.push({key, from: from.place, to: to.place, since, until: number});
  }

  /**
   * What a chain's last name held lately, or null.
   * @param {string} chain
   * @param {Moment} moment
   * @returns {Held | null}
   */
  holderOf(chain, moment) {
    if (chain.length === 1) return this.held.get(chain)?.at(-1) ?? null;
    const own = moment.fields.get(chain[chain.length - 1]);
    const owner = this.living(placeOf(chain.slice(0, -1), moment));
    return own && owner ? this.held.get(`${owner.id} ${keyOf(own)}`)?.at(-1) ?? null : null;
  }

  /**
   * The block that is at a place now, or null.
   * @param {number} place
   * @returns {Life | null}
   */
  living(place) {
    const lives = this.lives.get(place);
    const life = lives && lives[lives.length - 1];
    return life && life.dead === Infinity ? life : null;
  }
}

/** @param {{word: number, first: number, last: number}} window */
function keyOf({word, first, last}) {
  return `${word}.${first}.${last}`;
}

/** @param {string | undefined} text */
export function isChain(text) {
  return /^[A-Z][A-Z0-9]{0,5}$/.test(text ?? "");
}

// Whether an operation may change what a field is.
/** @param {string[]} elements */
export function isDefinition({length, 1: verb}) {
  return verb === "FD" || (length === 4 && /^D.$/.test(verb));
}

/**
 * The value of a chain, or -1 where it has none.
 * @param {string} chain
 * @param {Moment} moment
 */
function placeOf(chain, moment) {
  const {steps, trap, missing} = follow(chain, moment);
  return trap || missing !== undefined || !steps.length ? -1 : steps[steps.length - 1].value;
}

/**
 * What a chain holds after a step that has stored something there, or null.
 * @param {string} chain
 * @param {Moment} before
 * @param {Moment} after
 */
export function valueAfter(chain, before, after) {
  if (chain.length === 1) return after.bugs.get(chain) ?? 0;
  const words = after.wordsAt(placeOf(chain.slice(0, -1), before));
  const window = /** @type {any} */ (after.fields.get(chain[chain.length - 1]));
  return words && window && window.word < words.length ? seenThrough(words[window.word], window) : null;
}
