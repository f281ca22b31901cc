// The reader's work: what is typed, with its input, options and place, is kept in the browser's store as one
// types, and of the decks that were left the last ten. Where the browser refuses that, the page says so.

const WORK = "l6.work";
const DECKS = "l6.decks";
const MOST_DECKS = 10;
const MOST_CHARACTERS = 400_000; // of a deck that is kept
const AFTER = 300;               // milliseconds without a key
const TITLE = 40;                // characters
const REFUSED = "This browser keeps nothing of your work: save it as a file.";
const TOO_LONG = "So long a deck is not kept: save it as a file.";

/**
 * A deck with all that belongs to it, and the exercise or the task.
 * @typedef {{deck: string, input: string, options: object, number?: number | null, breakpoints?: number[],
 *   kinds?: string, exercise?: string, task?: string, given?: import("./links.js").Given, address?: string,
 *   when?: number}} Work
 */

export class Keeper {
  /**
   * `source` answers the work as it is now, and `refused` is called where it is not kept, once for each reason.
   * @param {{work: () => Work, refused: (why: string) => void}} source
   */
  constructor(source) {
    this.source = source;
    this.said = ""; // why the work is not kept
    /** @type {ReturnType<typeof setTimeout> | undefined} */
    this.timer = undefined;
  }

  // Something was typed: it is kept in a moment.
  typed() {
    clearTimeout(this.timer);
    this.timer = setTimeout(() => this.save(), AFTER);
  }

  // Keeps the work now.
  save() {
    clearTimeout(this.timer);
    const work = this.source.work();
    const isLong = work.deck.length > MOST_CHARACTERS;
    this.say(isLong ? TOO_LONG : this.write(WORK, {...work, when: Date.now()}) ? "" : REFUSED);
  }

  // The work is done with: another deck was opened. It is among the last decks then, or else stays where it is.
  leave() {
    clearTimeout(this.timer);
    if (this.list()) this.remove(WORK);
  }

  // Puts the work among the last decks; answers whether it is there. Where there is no room for all, the oldest go.
  list() {
    const work = this.work();
    if (!work) return true;
    const decks = [work, ...this.decks().filter((it) => it.deck !== work.deck)].slice(0, MOST_DECKS);
    while (decks.length > 0 && !this.write(DECKS, decks)) decks.pop();
    if (!decks.length) this.say(REFUSED);
    return decks.length > 0;
  }

  // Says why the work is not kept, unless that was said last.
  /** @param {string} why */
  say(why) {
    if (why && why !== this.said) this.source.refused(why);
    this.said = why;
  }

  /** @returns {Work | null} what was typed last, and not left since */
  work() {
    const work = this.read(WORK);
    return isWork(work) ? work : null;
  }

  /** @returns {Work[]} the decks that were left, the latest first */
  decks() {
    const decks = this.read(DECKS);
    return Array.isArray(decks) ? decks.filter(isWork) : [];
  }

  /**
   * @param {string} name
   * @returns {any}
   */
  read(name) {
    try {
      return JSON.parse(window.localStorage.getItem(name) ?? "null");
    } catch {
      return null;
    }
  }

  /** @param {string} name */
  remove(name) {
    try {
      window.localStorage.removeItem(name);
    } catch {
      // (then nothing was kept there, either)
    }
  }

  /**
   * Answers whether it is kept.
   * @param {string} name
   * @param {unknown} value
   */
  write(name, value) {
    try {
      window.localStorage.setItem(name, JSON.stringify(value));
      return true;
    } catch {
      return false;
    }
  }
}

/** @param {any} value */
function isWork(value) {
  return typeof value?.deck === "string" && typeof value?.input === "string";
}

/**
 * What a deck is called in a menu: its first comment, or its first card.
 * @param {Work} work
 */
export function titleOf({deck}) {
  const lines = deck.split("\n").map((it) => it.trim()).filter((it) => it);
  const title = (lines.find((it) => it.startsWith("*")) ?? lines[0] ?? "an empty deck").replace(/^\*\s*/, "");
  return title.length > TITLE ? `${title.slice(0, TITLE - 2)}..` : title;
}
