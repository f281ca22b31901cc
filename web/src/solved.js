// The exercises that the reader has solved, and how: kept in the browser's store, or, where that is refused,
// until the page is closed.

const KEY = "l6.solved";

export class Solved {
  constructor() {
    this.decks = this.read();
    this.isKept = true; // whether the browser kept what was written last
  }

  read() {
    try {
      const decks = JSON.parse(window.localStorage.getItem(KEY) ?? "{}");
      return new Map(Object.entries(decks).filter(([, deck]) => typeof deck === "string"));
    } catch {
      return new Map();
    }
  }

  /** @param {string} key */
  has(key) {
    return this.decks.has(key);
  }

  // The deck that solved an exercise.
  /**
   * @param {string} key
   * @returns {string | undefined}
   */
  deckOf(key) {
    return this.decks.get(key);
  }

  /**
   * @param {string} key
   * @param {string} deck
   */
  add(key, deck) {
    this.decks.set(key, deck);
    try {
      window.localStorage.setItem(KEY, JSON.stringify(Object.fromEntries(this.decks)));
      this.isKept = true;
    } catch {
      this.isKept = false;
    }
  }
}
