// What happened to the blocks of a run: when each was got and freed, what bugs and fields held and when, and
// for which block a pointer was made. The worker reads it (survey.js); here is what is asked of it.

/**
 * A block from its birth to its death: it was made by the get with the number `id`, and `words` is what it
 * held last. `dead` is the first state in which it is freed, or Infinity.
 * @typedef {{id: number, place: number, size: number, born: number, dead: number, words: number[]}} Life
 *
 * What a bug or a field held from a state on: the value, which is null where it is no pointer and not known,
 * and the life for which the pointer was made, or null.
 * @typedef {{number: number, value: number | null, life: Life | null}} Held
 *
 * A window is the bits of a word that a field shows, with the names of the fields that show them.
 * @typedef {{key: string, word: number, first: number, last: number, names: string[], name: string,
 *   isText?: boolean}} Window
 *
 * A link while it is there: its window, the places from and to which it leads, its first state, and the first
 * one in which it is gone.
 * @typedef {{key: string, from: number, to: number, since: number, until: number}} Link
 *
 * A call: the state before it, the first one after its return, its statement, and how many calls wait then.
 * @typedef {{number: number, until: number, statement: number, label: string, depth: number}} Call
 *
 * `last` is the last state that was read, and `isWhole` says whether the run has no more.
 * @typedef {{last: number, isWhole: boolean, calls: Call[], lives: Map<number, Life[]>, held: Map<string, Held[]>,
 *   links: Link[], windows: Map<string, Window>,
 *   evidence: Map<string, {number: number, isPointer: boolean}[]>}} Told
 */

export const MOST_CALLS = 5000; // that are noted

export class Chronicle {
  /** @param {Told} told */
  constructor({last, isWhole, calls = [], lives, held, links, windows, evidence}) {
    this.last = last;
    this.isWhole = isWhole;
    this.calls = calls;
    this.lives = lives;
    this.held = held;
    this.links = links;
    this.windows = windows;
    this.evidence = evidence;
  }

  // The state up to which calls are known, or null where all are.
  get callsUntil() {
    if (this.calls.length >= MOST_CALLS) return this.calls[this.calls.length - 1].number;
    return this.isWhole ? null : this.last;
  }

  // Whether a state was read.
  /** @param {number} number */
  knows(number) {
    return number <= this.last;
  }

  /**
   * The life of the block at a place in a state, or null.
   * @param {number} place
   * @param {number} number
   */
  lifeAt(place, number) {
    return this.lives.get(place)?.find((it) => it.born <= number && number < it.dead) ?? null;
  }

  /**
   * What a bug, or a field of a life, held in a state; undefined where nothing was stored there yet.
   * @param {string} key
   * @param {number} number
   * @returns {Held | undefined}
   */
  heldAt(key, number) {
    const all = this.held.get(key) ?? [];
    return all[countUpTo(all, number) - 1];
  }

  /**
   * What the run has stored in a window up to a state: "link" where it was pointers alone, and 0; "number"
   * where another number was among them; null where it was nothing but 0.
   * @param {string} key
   * @param {number} number
   */
  kindOf(key, number) {
    const all = this.evidence.get(key) ?? [];
    const count = countUpTo(all, number);
    if (count === 0) return null;
    return all.slice(0, count).every((it) => it.isPointer) ? "link" : "number";
  }

  // For how many states the bug that held it longest held the block at each place.
  get heldFor() {
    const found = new Map();
    for (const [place, times] of this.times()) {
      const own = new Map();
      for (const {bug, from, to} of times) own.set(bug, (own.get(bug) ?? 0) + to - from);
      found.set(place, Math.max(...own.values()));
    }
    return found;
  }

  // How many bugs lead to each place at the same time, at most.
  get mostBugs() {
    const found = new Map();
    for (const [place, times] of this.times()) {
      const changes = times.flatMap(({from, to}) => [[from, 1], [to, -1]]);
      changes.sort((a, b) => a[0] - b[0] || a[1] - b[1]);
      let [count, most] = [0, 0];
      for (const [, change] of changes) most = Math.max(most, (count += change));
      found.set(place, most);
    }
    return found;
  }

  // From which state to which each bug led to the block at a place.
  times() {
    /** @type {Map<number, {bug: string, from: number, to: number}[]>} */
    const found = new Map();
    for (const [bug, all] of this.held) {
      if (bug.length > 1) continue;
      all.forEach(({number, life}, index) => {
        if (!life) return;
        const to = Math.min(all[index + 1]?.number ?? this.last + 1, life.dead);
        if (to <= number) return;
        if (!found.has(life.place)) found.set(life.place, []);
        found.get(life.place)?.push({bug, from: number, to});
      });
    }
    return found;
  }
}

/**
 * How many of a list, which is in the order of its states, are of a state up to one.
 * @param {{number: number}[]} all
 * @param {number} number
 */
function countUpTo(all, number) {
  let [low, high] = [0, all.length];
  while (low < high) {
    const middle = (low + high) >> 1;
    if (all[middle].number <= number)
      low = middle + 1;
    else
      high = middle;
  }
  return low;
}
