// What the steps of a run do, by the deck alone: which show nothing, which call and return, which save and
// restore; and with the trail of a run, where a statement, a call or a subroutine ends.

/** @typedef {import("./deck.js").Reading} Reading */
/** @typedef {import("./deck.js").Group} Group */
/** @typedef {{statement?: number, action?: number}} Place where a run is, or neither where it has ended */
/**
 * What a step does to calls and pushdowns, and by which operation; a return has none.
 * @typedef {{name: "returns" | "contents" | "definitions", change: 1 | -1, operation?: Group}} Stacking
 */

/**
 * The operation that is done next at a spot, or null.
 * @param {Reading} deck
 * @param {Place} at
 */
export function operationAt(deck, {statement = -1, action = -1}) {
  return deck.statements[statement]?.operations[action - 1] ?? null;
}

/**
 * Whether the step from a spot on shows nothing: it begins a statement that has no condition, or ends one
 * that has no exit.
 * @param {Reading} deck
 * @param {Place} spot
 */
export function isSilent(deck, {statement = -1, action = -1}) {
  const at = deck.statements[statement];
  if (!at) return action === 0; // (the DONE that every deck gets)
  if (action === 0) return !at.condition;
  return action > at.operations.length && !at.exit;
}

/**
 * The first spot, from one on, from which a step shows something, and how many silent steps lead there.
 * @param {Reading} deck
 * @param {Place} spot
 */
export function nextShown(deck, spot) {
  let {statement = -1, action = -1} = spot;
  let silent = 0;
  while (isSilent(deck, {statement, action})) {
    if (action === 0)
      action = 1;
    else
      [statement, action] = [statement + 1, 0];
    silent++;
  }
  return {statement, action, silent};
}

/**
 * What a step from a spot on does to the stacks: {name, change}, or null. A step that ends the run or traps
 * does nothing.
 * @param {Reading} deck
 * @param {Place} spot
 * @returns {Stacking | null}
 */
export function stackingAt(deck, spot) {
  const {statement = -1} = spot;
  const at = deck.statements[statement];
  const operation = operationAt(deck, spot);
  if (operation) {
    const [first, verb] = operation.elements;
    const {length} = operation.elements;
    if (verb === "DO" && length <= 3) return {name: "returns", change: 1, operation};
    if ((verb === "FC" || verb === "FD") && length === 3)
      return {name: verb === "FC" ? "contents" : "definitions", change: first === "S" ? 1 : -1, operation};
    return null;
  }
  if (spot.action === 0 || (at && !at.exit)) return null;
  return !at || at.exit?.text === "DONE" || at.exit?.text === "FAIL" ? {name: "returns", change: -1} : null;
}

// Whether a deck calls, or saves anything.
/** @param {Reading} deck */
export function hasStacks(deck) {
  deck.hasStacks ??=
    deck.statements.some(({operations}) => operations.some(({elements: [, verb, ...rest]}) => {
      return (verb === "DO" && rest.length < 2) || (verb === "FC" || verb === "FD");
    }));
  return deck.hasStacks;
}

export class Steps {
  /**
   * @param {Reading} deck
   * @param {import("./trail.js").Trail} trail
   */
  constructor(deck, trail) {
    this.deck = deck;
    this.trail = trail;
  }

  // The state after the next step that shows something.
  /** @param {number} number */
  async on(number) {
    const spot = await this.trail.at(number);
    return spot ? number + nextShown(this.deck, spot).silent + 1 : number;
  }

  // The latest state before one that a step led to which shows something, or the first state.
  /** @param {number} number */
  async back(number) {
    for (let at = number - 1; at > 0; at--) {
      const before = await this.trail.near(at - 1, -1);
      if (!before || !isSilent(this.deck, before)) return at;
    }
    return 0;
  }

  // The next state in which a statement begins.
  /** @param {number} number */
  statement(number) {
    return this.trail.find(number, ({action}) => action === 0);
  }

  // The state after the next step that shows something; a call is gone through up to its return.
  /** @param {number} number */
  async over(number) {
    const spot = await this.trail.at(number);
    if (!spot) return number;
    const shown = nextShown(this.deck, spot);
    const from = number + shown.silent;
    const isCall = stackingAt(this.deck, shown)?.name === "returns" && operationAt(this.deck, shown);
    return isCall ? this.returned(from, 0) : from + 1;
  }

  // The state after the return of the latest call that waits.
  /** @param {number} number */
  out(number) {
    return this.returned(number, -1);
  }

  /**
   * The first state after one in which so many calls wait more than there.
   * @param {number} number
   * @param {number} wanted
   */
  async returned(number, wanted) {
    let depth = 0;
    let spot = await this.trail.at(number);
    return this.trail.find(number, (next) => {
      const stacking = spot && stackingAt(this.deck, spot);
      if (stacking?.name === "returns") depth += stacking.change;
      spot = next;
      return depth === wanted;
    });
  }
}
