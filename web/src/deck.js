// Reads a deck as the manual says (docs/language.md): which card is of which statement, and where each test,
// operation and exit is.
//
// What is wrong with a deck is said by the program (checker.js). Here what has no reading is left out, so
// that the other cards of a deck that is being typed are read.

import {groupOf} from "./group.js";

export const COLUMNS = 72; // of a card that count

/**
 * A part of a statement: its card, its columns, and its text; of a group without the parentheses.
 * Of a word with more than four letters `fifth` is the column of the fifth: that of the exit behind THEN.
 * @typedef {{isGroup: boolean, card: number, from: number, to: number, text: string, fifth?: number}} Item
 * @typedef {Item & {elements: string[]}} Group
 *
 * What is read in a deck: of each card the number of its statement or -1, the statements, and whether each card
 * that says something is of a statement. Other scripts keep here what they found in it.
 * @typedef {{cards: number[], statements: Statement[], isWhole: boolean, hasStacks?: boolean,
 *   texts?: Set<string>}} Reading
 */

const CONDITIONS = ["IF", "NOT", "IFALL", "IFANY", "IFNONE", "IFNALL"];

// The lines of a text: a last one without a line feed counts if it has a character.
/** @param {string} text */
export function linesOf(text) {
  const lines = text.split("\n");
  if (lines[lines.length - 1] === "") lines.pop();
  return lines;
}

// The columns of a card that count.
/** @param {string} line */
export function columnsOf(line) {
  return (line.endsWith("\r") ? line.slice(0, -1) : line).slice(0, COLUMNS);
}

/**
 * What a deck says.
 * @param {string} text
 * @returns {Reading}
 */
export function readDeck(text) {
  const reader = new DeckReader(linesOf(text));
  reader.read();
  const {cards, statements, isWhole} = reader;
  return {cards, statements, isWhole};
}

class DeckReader {
  /** @param {string[]} lines */
  constructor(lines) {
    this.lines = lines;
    this.cards = lines.map(() => -1);
    /** @type {Statement[]} */
    this.statements = [];
    this.isWhole = true;
  }

  read() {
    this.lines.forEach((line, card) => this.card(columnsOf(line), card));
    this.statements.at(-1)?.end();
  }

  /**
   * @param {string} columns
   * @param {number} card
   */
  card(columns, card) {
    const first = columns[0];
    if (/^[ \t]*$/.test(columns) || first === "*") return;
    if (first === "+")
      this.body(columns, 1, card);
    else if (/[A-Za-z \t]/.test(first))
      this.begin(columns, card);
    else
      this.isWhole = false;
  }

  /**
   * @param {string} columns
   * @param {number} card
   */
  begin(columns, card) {
    this.statements.at(-1)?.end();
    const label = (/^[A-Za-z0-9]*/.exec(columns)?.[0] ?? "").toUpperCase();
    this.statements.push(new Statement(label, card));
    this.body(columns, Math.max(1, label.length), card);
  }

  /**
   * @param {string} columns
   * @param {number} from
   * @param {number} card
   */
  body(columns, from, card) {
    const statement = this.statements.at(-1);
    if (!statement) {
      this.isWhole = false;
      return;
    }
    this.cards[card] = this.statements.length - 1;
    for (const item of itemsOf(columns, from, card)) {
      if (item.isGroup)
        statement.group(item);
      else
        statement.word(item);
    }
  }
}

// A statement: its condition word, tests, operations and exit, each with its card and columns.
class Statement {
  /**
   * @param {string} label
   * @param {number} card
   */
  constructor(label, card) {
    this.label = label;
    this.card = card;
    this.phase = "begin";
    /** @type {Item | null} */
    this.first = null; // the word before all groups
    /** @type {Item | null} */
    this.condition = null;
    /** @type {Group[]} */
    this.tests = [];
    /** @type {Group[]} */
    this.operations = [];
    /** @type {Item | null} */
    this.exit = null;
  }

  /** @param {Item} item */
  group(item) {
    if (this.phase === "word" && this.first && CONDITIONS.includes(this.first.text)) {
      this.condition = this.first;
      this.phase = "tests";
    }
    const group = groupOf(item);
    if (this.phase === "tests")
      this.tests.push(group);
    else if (this.phase === "begin" || this.phase === "operations") {
      this.operations.push(group);
      this.phase = "operations";
    }
  }

  /** @param {Item} item */
  word(item) {
    if (this.phase === "begin") {
      this.first = item;
      this.phase = "word";
    } else if (this.phase === "tests" && item.text.startsWith("THEN")) {
      this.phase = "operations";
      if (item.text.length > 4) this.leaveBy({...item, from: item.fifth ?? item.from, text: item.text.slice(4)});
    } else if (this.phase === "operations")
      this.leaveBy(item);
  }

  // The statement has no further card: a word alone is its exit.
  end() {
    if (this.phase === "word" && this.first) this.leaveBy(this.first);
  }

  /** @param {Item} item */
  leaveBy(item) {
    this.exit = item;
    this.phase = "done";
  }
}

/**
 * The items of a body: groups, and the words between them with their blanks taken out. What follows a parenthesis
 * that is not closed, or not opened, is none.
 * @param {string} columns
 * @param {number} from
 * @param {number} card
 * @returns {Generator<Item>}
 */
function* itemsOf(columns, from, card) {
  let place = from;
  while (place < columns.length) {
    const open = columns.indexOf("(", place);
    const end = open < 0 ? columns.length : open;
    yield* wordOf(columns, place, end, card);
    const close = columns.indexOf(")", place);
    if (open < 0 || close < open || columns.slice(open + 1, close).includes("(")) return;
    yield {isGroup: true, card, from: open, to: close + 1, text: columns.slice(open + 1, close)};
    place = close + 1;
  }
}

/**
 * @param {string} columns
 * @param {number} from
 * @param {number} to
 * @param {number} card
 * @returns {Generator<Item>}
 */
function* wordOf(columns, from, to, card) {
  const raw = columns.slice(from, to);
  const text = raw.replace(/[ \t]/g, "").toUpperCase();
  if (!text || text.includes(")")) return;
  const start = from + raw.search(/[^ \t]/);
  const four = /^(?:[^ \t][ \t]*){4}/.exec(raw.trim())?.[0].length ?? 0;
  yield {isGroup: false, card, from: start, to: start + raw.trim().length, text, fifth: start + four};
}
