// What comes next in a run, or is at a column of a card: where it is, and what it does in a few words.

import {COLUMNS} from "./deck.js";
import {isSuffix} from "./group.js";

/** @typedef {import("./deck.js").Reading} Reading */
/** @typedef {import("./deck.js").Group} Group */
/** @typedef {Reading["statements"][number]} Statement */
/**
 * What comes next: the kind of action, its text, where it is, and what it does.
 * @typedef {{kind: "condition" | "operation" | "exit", text: string, card: number, from: number, to: number,
 *   says: string}} Action
 */

/**
 * The action that comes next in a state: its card and columns, and what it is.
 * @param {Reading} deck
 * @param {number} statement
 * @param {number} action
 * @returns {Action}
 */
export function actionAt(deck, statement, action) {
  const at = deck.statements[statement];
  if (!at)
    return {kind: "exit", text: "DONE", card: -1, from: 0, to: 0, says: "the DONE that every deck gets"};
  if (action === 0) return conditionOf(at, statement);
  const operation = at.operations[action - 1];
  if (operation)
    return {
      ...operation,
      kind: "operation",
      text: `(${operation.text})`,
      says: meaningOf(operation.elements, operation.text)
    };
  if (at.exit) return {...at.exit, kind: "exit", says: exitMeaning(at.exit.text)};
  const {card, to} =
    at.operations.at(-1) ?? at.tests.at(-1) ?? at.first ?? {card: at.card, to: at.label.length};
  const says = "ends without an exit: on to the next one";
  return {kind: "exit", text: `statement ${statement}`, card, from: to, to: to + 1, says};
}

/**
 * @param {Statement} at
 * @param {number} statement
 * @returns {Action}
 */
function conditionOf(at, statement) {
  if (!at.condition) {
    const first = at.operations[0] ?? at.exit ?? {card: at.card, from: Math.max(1, at.label.length)};
    const begin = {card: first.card, from: first.from, to: first.from};
    const place = at.label ? {card: at.card, from: 0, to: at.label.length} : begin;
    return {kind: "condition", text: `statement ${statement}`, ...place, says: "begins; it has no condition"};
  }
  const {card, from, text} = at.condition;
  const last = at.tests[at.tests.length - 1];
  return {
    kind: "condition",
    text: `${text} ${at.tests.map((it) => `(${it.text})`).join("")}`,
    card,
    from,
    to: last.card === card ? last.to : COLUMNS,
    says: `asks ${conditionMeaning(text, at.tests)}`
  };
}

/** @type {Record<string, string>} */
const RELATIONS = {
  E: "is",
  N: "is not",
  G: "is greater than",
  L: "is less than",
  O: "has all bits of",
  Z: "has no bit of",
};

/**
 * What a test says, in a few words.
 * @param {string[]} elements
 * @param {string} text
 */
export function testMeaning(elements, text) {
  const [first, verb, third] = elements;
  return `${first} ${RELATIONS[verb[0]]} ${lastElement(verb, third, text)}`;
}

/**
 * @param {string} word
 * @param {Group[]} tests
 */
function conditionMeaning(word, tests) {
  const all = tests.map((it) => testMeaning(it.elements, it.text)).join("; ");
  switch (word) {
    case "IF": return `whether ${all}`;
    case "NOT": return `whether it is false that ${all}`;
    case "IFANY": return `whether one of these is true: ${all}`;
    case "IFNONE": return `whether none of these is true: ${all}`;
    case "IFNALL": return `whether one of these is false: ${all}`;
    default: return `whether all of these are true: ${all}`;
  }
}

/**
 * The last part of a group with a suffix: a text, an octal number, or a number or chain.
 * @param {string} verb
 * @param {string} third
 * @param {string} text
 */
function lastElement(verb, third, text) {
  if (verb[1] === "H") return `the text “${text.split(",")[2]}”`;
  return verb[1] === "O" ? `octal ${third}` : third;
}

/** @param {string} exit */
function exitMeaning(exit) {
  if (exit === "DONE") return "returns from the latest call, or ends the run";
  if (exit === "FAIL") return "returns to the fail label of the latest call, or ends the run";
  return `goes to ${exit}`;
}

/**
 * The operation at a column of a card, or null.
 * @param {Reading} deck
 * @param {number} card
 * @param {number} column
 */
export function groupAt(deck, card, column) {
  const statement = deck.statements[deck.cards[card]];
  return statement?.operations.find((it) => it.card === card && it.from < column && column <= it.to) ?? null;
}

/** @type {Record<string, (chain: string, value: string) => string>} */
const RESULTS = {
  E: (c, x) => `${c} becomes ${x}`,
  A: (c, x) => `adds ${x} to ${c}`,
  S: (c, x) => `takes ${x} from ${c}`,
  M: (c, x) => `multiplies ${c} by ${x}`,
  V: (c, x) => `${c} becomes the quotient of ${c} by ${x}`,
  Y: (c, x) => `${c} becomes the remainder of ${c} by ${x}`,
  N: (c, x) => `${c} keeps the bits that are one in ${x}, too`,
  O: (c, x) => `${c} gets the bits of ${x} beside its own`,
  X: (c, x) => `turns the bits of ${c} that are one in ${x}`,
  C: (c, x) => `${c} becomes ${x} with each bit turned`,
  L: (c, x) => `shifts ${c} left by ${x}`,
  R: (c, x) => `shifts ${c} right by ${x}`,
};

/**
 * What an operation does, in a few words.
 * @param {string[]} elements
 * @param {string} text
 */
export function meaningOf(elements, text) {
  const [first, verb, third, fourth, fifth] = elements;
  if (first === "PL" && elements.length === 1) return "ends the line";
  if (elements.length === 4 && /^D.$/.test(verb))
    return `defines field ${verb[1]}: word ${first}, bits ${third} to ${fourth}`;
  if (verb.length <= 2 && verb[0] in RESULTS && elements.length === 3 && isSuffix(verb) && verb !== "DO")
    return RESULTS[verb[0]](first, lastElement(verb, third, text));
  const orElse = (/** @type {string | undefined} */ label, /** @type {string} */ why) =>
    (label ? `; goes to ${label} if ${why}` : "");
  switch (verb) {
    case "I": return `exchanges ${first} and ${third}`;
    case "FC":
      return first === "S" ? `saves the content of ${third}` : `${third} becomes the content saved last`;
    case "FD":
      if (first === "S") return `saves the definition of field ${third}`;
      return `field ${third} gets the definition saved last`;
    case "GT":
      return `gets a block for ${third} ${third === "1" ? "word" : "words"}; ${first} becomes its place${
        fourth ? `, then ${fourth} what ${first} was` : ""}${orElse(fifth, "there is none")}`;
    case "DP":
      return `copies the block at ${third}; ${first} becomes the copy's place${
        orElse(fifth, "there is no room")}`;
    case "FR": return `frees the block at ${first}; ${first} becomes ${third ? `what ${third} was` : "0"}`;
    case "DO": return `calls ${first}${third ? `; if that fails, goes to ${third}` : ""}`;
    case "IN": return `takes ${third} of the input into ${first}${orElse(fourth, "it has ended")}`;
    case "PR": return `prints the last ${third === "1" ? "character" : `${third} characters`} of ${first}`;
    case "PD": return `prints ${first} in decimal`;
    case "PO": return `prints ${first} in octal`;
    case "PH": return `prints “${text.slice(0, text.lastIndexOf(","))}”`;
  }
  return "";
}
