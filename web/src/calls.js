// The calls that wait, each with what it has saved, in a line above the drawing; and all calls of the run as a
// tree, which is folded but for those that wait.

import {byId, make} from "./dom.js";
import {byCalls} from "./frames.js";
import {hintOf} from "./panels.js";
import {count, withCommas} from "./word.js";

const MOST_SHOWN = 500; // calls of one branch of the tree

/** @typedef {import("./chronicle.js").Call} Call */
/** @typedef {import("./frames.js").Entry} Entry */
/** @typedef {import("./view.js").View} View */
/** @typedef {import("./deck.js").Reading} Reading */
/** @typedef {{goTo: (number: number) => void, block: (place: number) => void}} Ask */

// ---- The calls that wait

/**
 * The calls that wait and what is saved, newest first.
 * @param {HTMLElement} frame
 * @param {import("./frames.js").Found} found
 * @param {View} view
 * @param {Reading} deck
 * @param {Ask} ask
 */
export function showFrames(frame, found, view, deck, ask) {
  const {returns, contents, definitions} = view.amounts;
  const older = returns - found.returns.length;
  const none = "No call waits, and nothing is saved.";
  const heading = make("h3", {}, "Calls ", make("small", {}, String(returns)));
  const cards = byCalls(found).map((it) => make("li", {}, ...frameInWords(it, view, deck, ask)));
  const more = older > 0 ? [make("li", {class: "amounts"}, `and ${count(older, "older one", "older ones")}`)] : [];
  frame.replaceChildren(
    ...(returns + contents + definitions > 0 ?
          [heading, make("ol", {class: "stack"}, ...cards, ...more)] :
          [make("p", {class: "amounts"}, none)])
  );
}

/**
 * A call with what it saved, or, where there is none, what was saved outside of calls.
 * @param {import("./frames.js").Frame} frame
 * @param {View} view
 * @param {Reading} deck
 * @param {Ask} ask
 */
function frameInWords({call, contents, definitions}, view, deck, ask) {
  const saved = [
    ...contents.map((it) => contentInWords(it, view, ask)),
    ...definitions.map(definitionInWords)
  ];
  return [...(call ? callInWords(call, deck, ask) : [make("b", {}, "outside of calls")]), ...saved];
}

/**
 * Which call waits: what it called, from which statement, and where its return leads.
 * @param {Entry} call
 * @param {Reading} deck
 * @param {Ask} ask
 */
function callInWords({number, spot, operation}, deck, ask) {
  const [label, , fail] = operation.elements;
  const from = deck.statements[spot.statement].label;
  const where = ` from statement ${spot.statement}${from ? ` ${from}` : ""}`;
  const title = `(${operation.text})${where}; to state ${number}, before this call`;
  return [
    make("b", {}, label), make("span", {class: "from"}, where), `${fail ? `, FAIL: ${fail}` : ""} `,
    make("button", {type: "button", class: "to", title, onclick: () => ask.goTo(number)}, make("span", {class: "from"}, "at "), String(number))
  ];
}

/**
 * @param {Entry} entry
 * @param {View} view
 * @param {Ask} ask
 */
function contentInWords({number, operation, content}, view, ask) {
  const chain = operation.elements[2];
  const title = `Saved in state ${number}`;
  return make(
    "span", {class: "saved", title}, make("b", {}, chain), ` = ${content ?? "?"} `,
    hintOf(content ?? 0, view, ask.block)
  );
}

/** @param {Entry} entry */
function definitionInWords({number, operation, definition}) {
  const says = definition ? `word ${definition.word}, bits ${definition.first}–${definition.last}` : "no definition";
  const title = `Saved in state ${number}`;
  return make("span", {class: "saved", title}, "field ", make("b", {}, operation.elements[2]), ` = ${says}`);
}

// ---- The tree

/**
 * All calls of a run as a tree. Those that wait in a state are open.
 * @param {HTMLElement} frame
 * @param {Call[]} calls
 * @param {number | null} last the state up to which they are known, or null where these are all
 * @param {number} number of the state
 * @param {(number: number) => void} goTo
 */
export function showCallTree(frame, calls, last, number, goTo) {
  const branches = branchesOf(calls);
  const partsOf = (/** @type {Branch[]} */ all) => {
    const more = all.length - MOST_SHOWN;
    return [
      ...all.slice(0, MOST_SHOWN).map(partOf),
      ...(more > 0 ? [make("li", {class: "amounts"}, `and ${count(more, "more call", "more calls")}`)] : [])
    ];
  };
  const partOf = (/** @type {Branch} */ {call, inner, size}) => {
    const waits = call.number < number && number < call.until;
    const end = call.until === Infinity ? "" : `–${call.until}`;
    const button = make(
      "button",
      {type: "button", class: "to", title: "To the state before this call", onclick: () => goTo(call.number)},
      `${call.number}${end}`
    );
    const says = [make("b", {}, call.label), " ", button];
    if (!inner.length) return make("li", {class: waits ? "waits" : ""}, ...says);
    const list = make("ul", {}, ...(waits ? partsOf(inner) : []));
    const fold = make(
      "details", {open: waits}, make("summary", {}, ...says, make("small", {}, ` ▲ ${count(size, "call")}`)), list
    );
    // (what is folded is made when it is opened)
    fold.addEventListener("toggle", () => list.children.length || list.append(...partsOf(inner)));
    return make("li", {class: waits ? "waits" : ""}, fold);
  };
  frame.replaceChildren(
    make("h3", {}, last === null ? "All calls of the run " : `Calls up to state ${withCommas(last)} `, make("small", {}, String(calls.length))),
    make("ul", {}, ...partsOf(branches))
  );
}

/**
 * A call with those that it makes; `size` is how many these are in all.
 * @typedef {{call: Call, inner: Branch[], size: number}} Branch
 */

/**
 * Calls, which are in order, as branches.
 * @param {Call[]} calls
 * @returns {Branch[]}
 */
export function branchesOf(calls) {
  /** @type {Branch[]} */
  const roots = [];
  /** @type {Branch[]} */
  const open = [];
  for (const call of calls) {
    open.length = Math.min(open.length, call.depth);
    const branch = {call, inner: [], size: 0};
    const above = open[open.length - 1];
    (above ? above.inner : roots).push(branch);
    for (const it of open) it.size++;
    open.push(branch);
  }
  return roots;
}

// Shows the tree, or hides it.
/** @param {boolean} isOpen */
export function openTree(isOpen) {
  byId("call-tree").hidden = !isOpen;
  byId("show-calls").setAttribute("aria-expanded", String(isOpen));
}
