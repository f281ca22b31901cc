// The tables beside the drawing: bugs, fields, and the words of a block or what a chain leads to.

import {make} from "./dom.js";
import {lanesOf, windowsOf} from "./shape.js";
import {characterOf, count, isLetter, likelyText, octal, seenThrough, widthOf, WORD_BITS} from "./word.js";

const MOST_BESIDE = 9_999_999; // the largest number with a text beside which octal digits have room
const MOST_OF_BLOCK = 256;     // of a block that are shown
const FULL_STOP = 14;          // the code with which most inputs end

/** @typedef {import("./view.js").View} View */
/** @typedef {import("./transcript.js").Field} Field */
/** @typedef {import("./chronicle.js").Window} Window */
/** @typedef {(watched: import("./values.js").Watched) => void} Watch */
/** @typedef {{name: string, value: number, was: number, hint: Element | null}} Row */
/** @typedef {{window: Window, text: string, isChanged: boolean, onclick: () => void}} Part of a word */
/** @typedef {{colourOf: (name: string) => string, watch: Watch, place: number}} Choose */

/**
 * The bugs that are not 0, or were not before. `choose` has what a click chooses: a `block`, or a bug or
 * field to `watch`.
 * @param {HTMLElement} table
 * @param {HTMLElement} amounts
 * @param {View} view
 * @param {View | null} before
 * @param {{block: (place: number) => void, watch: Watch}} choose
 */
export function showBugs(table, amounts, view, before, choose) {
  const names = [...new Set([...view.bugs.keys(), ...(before?.bugs.keys() ?? [])])].sort();
  const rows = names.map((name) => {
    const value = view.bugs.get(name) ?? 0;
    const was = before ? before.bugs.get(name) ?? 0 : value;
    return {name, value, was, hint: hintOf(value, view, choose.block)};
  });
  const hasOctal = !rows.some(({value, hint}) => value > MOST_BESIDE && hint);
  table.replaceChildren(...rows.map((row) => rowOfBug(row, hasOctal, choose.watch)));
  if (!rows.length) table.append(make("tr", {}, make("td", {class: "amounts"}, "All bugs are 0.")));
  amounts.textContent = amountsInWords(view.amounts);
}

/**
 * The bugs in a line.
 * @param {HTMLElement} frame
 * @param {View} view
 * @param {View | null} before
 * @param {Watch} watch
 */
export function showBugStrip(frame, view, before, watch) {
  const names = [...new Set([...view.bugs.keys(), ...(before?.bugs.keys() ?? [])])].sort();
  const partOf = (/** @type {string} */ name) => {
    const value = view.bugs.get(name) ?? 0;
    const isChanged = before !== null && (before.bugs.get(name) ?? 0) !== value;
    const title = `Bug ${name} is ${value}. A click follows its changes.`;
    return make(
      "button", {type: "button", class: isChanged ? "changed" : "", title, onclick: () => watch({chain: name})},
      make("b", {}, name), ` ${value}`
    );
  };
  frame.replaceChildren(...names.map(partOf));
}

/**
 * The bugs as large cards, where there is no block to draw.
 * @param {View} view
 * @param {View | null} before
 */
export function bugCards(view, before) {
  const names = [...new Set([...view.bugs.keys(), ...(before?.bugs.keys() ?? [])])].sort();
  if (!names.length) return make("p", {}, "No block is in use, and all bugs are 0.");
  const cardOf = (/** @type {string} */ name) => {
    const value = view.bugs.get(name) ?? 0;
    const isChanged = before !== null && (before.bugs.get(name) ?? 0) !== value;
    const text = isLetter(value) ? characterOf(value) : likelyText(value);
    return make(
      "div", {class: isChanged ? "changed" : ""}, make("b", {}, name), make("span", {}, String(value)),
      make("small", {}, text ? `“${text}”` : "\u00a0")
    );
  };
  return make("div", {class: "bug-cards", "aria-label": "Bugs"}, ...names.map(cardOf));
}

/**
 * @param {Row} row
 * @param {boolean} hasOctal
 * @param {Watch} watch
 */
function rowOfBug({name, value, was, hint}, hasOctal, watch) {
  const title = `${name} is ${octal(value)} in octal. A click chooses it: then ‹ Change and Change › ` +
    `go to the steps that changed it.`;
  const button =
    make("button", {type: "button", class: "name", title, onclick: () => watch({chain: name})}, name);
  return make(
    "tr", {class: was === value ? "" : "changed"}, make("th", {scope: "row"}, button),
    make("td", {class: "number"}, String(value)), make("td", {}, hint),
    hasOctal && make("td", {class: "octal"}, octal(value))
  );
}

// How much is saved, waits and was taken; what is 0 is left out.
/** @param {View["amounts"]} amounts */
function amountsInWords({contents, definitions, returns, input}) {
  const parts = [
    contents && `${count(contents, "content")} saved`,
    definitions && `${count(definitions, "definition")} saved`,
    returns && count(returns, "call waits", "calls wait"),
    input && `${count(input, "character")} taken`,
  ].filter((it) => it);
  return parts.length ? `${parts.join(", ")}.` : "";
}

/**
 * What a number may mean: the place of a block, which can be chosen, or a text.
 * @param {number} value
 * @param {View} view
 * @param {(place: number) => void} choose
 */
export function hintOf(value, view, choose) {
  if (view.store.block(value)) {
    return make(
      "button", {type: "button", onclick: () => choose(value), "aria-label": `Show block ${value}`}, "→"
    );
  }
  const isStop = value === FULL_STOP && view.amounts.input > 0;
  const text = isLetter(value) || isStop ? characterOf(value) : likelyText(value);
  return text ? make("span", {class: "text"}, `“${text}”`) : null;
}

/**
 * The fields, each as a window on the 36 bits of its word.
 * @param {HTMLElement} frame
 * @param {View} view
 * @param {View | null} before
 * @param {{colourOf: (name: string) => string, watch: Watch}} choose
 */
export function showFields(frame, view, before, {colourOf, watch}) {
  const windows = windowsOf(view.fields);
  const rows = [];
  for (const word of [...new Set(windows.map((it) => it.word))]) {
    const own = windows.filter((it) => it.word === word);
    rows.push(make(
      "div", {class: "wordline"}, make("span", {}, `word ${word}`),
      make("span", {}, apart(own.map((it) => `${it.name} ${it.first}–${it.last}`)))
    ));
    for (const lane of lanesOf(own)) {
      rows.push(bitsOf(
        lane.map((it) => ({
                   window: it,
                   text: it.name,
                   isChanged: before !== null && !it.names.every((name) => isSame(before.fields.get(name), it)),
                   onclick: () => watch({definition: it.names[0]})
                 })),
        colourOf
      ));
    }
  }
  if (!rows.length) rows.push(make("p", {class: "amounts"}, "No field is defined."));
  frame.replaceChildren(...rows);
}

/**
 * @param {Field | undefined} one
 * @param {Field} other
 */
function isSame(one, other) {
  return one !== undefined && one.word === other.word && one.first === other.first && one.last === other.last;
}

/**
 * A word as a bar of 36 bits with windows on it.
 * @param {Part[]} cells
 * @param {(name: string) => string} colourOf
 */
function bitsOf(cells, colourOf) {
  const bar = make("div", {class: "bits"});
  for (const {window, text, isChanged, onclick} of cells) {
    const part = make(
      "button", {
        type: "button",
        class: `${colourOf(window.name)} ${isChanged ? "changed" : ""}`,
        title:
          `${window.name}: word ${window.word}, bits ${window.first} to ${window.last}. A click follows it.`,
        onclick
      },
      text
    );
    part.style.left = `${(window.first / WORD_BITS) * 100}%`;
    part.style.width = `${(widthOf(window) / WORD_BITS) * 100}%`;
    bar.append(part);
  }
  return bar;
}

/**
 * The words of a block: each in octal, and below it what the fields show of it now.
 * @param {HTMLElement} frame
 * @param {number | null} place
 * @param {View} view
 * @param {View | null} before
 * @param {Omit<Choose, "place">} choose
 */
export function showWords(frame, place, view, before, choose) {
  const words = place === null ? null : view.wordsAt(place);
  if (!words || place === null) {
    const why = place === null ?
      "Choose a block in the drawing or in the store, or type a place or a chain." :
      `No block begins at ${place}.`;
    frame.replaceChildren(make("p", {class: "amounts"}, why));
    return;
  }
  const old = before?.words.get(place) ?? [];
  const windows = windowsOf(view.fields);
  const partsOf = (/** @type {number} */ word, /** @type {number} */ index) => {
    const own = windows.filter((it) => it.word === index);
    return partsOfWord(word, old[index], index, own, {...choose, place});
  };
  frame.replaceChildren(...words.slice(0, MOST_OF_BLOCK).flatMap(partsOf));
  const left = words.length - MOST_OF_BLOCK;
  if (left > 0) frame.append(make("p", {class: "amounts"}, `and ${count(left, "more word", "more words")}`));
}

/**
 * @param {number} word
 * @param {number | undefined} old
 * @param {number} index
 * @param {Window[]} windows
 * @param {Choose} choose
 * @returns {Element[]}
 */
function partsOfWord(word, old, index, windows, {colourOf, watch, place}) {
  const shown = apart(windows.map((it) => tellOf(it, word)));
  const line = make(
    "div", {class: "wordline"}, make("span", {}, `${index}`), make("b", {}, octal(word)),
    make("span", {}, shown)
  );
  const cellOfWord = (/** @type {Window} */ window) => {
    const value = seenThrough(word, window);
    const isChanged = old !== undefined && seenThrough(old, window) !== value;
    const onclick = () => watch({place, field: window.names[0]});
    return {window, text: `${window.name} ${value}`, isChanged, onclick};
  };
  return [line, ...lanesOf(windows).map((lane) => bitsOf(lane.map(cellOfWord), colourOf))];
}

// Texts one after another; a line may end between them, but not within one.
/** @param {string[]} texts */
function apart(texts) {
  return texts.map((it) => it.replaceAll(" ", "\u00a0")).join("  ");
}

/**
 * @param {Window} window
 * @param {number} word
 */
function tellOf(window, word) {
  const value = seenThrough(word, window);
  const text = widthOf(window) === 6 && value > 0 ? characterOf(value) : likelyText(value);
  return `${window.name} ${value}${text ? ` “${text}”` : ""}`;
}

/**
 * What a chain leads to: the answer, and the steps on the way.
 * @param {HTMLElement} frame
 * @param {HTMLElement} answer
 * @param {import("./chain.js").Followed} followed
 * @param {View} view
 * @param {(place: number) => void} choose
 */
export function showChain(frame, answer, {steps = [], trap, wrong}, view, choose) {
  const last = steps.at(-1);
  answer.replaceChildren();
  if (wrong)
    answer.append(wrong);
  else if (trap)
    answer.append(`trap ${trap.number}`);
  else if (last)
    answer.append(`= ${last.value} `, hintOf(last.value, view, choose) ?? "");
  answer.classList.toggle("wrong", Boolean(trap || wrong));
  if (steps.length < 2 && !trap) return frame.replaceChildren();
  const list = make(
    "ol", {class: "way"},
    ...steps.map((it) => make("li", {}, `${it.text} = ${it.value} `, hintOf(it.value, view, choose)))
  );
  if (trap) list.append(make("li", {class: "wrong"}, `trap ${trap.number}: ${trap.text}`));
  return frame.replaceChildren(list);
}
