// The shape of a block in the drawing: rows of cells, one for each window that shows some of its bits.

import {characterOf, isLetter, likelyText, octal, seenThrough, widthOf, WORD_BITS} from "./word.js";

export const GRID = 12; // all sizes and places are multiples of it
export const BIT = 4;   // so 36 bits are 144 wide
export const ROW = 24;
const CLOSE = 18;    // the height of a row of a card that has many: then eight words have room where letters are large
const FEW = 6;       // rows that are not close
export const HEAD = 24;
const MOST_ROWS = 8;
const SHOWN_WORDS = 8; // of a block without fields
const LEGIBLE = 3;     // bits of a field whose value has room; of a word with narrower ones all is shown, too
const LETTER = 7.3;    // the width of a letter
const MOST_ON_CHIP = 6;        // letters
const CHIP_LETTER = 7.9;       // the width of a letter there
const CHIP = {least: 20, height: 20, around: 6, unit: 4};
export const NARROW = 40; // a cell that has room for a value or a name, but hardly for both

/** @typedef {import("./chronicle.js").Window} Window */
/** @typedef {import("./transcript.js").Field} Field */
/** @typedef {{place: number, size: number}} Sized */
/** @typedef {{key: string, name: string, target: number}} Linked */
/**
 * A cell of a row: what it shows of which window, and where in the row.
 * @typedef {{key: string, name: string, window: Window | null, x: number, width: number, text: string,
 *   value: number | null, link?: Linked, isChanged?: boolean}} Cell
 * @typedef {{word: number, cells: Cell[], note?: string, y: number, height: number}} Row
 *
 * The size of chips, and the windows with links, which they do not show.
 * @typedef {{width: number, height: number, keys: Set<string>}} Chip
 * @typedef {{width: number, height: number, rows: Row[], isBox: boolean, isChip?: boolean, text?: string}} Shape
 */

/**
 * The windows of the fields, each once: names that are defined alike share one.
 * @param {Map<string, Field>} fields
 * @returns {Window[]}
 */
export function windowsOf(fields) {
  /** @type {Map<string, Window>} */
  const windows = new Map();
  for (const [name, {word, first, last}] of fields) {
    const key = `${word}.${first}.${last}`;
    if (!windows.has(key)) windows.set(key, {key, word, first, last, names: [], name: ""});
    windows.get(key)?.names.push(name);
  }
  const all = sortedWindows([...windows.values()]);
  all.forEach((it) => (it.name = it.names.join(" ")));
  return all;
}

// Windows from the first word on, and in each from the left.
/** @param {Window[]} windows */
export function sortedWindows(windows) {
  return windows.sort((a, b) => a.word - b.word || a.first - b.first || b.last - a.last);
}

/**
 * Windows in as few lanes as they need so that none covers another.
 * @param {Window[]} windows
 * @returns {Window[][]}
 */
export function lanesOf(windows) {
  /** @type {Window[][]} */
  const lanes = [];
  for (const window of [...windows].sort((a, b) => a.first - b.first || b.last - a.last)) {
    const lane = lanes.find((it) => it[it.length - 1].last < window.first);
    if (lane)
      lane.push(window);
    else
      lanes.push([window]);
  }
  return lanes;
}

/**
 * The shape of a block: `rows` of cells with their place and size in it, and how large it is. In a box there
 * is one row for all, and a chip has one value alone; `chip` says how wide it is.
 * @param {Sized} block
 * @param {number[] | null | undefined} words
 * @param {Window[]} windows
 * @param {Linked[]} links
 * @param {"cards" | "boxes" | "chips"} kind
 * @param {Chip | null} chip
 * @returns {Shape}
 */
export function shapeOf(block, words, windows, links, kind, chip = null) {
  if (kind === "chips" && chip) return chipShape(block, words, windows, chip);
  return kind === "boxes" ? boxOf(block, words, windows, links) : cardOf(block, words, windows, links);
}

// ---- Chips

/**
 * @param {Sized} block
 * @param {number[] | null | undefined} words
 * @param {Window[]} windows
 * @param {Chip} chip
 * @returns {Shape}
 */
function chipShape(block, words, windows, {width, height, keys}) {
  return {width, height, rows: [], isBox: true, isChip: true, text: chipText(block, words, windows, keys)};
}

/**
 * The size of chips on which the longest of some texts has room. `keys` are the windows with links.
 * @param {string[]} texts
 * @param {Set<string>} keys
 * @returns {Chip}
 */
export function chipFor(texts, keys) {
  const longest = Math.max(1, ...texts.map((it) => it.length));
  const width = Math.ceil((longest * CHIP_LETTER + CHIP.around) / CHIP.unit) * CHIP.unit;
  return {width: Math.max(CHIP.least, width), height: CHIP.height, keys};
}

/**
 * What the smallest drawing of a block says: the first value that is no link, or its place.
 * @param {Sized} block
 * @param {number[] | null | undefined} words
 * @param {Window[]} windows
 * @param {Set<string>} keys
 */
export function chipText(block, words, windows, keys) {
  const window = windows.find((it) => it.word < block.size && !keys.has(it.key));
  if (!window || !words) return String(block.place);
  const value = seenThrough(words[window.word], window);
  const text = (window.isText && textHeld(value)) || String(value);
  return text.length > MOST_ON_CHIP ? `${text.slice(0, MOST_ON_CHIP - 1)}…` : text;
}

// ---- Cards

/**
 * @param {Sized} block
 * @param {number[] | null | undefined} words
 * @param {Window[]} windows
 * @param {Linked[]} links
 * @returns {Shape}
 */
function cardOf(block, words, windows, links) {
  /** @type {Row[]} */
  const rows = [];
  let left = 0; // words that are not shown
  for (let word = 0; word < block.size; word++) {
    const own = windows.filter((it) => it.word === word);
    const isShown = rows.length < MOST_ROWS && (own.length > 0 || (block.size <= SHOWN_WORDS && words));
    if (!isShown) {
      left++;
      if (rows.length >= MOST_ROWS || word > 1023) {
        left += block.size - word - 1;
        break;
      }
      continue;
    }
    const content = words ? words[word] : null;
    if (own.every((it) => widthOf(it) < LEGIBLE)) rows.push({word, y: 0, height: ROW, cells: [plainCell(content, word)]});
    for (const lane of lanesOf(own)) rows.push({word, y: 0, height: ROW, cells: lane.map((it) => cellOf(it, content, links))});
  }
  if (left > 0)
    rows.push({
      word: -1,
      y: 0,
      height: ROW,
      cells: [],
      note: rows.length ? `${left} more ${left === 1 ? "word" : "words"}` : `${block.size} words`
    });
  return {width: WORD_BITS * BIT, height: stacked(rows), rows, isBox: false};
}

/**
 * Puts the rows of a card below its head, one under another; answers its height.
 * @param {Row[]} rows
 */
function stacked(rows) {
  const height = rows.length > FEW ? CLOSE : ROW;
  rows.forEach((row, index) => Object.assign(row, {y: HEAD + index * height, height}));
  return Math.ceil((HEAD + rows.length * height) / GRID) * GRID;
}

/**
 * @param {number | null} content
 * @param {number} word
 * @returns {Cell}
 */
function plainCell(content, word) {
  return {
    key: `plain ${word}`,
    name: "",
    window: null,
    x: 0,
    width: WORD_BITS * BIT,
    text: content === null ? "" : octal(content),
    value: content
  };
}

/**
 * @param {Window} window
 * @param {number | null} content
 * @param {Linked[]} links
 * @returns {Cell}
 */
function cellOf(window, content, links) {
  const value = content === null ? null : seenThrough(content, window);
  const link = links.find((it) => it.key === window.key);
  return {
    key: window.key,
    name: window.name,
    window,
    value,
    link,
    x: window.first * BIT,
    width: widthOf(window) * BIT,
    text: value === null ? "" : textOfCell(window, value, link),
  };
}

/**
 * What a cell shows of a value, as far as there is room for it: a character where the field holds texts, else
 * a number, with the letter beside it that it may be.
 * @param {{first: number, last: number, name: string, isText?: boolean}} window
 * @param {number} value
 * @param {Linked | null | undefined} link
 */
export function textOfCell(window, value, link) {
  const width = widthOf(window) * BIT;
  const room =
    width < NARROW ? Math.floor(width / LETTER) : Math.floor((width - 6) / LETTER) - window.name.length - 1;
  const text = isLetter(value) ? characterOf(value) : likelyText(value);
  const wanted = link ? [] : window.isText ? [textHeld(value)] : text ? [`${value} ${text}`] : [];
  return [...wanted, String(value)].find((it) => it && it.length <= room) ?? "";
}

// The text that a field of texts holds, or "" where it holds none.
/** @param {number} value */
function textHeld(value) {
  return value > 0 && value < 64 ? characterOf(value) : likelyText(value);
}

// ---- Boxes

/**
 * A box: what it holds besides links, in a row, and a stub for each link below.
 * @param {Sized} block
 * @param {number[] | null | undefined} words
 * @param {Window[]} windows
 * @param {Linked[]} links
 * @returns {Shape}
 */
function boxOf(block, words, windows, links) {
  const values =
    windows.filter((it) => it.word < block.size && !links.some((link) => link.key === it.key))
      .filter((it) => !isCovered(it, windows))
      .map((it) => ({window: it, value: words ? seenThrough(words[it.word], it) : 0}))
      .filter(({value}) => value !== 0);
  const text =
    values
      .map(({window, value}) => `${window.name} ${textOfCell({...window, first: 0, last: 35}, value, null)}`)
      .join(" ");
  const width = GRID * 6;
  const cells = links.map((link, index) => {
    const step = width / links.length;
    return {
      key: link.key,
      name: link.name,
      link,
      window: null,
      x: index * step,
      width: step,
      text: "",
      value: link.target
    };
  });
  const rows = [{word: 0, cells, y: HEAD, height: ROW}];
  return {
    width,
    height: HEAD + (cells.length || text ? ROW : 0),
    rows: cells.length || text ? rows : [],
    isBox: true,
    text: values.length ? shortOf(values, text) : targetOf(links)
  };
}

/** @param {Linked[]} links */
function targetOf(links) {
  return links.length === 1 ? String(links[0].target) : "";
}

/**
 * @param {{window: Window, value: number}[]} values
 * @param {string} text
 */
function shortOf(values, text) {
  if (text.length <= 8) return text;
  const {window, value} = values[0];
  const only = textOfCell({...window, name: "", first: 0, last: 35}, value, null);
  return (only.split(" ").at(-1) ?? "").slice(0, 6);
}

/**
 * Whether other fields show all bits of a window, so that it adds nothing.
 * @param {Window} window
 * @param {Window[]} windows
 */
function isCovered(window, windows) {
  return windows.some(
    (it) => it !== window && it.word === window.word && it.first >= window.first && it.last <= window.last
  );
}
