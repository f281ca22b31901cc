// One block of the drawing: a card with its fields as windows on bits, and the bugs that lead to it above.

import {svg} from "./dom.js";
import {BIT, HEAD, NARROW} from "./shape.js";
import {count, withCommas, WORD_BITS} from "./word.js";

const LETTER = 7.3;          // the width of a letter
const SLIM = 10;             // a cell in which not even a name has room
const BESIDE = 14;           // the room that a name needs beside its cell
const ROUND = 5;             // the radius of a card's corners

/** @typedef {import("./graph.js").Block} Block */
/** @typedef {import("./shape.js").Cell} Cell */
/** @typedef {import("./shape.js").Row} Row */
/** @typedef {import("./shape.js").Shape} Shape */

/**
 * What a block is made of, seen from its upper left corner.
 * @param {Block} block
 * @param {(name: string) => string} colourOf
 * @returns {Element[]}
 */
export function partsOfBlock(block, colourOf) {
  const {shape} = block;
  const size = {width: shape.width, height: shape.height, rx: ROUND};
  if (block.isGhost) return [svg("rect", {class: "edge", ...size}), ...ghostTexts(block)];
  if (shape.isChip) {
    const title = `Block ${block.place}, ${count(block.size, "word")}`;
    return [
      svg("rect", {class: "body edge", ...size}),
      middleText("value", shape.width / 2, shape.height / 2 + 4.5, shape.text), svg("title", {}, title),
      ...foldOf(block)
    ];
  }
  return [
    svg("rect", {class: "body", ...size}),
    svg("path", {class: "top", d: topOf(shape)}),
    ...headOf(block),
    ...shape.rows.flatMap((row) => partsOfRow(row, shape, colourOf)),
    svg("rect", {class: "edge", ...size}),
    ...foldOf(block),
  ];
}

/**
 * How many blocks below are not drawn.
 * @param {Block} block
 * @returns {Element[]}
 */
function foldOf({isFolded, below, shape}) {
  if (!isFolded) return [];
  const says = shape.isChip ? `▲${withCommas(below)}` : `▲ ${count(below, "block")}`;
  return [middleText("folded", shape.width / 2, shape.height + 13, says)];
}

/**
 * A freed block to which something still leads.
 * @param {Block} block
 * @returns {Element[]}
 */
function ghostTexts({place, dead, shape}) {
  const middle = shape.width / 2;
  const title = svg("title", {}, `The block at ${place} was freed: state ${dead}`);
  const isSlim = shape.width < 40; // (a place has no room)
  if (shape.height < 40) return [middleText("place", middle, 16, isSlim ? "✕" : place), title];
  return [middleText("place", middle, 16, place), middleText("value", middle, 36, "freed"), title];
}

/**
 * @param {Block} block
 * @returns {Element[]}
 */
function headOf({place, size, isLost, shape}) {
  if (shape.isBox) return [middleText("place", shape.width / 2, 16, place)];
  const words = count(size, "word");
  return [
    svg("text", {x: 7, y: 16, class: "place"}, place),
    svg(
      "text", {x: shape.width - 7, y: 16, class: "size", "text-anchor": "end"},
      isLost ? `${words}, lost` : words
    ),
  ];
}

/**
 * @param {string} kind
 * @param {number} x
 * @param {number} y
 * @param {string | number | undefined} text
 */
function middleText(kind, x, y, text) {
  return svg("text", {x, y, class: kind, "text-anchor": "middle"}, text);
}

/**
 * @param {Row} row
 * @param {Shape} shape
 * @param {(name: string) => string} colourOf
 * @returns {Element[]}
 */
function partsOfRow(row, shape, colourOf) {
  const middle = shape.width / 2;
  if (row.note) return [middleText("rest", middle, lineOf(row), row.note)];
  if (shape.isBox) return [middleText("value", middle, lineOf(row), shape.text)];
  const cells = row.cells.map((cell) => cellElement(cell, row, colourOf));
  if (row.y === HEAD) return cells;
  return [svg("line", {class: "between", x1: 0, x2: shape.width, y1: row.y, y2: row.y}), ...cells];
}

/**
 * The line on which the letters of a row stand.
 * @param {Row} row
 */
function lineOf({y, height}) {
  return y + height / 2 + 4;
}

/**
 * @param {Cell} cell
 * @param {Row} row
 * @param {(name: string) => string} colourOf
 */
function cellElement(cell, row, colourOf) {
  const kinds = ["cell", cell.name ? colourOf(cell.name) : "plain", cell.isChanged && "changed"];
  const window = {
    class: "window",
    x: cell.x + 1,
    y: row.y + 1,
    width: Math.max(2, cell.width - 2),
    height: row.height - 2,
    rx: 2
  };
  const title = `${cell.name || `word ${row.word}`} ${cell.value ?? ""}`;
  return svg(
    "g", {class: kinds.filter((it) => it).join(" ")}, svg("rect", window), ...textsOfCell(cell, row),
    svg("title", {}, title)
  );
}

/**
 * The texts of a cell: its field's name and the value; where there is room for one alone, the value.
 * @param {Cell} cell
 * @param {Row} row
 * @returns {Element[]}
 */
function textsOfCell(cell, row) {
  const y = lineOf(row);
  const middle = {x: cell.x + cell.width / 2, y, "text-anchor": "middle"};
  if (!cell.name) return [svg("text", {...middle, class: "value"}, cell.text)];
  if (cell.width < SLIM) return hasRoomBeside(cell, row) ? [nameBeside(cell, y)] : [];
  if (cell.width < NARROW) {
    const name = cell.name.slice(0, 1);
    if (!cell.text) return [svg("text", {...middle, class: "name"}, name)];
    const hasBoth = (cell.text.length + 1) * LETTER <= cell.width;
    if (!hasBoth) return [svg("text", {...middle, class: "value"}, cell.text)];
    return [
      svg("text", {x: cell.x + 2, y, class: "name"}, name),
      svg("text", {x: cell.x + cell.width - 2, y, class: "value", "text-anchor": "end"}, cell.text)
    ];
  }
  const leavesLeft = cell.link && cell.window?.first === 0 && cell.window.last !== 35;
  return [
    svg("text", {x: cell.x + (leavesLeft ? 13 : 5), y, class: "name"}, cell.name),
    svg(
      "text", {
        x: cell.x + cell.width - (cell.link && !leavesLeft ? 12 : 5),
        y,
        class: "value",
        "text-anchor": "end"
      },
      cell.text
    ),
  ];
}

/**
 * Whether a narrow cell has room for its name on its right.
 * @param {Cell} cell
 * @param {Row} row
 */
function hasRoomBeside(cell, row) {
  const end = cell.x + cell.width;
  const next = Math.min(WORD_BITS * BIT, ...row.cells.map((it) => it.x).filter((x) => x >= end));
  return next - end >= BESIDE;
}

/**
 * @param {Cell} cell
 * @param {number} y
 */
function nameBeside(cell, y) {
  return svg("text", {x: cell.x + cell.width + 3, y, class: "name"}, cell.name.slice(0, 1));
}

/** @param {{width: number, height: number}} size */
function topOf({width, height}) {
  const bottom = height > HEAD ?
    `V${HEAD}H0V5` :
    `V${HEAD - 5}Q${width} ${HEAD} ${width - 5} ${HEAD}H5Q0 ${HEAD} 0 ${HEAD - 5}V5`;
  return `M0 5Q0 0 5 0H${width - 5}Q${width} 0 ${width} 5${bottom}Z`;
}

/**
 * The sign of a bug, seen from the corner of its block. A click calls `hide` with its name.
 * @param {string} name
 * @param {(name: string) => void} hide
 */
export function pillOf(name, hide) {
  const pick = (/** @type {Event} */ event) => {
    event.stopPropagation();
    hide(name);
  };
  return svg(
    "g", {class: "pill", "data-bug": name, onclick: pick},
    svg("path", {d: "M4 -22H18Q22 -22 22 -18V-10Q22 -6 18 -6H15L11 -1L7 -6H4Q0 -6 0 -10V-18Q0 -22 4 -22Z"}),
    svg("text", {x: 11, y: -10, "text-anchor": "middle"}, name),
    svg("title", {}, `Bug ${name}. Is it only a number, and leads here by chance? A click hides it.`)
  );
}
