// The store as a strip: its units, and of one of them each block and each free piece, to scale.

import {Pen} from "./pen.js";
import {KINDS} from "./store.js";
import {count, UNIT, withCommas} from "./word.js";

const LEAST_PART = 32; // words
const LEVELS = 11;
const LEVELS_HEIGHT = 176; // as in the style
const LEVELS_LEFT = 40;    // for the sizes
const FEW = 90;            // pieces that can be drawn wider than to scale
const LABEL = 34;          // pixels in which the place of a piece has room
const MOST_SPOKEN = 40;    // pieces that the text of the picture names

/** @typedef {import("./view.js").View} View */
/** @typedef {import("./store.js").Store} Store */
/** @typedef {import("./store.js").Piece} Piece */
/** @typedef {import("./route.js").Box} Box */
/** @typedef {{from: number, to: number}} Width from where to where a piece is drawn, in pixels */

export class Strip {
  /**
   * @param {{text: HTMLElement, units: HTMLCanvasElement, strip: HTMLCanvasElement, levels: HTMLCanvasElement,
   *   levelsText: HTMLElement, bySize: HTMLInputElement, unitBox: HTMLInputElement}} parts
   * @param {(place: number) => void} choose
   */
  constructor({text, units, strip, levels, levelsText, bySize, unitBox}, choose) {
    this.text = text;
    this.units = units;
    this.strip = strip;
    this.levels = levels;
    this.levelsText = levelsText;
    this.bySize = bySize;
    this.unitBox = unitBox;
    this.unitLabel = /** @type {HTMLElement} */ (unitBox.parentElement);
    this.choose = choose;
    /** @type {View | null} */
    this.view = null;
    /** @type {View | null} */
    this.before = null;
    this.part = {unit: 0, begin: 0, end: 0}; // of the store that is drawn
    /** @type {Piece[]} */
    this.pieces = [];
    /** @type {Set<string> | null} */
    this.old = null; // the pieces before, by what there is to say of them
    /** @type {Width[]} */
    this.widths = [];
    /** @type {number | null} */
    this.unit = null; // that the reader chose, or null
    /** @type {number | undefined} */
    this.latest = undefined; // in which something changed
    /** @type {number | null} */
    this.chosen = null; // the place of a block
    this.begin = 0;     // of the store
    this.count = 0;     // of its units
    this.scale = 1;
    this.amounts = "";
    bySize.addEventListener("change", () => this.draw());
    strip.addEventListener("click", (event) => this.pick(event));
    levels.addEventListener("click", (event) => this.pick(event));
    for (const canvas of [strip, levels]) canvas.addEventListener("mousemove", (event) => this.hint(event));
    units.addEventListener(
      "click", (event) => this.pickUnit(Math.floor((event.offsetX / units.clientWidth) * this.count))
    );
    unitBox.addEventListener("input", () => unitBox.value && this.pickUnit(Number(unitBox.value) - 1));
  }

  /**
   * @param {View} view
   * @param {View | null} before
   */
  show(view, before) {
    this.view = view;
    this.before = before;
    const {store} = view;
    const lostText = store.lost ? `, ${withCommas(store.lost)} lost` : "";
    const largest = store.largestFree ? `, largest ${withCommas(store.largestFree)}` : "";
    this.amounts = `${count(store.blocks, "block")}${lostText}; ${count(store.used, "word")} used, ${
      withCommas(store.free)} free${largest}`;
    this.draw();
  }

  /** @param {number | null} place */
  mark(place) {
    if (this.chosen === place) return;
    this.chosen = place;
    if (this.view) this.draw();
  }

  // Another deck begins: no unit is chosen any more. (It stays where the same deck is run again.)
  forgetUnit() {
    this.unit = null;
    this.latest = undefined;
  }

  forget() {
    this.view = null;
    this.before = null;
    this.chosen = null;
    this.text.textContent = "";
    this.units.hidden = this.levelsText.hidden = this.levels.hidden = this.unitLabel.hidden = true;
    this.strip.hidden = false;
    new Pen(this.strip);
  }

  draw() {
    if (!this.view) return;
    const {view: {store}, before} = this;
    this.begin = store.begin;
    this.count = (store.end - this.begin) / UNIT;
    this.part = this.partShown(store, before);
    this.pieces = store.piecesBetween(this.part.begin, this.part.end);
    this.old = before && new Set(before.store.piecesBetween(this.part.begin, this.part.end).map(keyOf));
    this.units.hidden = this.unitLabel.hidden = this.count === 1;
    this.unitBox.max = String(this.count);
    this.unitBox.value = String(this.part.unit + 1);
    const isSeen = Boolean(this.strip.parentElement?.offsetHeight); // (else it is drawn once it is shown)
    if (this.count > 1 && isSeen) this.drawUnits(store);
    this.text.textContent = this.amounts;
    this.text.title = "words used, words free, and the largest free piece";
    this.levels.hidden = this.levelsText.hidden = !this.bySize.checked;
    if (this.bySize.checked) this.levelsText.textContent = levelsInWords(store.levels());
    this.strip.hidden = this.bySize.checked;
    if (this.bySize.checked && isSeen)
      this.drawLevels();
    else if (isSeen)
      this.drawStrip();
    this.strip.setAttribute("aria-label", this.textOf());
  }

  // The unit that is shown, or the part of it that has all of its blocks: that of the reader, or that in
  // which something has changed last, or the first with a block.
  /**
   * @param {Store} store
   * @param {View | null} before
   */
  partShown(store, before) {
    const changed = this.unit === null && before ? before.store.firstChange(store) : null;
    if (changed !== null) this.latest = Math.floor((changed - this.begin) / UNIT);
    const first = store.kinds.findIndex((it) => it !== KINDS.free);
    const fallback = first < 0 ? 0 : Math.floor((store.places[first] - this.begin) / UNIT);
    const unit = Math.min(this.unit ?? this.latest ?? fallback, this.count - 1);
    const begin = this.begin + unit * UNIT;
    const used = store.piecesBetween(begin, begin + UNIT).filter((it) => !it.isFree);
    const reach = used.reduce((most, it) => Math.max(most, it.place + it.size - begin), 0);
    let size = LEAST_PART;
    while (size < reach) size *= 2;
    if (this.bySize.checked || size > UNIT) size = UNIT;
    return {unit, begin, end: begin + size};
  }

  /** @param {Store} store */
  drawUnits(store) {
    const pen = new Pen(this.units);
    const width = pen.width / this.count;
    pen.fill("--free", 0, 0, pen.width, 12);
    let from = 0;
    const at = (/** @type {number} */ place) => ((place - this.begin) / UNIT) * width;
    for (let index = 0; index < store.places.length; index++) { // (thin neighbours are joined)
      if (store.kinds[index] === KINDS.free) continue;
      const isLost = store.kinds[index] === KINDS.lost;
      const end = at(store.places[index] + store.sizes[index]);
      if (end - from < 0.5 && from > 0 && !isLost) continue;
      const x = Math.max(from, at(store.places[index]));
      pen.fill(isLost ? "--lost" : "--block", x, 2, Math.max(0.6, end - x), 8);
      from = end;
    }
    for (let unit = 1; unit < this.count && width > 4; unit++)
      pen.fill("--paper", unit * width - 0.5, 0, 1, 12);
    pen.frame("--accent", this.part.unit * width + 1, 1, Math.max(3, width - 2), 10, 2);
    this.units.setAttribute(
      "aria-label", `${count(this.count, "unit")} of 1,024 words; unit ${this.part.unit + 1} is shown below`
    );
  }

  drawStrip() {
    const pen = new Pen(this.strip);
    this.scale = pen.width / (this.part.end - this.part.begin);
    for (const piece of this.pieces) {
      const box = this.boxOf(piece, 1, 35);
      this.drawPiece(pen, piece, box);
      const [ink, size] = [inkOf(piece), withCommas(piece.size)];
      if (box.width > size.length * 7 + 4) pen.text(ink, size, box.x + box.width / 2, 29, 12.5);
      if (box.width > 34) pen.text(ink, String(piece.place), box.x + 4, 12, 10, "left");
    }
    const rest =
      this.part.end - this.part.begin < UNIT ? `and all up to ${this.part.begin + UNIT - 1} is free` : "";
    pen.text("--soft", String(this.part.begin), 0, 48, 10, "left");
    pen.text("--soft", rest || String(this.part.end - 1), pen.width, 48, 10, "right");
  }

  /**
   * @param {Piece} piece
   * @param {number} y
   * @param {number} height
   */
  boxOf(piece, y, height) {
    const x = Math.max(0, (piece.place - this.part.begin) * this.scale);
    const end = Math.min(
      (piece.place + piece.size - this.part.begin) * this.scale,
      (this.part.end - this.part.begin) * this.scale
    );
    return {x, y, width: end - x, height};
  }

  /**
   * @param {Pen} pen
   * @param {Piece} piece
   * @param {Box} box
   */
  drawPiece(pen, piece, {x, y, width, height}) {
    const gap = width > 3 ? 1 : 0;
    const colour = piece.isFree ? "--free" : piece.isLost ? "--lost" : "--block";
    pen.fill(colour, x, y, Math.max(0.7, width - gap), height);
    if (piece.isLost) pen.hatch("--paper", x, y, width - gap, height);
    if (this.old && !this.old.has(keyOf(piece)))
      pen.frame("--changed", x + 1, y + 1, Math.max(2, width - gap - 2), height - 2, 2.5);
    if (!piece.isFree && piece.place === this.chosen)
      pen.frame("--ink", x + 1, y + 1, Math.max(2, width - gap - 2), height - 2, 2.5);
  }

  // Each piece in the line of its size: 1,024 on top, 1 at the bottom. A frame above two pieces is the piece
  // that they are halves of. Small pieces are drawn wider than to scale, so that one sees them; a whole is as
  // wide as its parts.
  drawLevels() {
    const pen = new Pen(this.levels);
    const height = LEVELS_HEIGHT / LEVELS;
    this.widths = widthsOf(this.pieces, pen.width - LEVELS_LEFT);
    const line = (/** @type {number} */ size) => (LEVELS - 1 - Math.log2(size)) * height + 1;
    for (let size = 1; size <= UNIT; size *= 2)
      pen.text("--soft", withCommas(size), LEVELS_LEFT - 6, line(size) + height - 4.5, 10.5, "right");
    for (const [key, {from, to}] of halvedOf(this.pieces, this.widths)) {
      const size = Number(key.split(" ")[1]);
      pen.frame(
        "--line", LEVELS_LEFT + from + 0.5, line(size) + 0.5, Math.max(1, to - from - 2), height - 2.5, 1
      );
    }
    this.pieces.forEach((piece, index) => {
      const {from, to} = this.widths[index];
      const box = {x: LEVELS_LEFT + from, y: line(piece.size), width: to - from, height: height - 2};
      this.drawPiece(pen, piece, box);
      if (box.width > 28)
        pen.text(inkOf(piece), String(piece.place), box.x + box.width / 2, box.y + height - 5, 10.5);
    });
    this.levels.setAttribute(
      "aria-label", `The pieces of unit ${this.part.unit + 1} by their sizes. ${this.textOf()}`
    );
  }

  textOf() {
    const kindOf = (/** @type {Piece} */ it) => (it.isFree ? "free" : `${it.isLost ? "lost " : ""}block`);
    const parts = this.pieces.slice(0, MOST_SPOKEN).map((it) => `${it.place} ${kindOf(it)} of ${it.size}`);
    const more = this.pieces.length - MOST_SPOKEN;
    return `${parts.join(", ")}${more > 0 ? ` and ${count(more, "more piece", "more pieces")}` : ""}`;
  }

  /** @param {MouseEvent} event */
  placeAt(event) {
    if (event.currentTarget === this.levels) {
      const at = event.offsetX - LEVELS_LEFT;
      const index = this.widths.findIndex(({from, to}) => at >= from && at < to);
      return this.pieces[index]?.place ?? this.part.begin;
    }
    const words = this.part.end - this.part.begin;
    return this.part.begin + Math.floor((event.offsetX / this.strip.clientWidth) * words);
  }

  /** @param {MouseEvent} event */
  pick(event) {
    const piece = this.view?.store.pieceWith(this.placeAt(event));
    if (piece && !piece.isFree) this.choose(piece.place);
  }

  /** @param {MouseEvent} event */
  hint(event) {
    if (!this.view) return;
    const place = this.placeAt(event);
    const piece = this.view.store.pieceWith(place);
    if (!piece) return;
    const free =
      piece.isFree ? `${place}: in a free piece of ${withCommas(this.view.store.freePieceWith(place))}` : "";
    /** @type {HTMLElement} */ (event.currentTarget).title =
      free || `block ${piece.place}, ${count(piece.size, "word")}${piece.isLost ? ", lost" : ""}`;
  }

  /** @param {number} unit */
  pickUnit(unit) {
    if (!this.view || !Number.isInteger(unit) || unit < 0 || unit >= this.count) return;
    this.unit = unit;
    this.draw();
  }
}

/**
 * From where to where each piece is drawn. Of a few, each has room for its place, if it can be.
 * @param {Piece[]} pieces
 * @param {number} room
 * @returns {Width[]}
 */
function widthsOf(pieces, room) {
  const slopes = [0.45, 0.2, 0.08, 0];
  const lengthOf = (/** @type {number} */ slope) => pieces.reduce((sum, it) => sum + 1 + slope * Math.log2(it.size), 0);
  const slope = slopes.find((it) => room / lengthOf(it) >= LABEL) ?? slopes[0];
  const weight = (/** @type {Piece} */ {size}) => (pieces.length <= FEW ? 1 + slope * Math.log2(size) : size);
  const whole = pieces.reduce((sum, it) => sum + weight(it), 0);
  let at = 0;
  return pieces.map((piece) => {
    const from = at;
    at += (weight(piece) / whole) * room;
    return {from, to: at};
  });
}

/**
 * The pieces that were halved, by place and size: from where to where their parts are drawn.
 * @param {Piece[]} pieces
 * @param {Width[]} widths
 * @returns {Map<string, Width>}
 */
function halvedOf(pieces, widths) {
  /** @type {Map<string, Width>} */
  const halved = new Map();
  pieces.forEach((piece, index) => {
    for (let size = piece.size * 2; size <= UNIT; size *= 2) {
      const key = `${piece.place - (piece.place % size)} ${size}`;
      const {from} = halved.get(key) ?? widths[index];
      halved.set(key, {from, to: widths[index].to});
    }
  });
  return halved;
}

/** @param {Piece} piece */
function keyOf(piece) {
  return `${piece.place} ${piece.size} ${piece.isFree ? "free" : piece.isLost ? "lost" : "block"}`;
}

/** @param {Piece} piece */
function inkOf(piece) {
  if (piece.isFree) return "--soft";
  return piece.isLost ? "--lost-ink" : "--block-ink";
}

// How many blocks and free pieces there are of each size.
/** @param {{blocks: number, free: number}[]} levels */
function levelsInWords(levels) {
  const tell = (/** @type {typeof levels[0]} */ {blocks, free}, /** @type {number} */ level) => {
    const parts = [blocks && count(blocks, "block"), free && `${withCommas(free)} free`].filter((it) => it);
    return parts.length ? [`of ${withCommas(2 ** level)}: ${parts.join(", ")}`] : [];
  };
  return `A frame is a piece that was halved. In the whole store, ${levels.flatMap(tell).join(" · ")}`;
}
