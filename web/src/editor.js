// The deck as a text that is edited, and that is marked where the run is. What is marked lies below the text,
// and the numbers of cards and statements beside it; of both only what is in sight is made.

import {Cards} from "./cards.js";
import {COLUMNS, linesOf, readDeck} from "./deck.js";
import {make} from "./dom.js";

const PAD = 4; // above the first line, in pixels
const INDENT = 2;

/** @typedef {import("./deck.js").Reading} Reading */
/** @typedef {import("./cards.js").Spot} Spot */
/** @typedef {import("./checker.js").Finding} Finding */
/** @typedef {{deck: Reading, lines: string[]}} Base */

export class Editor {
  /**
   * `cards` shows the deck wrapped, too, where the editor is not seen.
   * @param {{text: HTMLTextAreaElement, under: HTMLElement, gutter: HTMLElement, ruler: HTMLElement,
   *   cards: HTMLElement}} parts
   * @param {(statement: number, runs: boolean) => void} toggle
   */
  constructor({text, under, gutter, ruler, cards}, toggle) {
    this.cards = new Cards(cards, toggle);
    this.text = text;
    this.under = under;
    this.gutter = gutter;
    this.ruler = ruler;
    this.toggle = toggle;
    this.column = 7.5; // pixels, of a letter
    this.row = 20;     // of a line
    this.above = 0;    // of the ruler
    /** @type {Set<number>} */
    this.breakpoints = new Set();
    /** @type {Spot | null} */
    this.spot = null; // where the run is
    /** @type {Finding[]} */
    this.findings = []; // what the program finds in the deck
    this.deck = readDeck(""); // as it was read
    /** @type {Base | null} */
    this.base = null; // the latest deck that was read whole, to whose statements the breakpoints belong
    this.measure();
    text.addEventListener("scroll", () => this.draw());
    new ResizeObserver(() => this.measure()).observe(text);
  }

  measure() {
    const probe = make("span", {class: "hidden"}, "0".repeat(100));
    this.under.append(probe);
    probe.style.cssText = "position:absolute;width:auto;clip-path:none;visibility:hidden";
    this.column = probe.getBoundingClientRect().width / 100 || 7.5;
    probe.remove();
    this.above = this.ruler.offsetHeight + 1;
    this.row = parseFloat(getComputedStyle(this.text).lineHeight) || 20;
    this.ruler.replaceChildren(...[1, 10, 20, 30, 40, 50, 60, 70, 72].filter((it) => it !== 70).map((it) => {
      const tick = make("i", {class: it === 72 ? "edge" : ""}, String(it));
      tick.style.left = `${INDENT + (it - 0.5) * this.column}px`;
      return tick;
    }));
    this.draw();
  }

  /**
   * Begins with another deck, and its breakpoints.
   * @param {Reading} deck
   * @param {number[]} breakpoints
   */
  begin(deck, breakpoints) {
    this.breakpoints = new Set(breakpoints);
    this.base = null;
    this.text.scrollTop = 0;
    this.read(deck);
  }

  // The deck was read again after an edit. Breakpoints stay on their cards.
  /** @param {Reading} deck */
  read(deck) {
    this.deck = deck;
    if (deck.isWhole) {
      const base = {deck, lines: linesOf(this.text.value)};
      if (this.base) this.breakpoints = breakpointsAfter(this.breakpoints, this.base, base);
      this.base = base;
    }
    this.draw();
  }

  // Draws what is in sight.
  draw() {
    if (this.cards.frame.offsetHeight) this.drawCards();
    const {scrollTop, scrollLeft, clientHeight} = this.text;
    const first = Math.max(0, Math.floor((scrollTop - PAD) / this.row));
    const last =
      Math.min(Math.max(this.deck.cards.length, 1), first + Math.ceil(clientHeight / this.row) + 2);
    const top = (/** @type {number} */ card) => PAD + card * this.row - scrollTop;
    const beside = [];
    for (let card = first; card < last; card++) beside.push(...this.numbersOf(card, top(card)));
    this.gutter.replaceChildren(...beside);
    this.under.replaceChildren(...this.lanes(scrollLeft), ...this.shades(first, last, top, scrollLeft));
  }

  // The deck wrapped.
  drawCards() {
    this.cards.show(this.text.value, this.deck, this.breakpoints, this.spot);
  }

  /** @param {number} left */
  lanes(left) {
    const lane = (/** @type {string} */ name, /** @type {number} */ from, /** @type {number} */ width) => {
      const element = make("div", {class: name});
      element.style.left = `${INDENT + from * this.column - left}px`;
      if (width) element.style.width = `${width * this.column}px`;
      return element;
    };
    return [lane("first", 0, 1), lane("last", COLUMNS, 0)];
  }

  /**
   * @param {number} first
   * @param {number} last
   * @param {(card: number) => number} top
   * @param {number} left
   */
  shades(first, last, top, left) {
    const found = [];
    /** @type {[string, Spot][]} */
    const marks = this.findings.map((it) => [it.isError ? "bad" : "odd", it]);
    if (this.spot) marks.unshift(["at", this.spot]);
    for (const [kind, spot] of marks) {
      if (spot.card < first || spot.card >= last) continue;
      const line = make("div", {class: `line ${kind}`});
      line.style.top = `${top(spot.card)}px`;
      const mark = make("div", {class: `spot ${kind}`});
      mark.style.top = line.style.top;
      mark.style.left = `${INDENT + spot.from * this.column - left}px`;
      mark.style.width = `${Math.max(0.35, spot.to - spot.from) * this.column}px`;
      found.push(line, mark);
    }
    return found;
  }

  /**
   * @param {number} card
   * @param {number} top
   */
  numbersOf(card, top) {
    const number = make("span", {class: "card"}, String(card + 1));
    number.style.top = `${this.above + top}px`;
    const statement = this.deck.cards[card] ?? -1;
    if (statement < 0 || this.deck.statements[statement]?.card !== card) return [number];
    const hasBreakpoint = this.breakpoints.has(statement);
    const button = make(
      "button", {
        type: "button",
        tabindex: -1,
        class: this.spot?.statement === statement ? "at" : "",
        "aria-pressed": String(hasBreakpoint),
        "aria-label": `Breakpoint at statement ${statement}`,
        title: `Statement ${statement}: ${
          hasBreakpoint ? "remove the breakpoint" : "set a breakpoint"} (Shift and click: run to it)`,
        onclick: (/** @type {MouseEvent} */ event) => this.toggle(statement, event.shiftKey),
      },
      String(statement)
    );
    button.style.top = `${this.above + top}px`;
    return [number, button];
  }

  // Marks where the run is, and brings it into sight.
  /** @param {Spot | null} spot */
  point(spot) {
    this.spot = spot;
    if (spot && spot.card >= 0) this.reveal(spot.card);
    this.draw();
  }

  // Brings the mark of where the run is into sight again.
  revealSpot() {
    if (this.spot && this.spot.card >= 0) this.reveal(this.spot.card);
    this.draw();
  }

  // The text of a card.
  /** @param {number} card */
  lineOf(card) {
    return linesOf(this.text.value)[card] ?? "";
  }

  // Marks what the program finds in the deck.
  /** @param {Finding[]} findings */
  mark(findings) {
    this.findings = findings;
    this.draw();
  }

  /** @param {number} card */
  reveal(card) {
    const {scrollTop, clientHeight} = this.text;
    const top = PAD + card * this.row;
    if (top < scrollTop + this.row || top > scrollTop + clientHeight - 3 * this.row) {
      this.text.scrollTop = Math.max(0, top - clientHeight / 2);
    }
    this.revealColumns();
  }

  // Brings the columns of the mark into sight, too, where the deck is wider than its box.
  revealColumns() {
    if (!this.spot) return;
    const {scrollLeft, clientWidth} = this.text;
    const [from, to] = [this.spot.from * this.column, Math.min(this.spot.to, COLUMNS) * this.column];
    if (to + INDENT > scrollLeft + clientWidth || from < scrollLeft)
      this.text.scrollLeft =
        to < clientWidth * 0.9 ? 0 : Math.max(0, Math.min(from - 20, to - clientWidth * 0.6));
  }

  // The card and the column of the cursor, counted from 0.
  cursor() {
    const before = this.text.value.slice(0, this.text.selectionStart).split("\n");
    return {card: before.length - 1, column: before[before.length - 1].length};
  }

  // The statement with the cursor, or the one after it.
  statementAtCursor() {
    const {card} = this.cursor();
    for (let at = card; at < this.deck.cards.length; at++)
      if (this.deck.cards[at] >= 0) return this.deck.cards[at];
    return this.deck.statements.length; // the DONE that every deck gets
  }

  /**
   * Puts the cursor on a card.
   * @param {number} card
   * @param {number} column
   */
  goTo(card, column) {
    const before = this.text.value.split("\n").slice(0, card).join("\n").length + (card > 0 ? 1 : 0);
    this.text.focus();
    this.text.setSelectionRange(before + column, before + column);
    this.reveal(card);
  }
}

/**
 * The statements of an edited deck on the cards of those that had breakpoints: on cards before the edit,
 * after it, or in it where it has as many cards as before.
 * @param {Set<number>} breakpoints
 * @param {Base} was
 * @param {Base} is
 */
function breakpointsAfter(breakpoints, was, is) {
  const [old, now] = [was.lines, is.lines];
  const more = now.length - old.length;
  const most = Math.min(old.length, now.length);
  let before = 0;
  while (before < most && old[before] === now[before]) before++;
  let after = 0;
  while (after < most - before && old.at(-1 - after) === now.at(-1 - after)) after++;
  const found = new Set();
  for (const mark of breakpoints) {
    if (mark === was.deck.statements.length) found.add(is.deck.statements.length); // (the DONE at the end)
    const card = was.deck.statements[mark]?.card;
    const isAfter = card >= old.length - after;
    const statement = is.deck.cards[isAfter ? card + more : card] ?? -1;
    if (statement >= 0 && (isAfter || card < before || more === 0)) found.add(statement);
  }
  return found;
}
