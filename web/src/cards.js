// The deck as cards that are wrapped, so that each is whole: in the lecture view, in a frame of another page,
// and in print.

import {make} from "./dom.js";
import {linesOf} from "./deck.js";

/** @typedef {{card: number, from: number, to: number, statement?: number}} Spot */

export class Cards {
  /**
   * @param {HTMLElement} frame
   * @param {(statement: number, runs: boolean) => void} toggle
   */
  constructor(frame, toggle) {
    this.frame = frame;
    this.toggle = toggle;
    this.sign = "";
    /** @type {HTMLElement[]} */
    this.lines = [];
    /** @type {HTMLElement | null} */
    this.marked = null;
  }

  /**
   * Shows a deck, with the statements that have breakpoints, and where the run is.
   * @param {string} text
   * @param {import("./deck.js").Reading} deck
   * @param {Set<number>} breakpoints
   * @param {Spot | null} spot
   */
  show(text, deck, breakpoints, spot) {
    const sign = `${text}\u0000${[...breakpoints]}`;
    if (sign !== this.sign) {
      this.sign = sign;
      const show = (/** @type {string} */ line, /** @type {number} */ card) =>
        this.lineOf(line, deck, card, breakpoints);
      this.lines = linesOf(text).map(show);
      this.frame.replaceChildren(...this.lines);
      this.marked = null;
    }
    this.mark(text, spot);
  }

  /**
   * @param {string} line
   * @param {any} deck
   * @param {number} card
   * @param {Set<number>} breakpoints
   */
  lineOf(line, deck, card, breakpoints) {
    const statement = deck.cards[card] ?? -1;
    const isFirst = statement >= 0 && deck.statements[statement]?.card === card;
    const hasBreakpoint = breakpoints.has(statement);
    const label = `Breakpoint at statement ${statement}`;
    const number = isFirst && make(
      "button", {
        type: "button",
        tabindex: -1,
        "aria-pressed": String(hasBreakpoint),
        "aria-label": label,
        title: label,
        onclick: (/** @type {MouseEvent} */ event) => this.toggle(statement, event.shiftKey)
      },
      String(statement)
    );
    return make("li", {}, make("span", {class: "number"}, number), make("code", {}, line || " "));
  }

  /**
   * @param {string} text
   * @param {Spot | null} spot
   */
  mark(text, spot) {
    const lines = linesOf(text);
    if (this.marked) {
      const old = this.lines.indexOf(this.marked);
      this.marked.className = "";
      this.marked.querySelector("code")?.replaceChildren(lines[old] || " ");
    }
    this.marked = (spot && this.lines[spot.card]) ?? null;
    if (!this.marked || !spot) return;
    const line = lines[spot.card];
    this.marked.className = "at";
    this.marked.querySelector("code")?.replaceChildren(
      line.slice(0, spot.from), make("mark", {}, line.slice(spot.from, spot.to)), line.slice(spot.to)
    );
    this.reveal(this.marked);
  }

  // Brings a card into sight, and of the next one, too, where there is room.
  /** @param {HTMLElement} line */
  reveal(line) {
    const {frame} = this;
    const top = line.offsetTop - frame.offsetTop;
    const room = frame.clientHeight;
    if (top < frame.scrollTop || top + 2 * line.offsetHeight > frame.scrollTop + room)
      frame.scrollTop = top - room / 3;
  }
}
