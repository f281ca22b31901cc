// Has the program check the deck while it is typed, and shows what it finds in its own words: a line for each
// error and each warning, and marks on their cards.

import {bytesOf} from "./bytes.js";
import {linesOf} from "./deck.js";
import {byId, make} from "./dom.js";
import {job} from "./job.js";
import {errorOf} from "./thrown.js";

const CHECK_AFTER = 300;  // milliseconds without a key, until the deck is checked
const BLAME_AFTER = 1500; // and until what is wrong with the card that is being typed is shown
const FINDING = /^(\d+):(\d+): (error|warning): (.*)$/;
const CARD = /^ *\d+ \| (.*)$/;          // a card, as `check --long` shows it
const SIGNS = /^ *\| ( *(\^+))$/;        // the signs under its columns
const ADVICE = /^ {4} *(?:= )?(.*)$/;

/**
 * What the program finds: on which card and columns, what is wrong, what to write, and the card as it is shown.
 * @typedef {{card: number, from: number, to: number, isError: boolean, says: string, advice: string,
 *   shown: string}} Finding
 */

export class Checker {
  // `check` has the engine check a deck; while something else is done, `isBusy`, the deck waits.
  /**
   * @param {{editor: import("./editor.js").Editor, check: (input: Uint8Array) => Promise<any>,
   *   isBusy: () => boolean, tell: (text: string) => void}} ask
   */
  constructor({editor, check, isBusy, tell}) {
    this.editor = editor;
    this.ask = check;
    this.isBusy = isBusy;
    this.tell = tell;
    this.typed = -BLAME_AFTER;
    this.shown = "";
    /** @type {ReturnType<typeof setTimeout> | undefined} */
    this.timer = undefined;
  }

  // The deck was changed by the reader.
  typing() {
    this.typed = performance.now();
    this.later(CHECK_AFTER);
  }

  /** @param {number} milliseconds */
  later(milliseconds) {
    clearTimeout(this.timer);
    this.timer = setTimeout(() => this.check(), milliseconds);
  }

  async check() {
    if (this.isBusy()) return this.later(CHECK_AFTER);
    const deck = this.editor.text.value;
    try {
      const answer = await this.ask(bytesOf(job(deck, null, "")));
      if (this.editor.text.value !== deck) return;
      const found = findingsOf(answer.output, linesOf(deck));
      const ready = this.isTyping ? found.filter((it) => it.card !== this.editor.cursor().card) : found;
      this.show(ready, answer.errors.trim(), ready.length < found.length ? "" : countsOf(answer.output));
      if (ready.length < found.length) this.later(BLAME_AFTER);
    } catch (error) {
      this.tell(errorOf(error).message);
    }
  }

  get isTyping() {
    return performance.now() - this.typed < BLAME_AFTER;
  }

  // A job was refused, with this line: the program says more of it, if it is about the deck.
  /** @param {string} line */
  refused(line) {
    this.typed = -BLAME_AFTER;
    this.show([], line);
    if (/^l6: card /.test(line)) this.later(0);
  }

  // The deck was run, so it has no error.
  ran() {
    this.show(this.editor.findings.filter((it) => !it.isError));
  }

  /**
   * Shows what was found, or a line of the program, and how much there is.
   * @param {Finding[]} findings
   * @param {string} line
   * @param {string} counts
   */
  show(findings, line = "", counts = "") {
    const fault = byId("fault");
    const what = JSON.stringify([findings, line, counts]);
    this.editor.mark(findings);
    if (what === this.shown) return; // (once, for screen readers)
    this.shown = what;
    fault.hidden = findings.length === 0 && line === "";
    fault.classList.toggle("note", line === "" && !findings.some((it) => it.isError));
    const lines = findings.flatMap((it) => [this.lineOf(it), ...cardOf(it)]);
    if (line) lines.push(make("p", {}, make("code", {}, line)));
    if (findings.length > 3 && counts) lines.push(make("p", {}, counts));
    fault.replaceChildren(...lines);
    const first = findings.find((it) => it.isError);
    if (first) this.editor.reveal(first.card);
  }

  // A finding as a line of its own: where, what and what to write in its place.
  /** @param {Finding} finding */
  lineOf({card, from, isError, says, advice}) {
    const place = `${card + 1}:${from + 1}`;
    const words = {
      type: "button",
      class: "place",
      title: "Go there",
      "aria-label": `Card ${card + 1}, column ${from + 1}`,
      onclick: () => this.editor.goTo(card, from),
    };
    const more = advice ? [make("span", {class: "advice"}, ` — ${advice}`)] : [];
    const kind = isError ? "error" : "warning";
    return make("p", {class: kind}, make("button", words, place), ` ${kind}: ${says}`, ...more);
  }
}

/**
 * What the program finds in a deck with these lines, cards and columns counted from 0: with the card and the
 * signs under it, if the program shows them.
 * @param {string} output
 * @param {string[]} lines
 * @returns {Finding[]}
 */
export function findingsOf(output, lines) {
  /** @type {Finding[]} */
  const found = [];
  for (const line of output.split("\n")) {
    const [, card, column, kind, says] = FINDING.exec(line) ?? [];
    const last = found[found.length - 1];
    const [, shown] = CARD.exec(line) ?? [];
    const [, signs, marked] = SIGNS.exec(line) ?? [];
    const [, advice] = ADVICE.exec(line) ?? [];
    if (kind) {
      const place = {card: Number(card) - 1, from: Number(column) - 1, isError: kind === "error"};
      const to = endOf(lines[place.card] ?? "", place.from, says);
      found.push({...place, to, says, advice: "", shown: ""});
    } else if (last && shown !== undefined)
      last.shown = `${shown}\n`;
    else if (last && marked !== undefined) {
      last.shown += signs;
      last.to = last.from + marked.length;
    } else if (last && advice !== undefined)
      last.advice = advice;
  }
  return found;
}

/**
 * The card of a finding with signs under its columns: the sentence has both in words.
 * @param {Finding} finding
 * @returns {Element[]}
 */
function cardOf({shown}) {
  return shown ? [make("pre", {"aria-hidden": "true"}, shown)] : [];
}

/**
 * The column after those that a sentence is about: it has what is there between two marks.
 * @param {string} line
 * @param {number} from
 * @param {string} says
 */
function endOf(line, from, says) {
  const quoted = [...says.matchAll(/`([^`]+)`/g)].map((it) => it[1]);
  const lengths = quoted.filter((it) => line.startsWith(it, from)).map((it) => it.length);
  return from + Math.max(1, ...lengths);
}

// The last line: how many errors and warnings there are.
/** @param {string} output */
function countsOf(output) {
  return output.trimEnd().split("\n").at(-1) ?? "";
}
