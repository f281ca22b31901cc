// Where a run is, what comes next, and what changed, in words: for those who see it and those who hear it.

import {changesOf, endingOf, shortened} from "./changes.js";
import {byId, make} from "./dom.js";
import {actionAt, meaningOf} from "./meaning.js";
import {usesAfterFree} from "./provenance.js";
import {nextShown, operationAt} from "./steps.js";
import {count, withCommas} from "./word.js";

const BESIDE = 12; // pixels, of what is marked on a card

/** @typedef {import("./view.js").View} View */
/** @typedef {import("./session.js").Session} Session */
/** @typedef {import("./meaning.js").Action} Action */
/** @typedef {import("./steps.js").Place} Place */

/**
 * A state that is shown: that with which it is compared, its session, and whether it is one step from there.
 * @typedef {{view: View, before: View | null, session: Session, isStep: boolean}} Shown
 */

export class Story {
  /**
   * The editor has the deck; `next` answers the step that is shown next from a state on; `traps` says of each trap,
   * by its number, when it happens.
   * @param {import("./editor.js").Editor} editor
   * @param {(state: import("./transcript.js").State) => Place} next
   * @param {Record<string, string>} traps
   */
  constructor(editor, next, traps) {
    this.editor = editor;
    this.next = next;
    this.traps = traps;
    /** @type {Action | null} */
    this.action = null; // that comes next
    /** @type {string[]} */
    this.changes = [];
    /** @type {string[]} */
    this.uses = []; // after free
    this.forget();
  }

  forget() {
    /** @type {Shown | null} */
    this.shown = null;
  }

  /**
   * @param {View} view
   * @param {View | null} before
   * @param {Session} session
   * @param {boolean} isStep
   */
  show(view, before, session, isStep) {
    this.shown = {view, before, session, isStep};
    this.showWhere();
  }

  // Where the run is, what comes next, and what changed.
  showWhere() {
    if (!this.shown) return;
    const {state} = this.shown.view;
    const hasNext = !state.ending || state.ending === "TRAP";
    const {statement = -1, action = 0} = this.next(state);
    this.action = hasNext ? actionAt(this.editor.deck, statement, action) : null;
    this.editor.point(this.action && {...this.action, statement});
    byId("where").textContent = state.line;
    byId("now").classList.toggle("trapped", state.ending === "TRAP");
    this.showNext(state.ending ? "At: " : "Next: ", this.action);
    this.showCard();
    this.tellChanges();
  }

  // What changed, and what of it used a block after it was freed.
  tellChanges() {
    const {shown} = this;
    if (!shown) return;
    const {view, before, session, isStep} = shown;
    const [from, to] = before && isUndone(shown) ? [view, before] : [before, view];
    const step = isStep && from ? stepFrom(from, session.reading) : null;
    this.changes = changesOf(from, to, session.input, step);
    this.uses = step && from ? usesIn(from, session) : [];
    this.showChanges(shown);
  }

  /**
   * @param {string} when
   * @param {{text: string, says: string} | null} action
   */
  showNext(when, action) {
    const next = action ? [when, make("code", {}, action.text), ` ${action.says}`] : [];
    byId("next").replaceChildren(...next);
    byId("next").title = action ? `${action.text} ${action.says}` : "";
  }

  // The card of what comes next, for windows in which the deck is out of sight.
  showCard() {
    const {action} = this;
    const isThere = action !== null && action.card >= 0;
    byId("card").hidden = !isThere;
    if (!isThere) return;
    const text = this.editor.lineOf(action.card);
    const number = make("i", {}, `${action.card + 1} `);
    const mark = make("b", {}, text.slice(action.from, action.to));
    byId("card").replaceChildren(number, text.slice(0, action.from), mark, text.slice(action.to));
    byId("card").scrollLeft = 0;
    const past = mark.getBoundingClientRect().right - byId("card").getBoundingClientRect().right;
    if (past > 0) byId("card").scrollLeft = past + BESIDE; // (what is marked comes into sight)
  }

  // What is said of the state, in a line.
  lineInWords() {
    return [byId("where").textContent, byId("changes").textContent].filter((it) => it).join(". ");
  }

  // What the group does that the cursor is in, while nothing is run.
  /** @param {import("./deck.js").Group | null} group */
  explain(group) {
    this.showNext("", group && {text: `(${group.text})`, says: meaningOf(group.elements, group.text)});
  }

  // Tells all of it to a screen reader.
  speak() {
    const {action, changes, shown} = this;
    if (!shown) return;
    const {state} = shown.view;
    const at = `Statement ${state.statement}, after ${count(state.steps, "step")}`;
    const where = state.ending ? state.line.replace("== ", "") : at;
    const next = action && !state.ending ? [`Next: ${action.text} ${action.says}`] : [];
    const what = isUndone(shown) ? "Undone" : "Changed";
    const used = this.uses.length ? [`Use after free: ${this.uses.join("; ")}`] : [];
    const changed = changes.length ? [`${what}: ${shortened(changes).join("; ")}`] : [];
    const all = [where, endingOf(shown.view, this.traps), ...used, ...next, ...changed];
    byId("spoken").textContent = all.filter((it) => it).join(". ");
  }

  /** @param {Shown} shown */
  showChanges(shown) {
    const {changes, uses} = this;
    const {before, view, isStep} = shown;
    const parts = shortened(changes).flatMap((it, index) => [index ? " · " : "", it]);
    const [was, is] = [before?.state.number ?? 0, view.state.number];
    const isFar = before !== null && !isStep && Math.abs(was - is) > 1;
    const since = isFar ? `since state ${withCommas(Math.min(was, is))}: ` : "";
    const undone = isFar ? `up to state ${withCommas(was)}: ` : "";
    const ending = endingOf(view, this.traps);
    byId("changes").replaceChildren(
      ...(uses.length ? [make("b", {class: "misuse"}, `Use after free: ${uses.join("; ")}`), " "] : []),
      ...(ending ? [make("b", {class: "ending"}, ending), parts.length ? " " : ""] : []),
      ...(
        parts.length ?
          [make("b", {}, isUndone(shown) ? "Undone: " : "Changed "), isUndone(shown) ? undone : since, ...parts] :
          []
      )
    );
    byId("changes").title = [...uses, ...changes].slice(0, 60).join("\n");
  }
}

// The uses after free of the step from a state on.
/**
 * @param {View} from
 * @param {Session} session
 */
function usesIn(from, {reading, chronicle}) {
  const spot = nextShown(reading, from.state);
  const operation = operationAt(reading, spot);
  const tests = spot.action === 0 ? reading.statements[spot.statement]?.tests ?? [] : [];
  const groups = operation ? [operation] : tests;
  return usesAfterFree(groups.map((it) => it.elements), from, chronicle);
}

// The operation that the next step from a state does, or null.
/**
 * @param {View} from
 * @param {import("./deck.js").Reading} reading
 */
function stepFrom({state}, reading) {
  return {operation: operationAt(reading, nextShown(reading, state))};
}

// Whether the state that is shown is before that with which it is compared.
/** @param {Shown} shown */
function isUndone({view, before}) {
  return before !== null && before.state.number > view.state.number;
}
