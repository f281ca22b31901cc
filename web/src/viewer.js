// Shows a view of a run: where it is, what changed, what is printed, the blocks, the store, and the tables.

import {openTree, showCallTree, showFrames} from "./calls.js";
import {follow} from "./chain.js";
import {byId, make} from "./dom.js";
import {Drawing} from "./drawing.js";
import {Stopped} from "./engine.js";
import {History} from "./history.js";
import {Legend} from "./legend.js";
import {bugCards, showBugs, showBugStrip, showChain, showFields, showWords} from "./panels.js";
import {showPrinted} from "./printed.js";
import {hasStacks} from "./steps.js";
import {Story} from "./story.js";
import {Strip} from "./strip.js";
import {showTrap} from "./trap.js";
import {Values} from "./values.js";

/** @typedef {import("./view.js").View} View */
/** @typedef {import("./session.js").Session} Session */
/** @typedef {import("./values.js").Watched} Watched */
/** @typedef {import("./chain.js").ChainStep} ChainStep */
/** @typedef {import("./chain.js").ChainTrap} ChainTrap */
/**
 * What the reader may ask for in what is shown: to go to a state, to hide a bug, to open the tables; where a
 * question to the debugger fails; and the step that is shown next.
 * @typedef {{goTo: (number: number) => void, hide: (name: string) => void, openTables: () => void,
 *   trouble: (error: unknown) => void,
 *   next: (state: import("./transcript.js").State) => import("./steps.js").Place}} Ask
 */

/** @type {import("./chain.js").Followed} */
const NOWHERE = {
  steps: []
}; // where no chain leads

export class Viewer {
  /**
   * The editor has the deck. `ask` has what the reader may ask for in what is shown: `goTo` a state, `hide` a
   * bug, and `trouble` where a question to the debugger fails; and `next`, the step that is shown next. `traps`
   * says of each trap, by its number, when it happens.
   * @param {import("./editor.js").Editor} editor
   * @param {Ask} ask
   * @param {Record<string, string>} traps
   */
  constructor(editor, ask, traps) {
    this.editor = editor;
    this.ask = ask;
    /** @type {Session | null} */
    this.session = null;
    /** @type {View | null} */
    this.view = null; // that is shown
    /** @type {View | null} */
    this.before = null; // that with which it is compared
    /** @type {number | null} */
    this.chosen = null; // the place of a block
    /** @type {Watched | null} */
    this.watched = null; // whose changes the reader follows
    /** @type {{steps?: ChainStep[], trap?: ChainTrap} | null} */
    this.followed = null; // the chain that is typed, and where it leads
    /** @type {{steps?: ChainStep[], trap?: ChainTrap} | null} */
    this.trapTold = null; // the chain that trapped
    /** @type {ReturnType<typeof setTimeout> | undefined} */
    this.resizeTimer = undefined;
    const choose = (/** @type {number} */ place) => this.chooseBlock(place);
    const told = (/** @type {string[]} */ warnings, /** @type {string[]} */ notes) =>
      this.tellDrawing(warnings, notes);
    this.drawing = new Drawing(byId("drawing"), {choose, hide: (name) => this.ask.hide(name), told});
    this.legend = new Legend(this.drawing, {changed: () => this.redraw(), show: (name) => this.ask.hide(name)});
    const parts = {
      text: byId("store-text"),
      units: byId("units"),
      strip: byId("strip"),
      levels: byId("levels"),
      levelsText: byId("levels-text"),
      bySize: byId("by-size"),
      unitBox: byId("unit"),
    };
    this.strip = new Strip(parts, choose);
    this.history = new History(byId("history"), byId("over-states"), {
      goTo: (number) => this.ask.goTo(number),
      trouble: (error) => this.failed(error),
    });
    this.story = new Story(editor, (state) => this.ask.next(state), traps);
    this.listen();
  }

  listen() {
    byId("place").addEventListener("input", () => this.placeTyped());
    byId("chain").addEventListener("input", () => this.chainTyped());
    byId("detail").addEventListener("change", () => {
      this.drawing.detail = /** @type {any} */ (byId("detail").value);
      this.drawing.replan();
      this.redraw();
    });
    byId("tidy").addEventListener("click", () => this.tidy());
    byId("show-calls").addEventListener("click", () => {
      openTree(byId("call-tree").hidden);
      this.showCalls();
    });
    byId("follow").addEventListener("change", () => {
      this.drawing.camera.follows = byId("follow").checked;
    });
    new ResizeObserver(() => this.resized()).observe(byId("drawing"));
    matchMedia("(prefers-color-scheme: dark)").addEventListener("change", () => this.strip.draw());
  }

  // Forgets what belongs to another run: colours, directions, and what was chosen.
  forget() {
    this.view = this.before = this.session = null;
    this.drawing.forget();
    this.showTidy();
    this.strip.latest = undefined;
  }

  // Begins with another deck: nothing of it is chosen.
  begin() {
    this.strip.forgetUnit();
    this.chosen = this.watched = null;
    byId("place").value = byId("chain").value = "";
    this.showWatched();
  }

  /**
   * Shows a view; what is another than before is marked.
   * @param {View} view
   * @param {View | null} before
   * @param {Session} session
   * @param {boolean} isStep
   */
  show(view, before, session, isStep) {
    const old = before && before.state.number !== view.state.number ? before : null;
    this.view = view;
    this.before = old;
    this.session = session;
    this.drawing.learn(session.reading, session.chronicle);
    byId("board").classList.toggle("vacant", view.store.blocks === 0);
    byId("empty").replaceChildren(...(view.store.used ? [] : [bugCards(view, old)]));
    this.showFrames(view, session);
    this.strip.show(view, old); // (before the drawing, whose frame is what the others leave)
    this.drawing.show(view, old);
    this.legend.show(session.hidden);
    this.history.show(view, session);
    this.showTables(view, old);
    this.showDetails();
    showPrinted(view, old, session);
    this.story.show(view, old, session, isStep);
    this.showTrap(view, session);
  }

  /**
   * @param {View} view
   * @param {View | null} before
   */
  showTables(view, before) {
    const choose = {
      block: (/** @type {number} */ place) => this.chooseBlock(place),
      watch: (/** @type {Watched} */ watched) => this.watch(watched),
      colourOf: (/** @type {string} */ name) => this.drawing.colourOf(name),
    };
    showBugs(byId("bugs"), byId("amounts"), view, before, choose);
    showBugStrip(byId("bug-strip"), view, before, choose.watch);
    showFields(byId("fields"), view, before, choose);
  }

  /**
   * Why a run has trapped, with values and what happened before; the chain that could not be followed is lit.
   * @param {View} view
   * @param {Session} session
   */
  async showTrap(view, session) {
    if (this.trapTold) {
      this.trapTold = null;
      this.light();
    }
    byId("trap").hidden = true;
    byId("trap").replaceChildren();
    if (view.state.ending !== "TRAP") return;
    try {
      const told = await showTrap(byId("trap"), view, session, (number) => this.ask.goTo(number));
      if (this.view !== view || !told) return;
      byId("trap").hidden = false;
      this.trapTold = told;
      this.light();
      byId("spoken").textContent += `. ${byId("trap").textContent}`;
    } catch (error) {
      this.failed(error);
    }
  }

  /**
   * The calls that wait, and what is saved. Where a deck has such, their column stays, or the drawing would jump.
   * @param {View} view
   * @param {Session} session
   */
  async showFrames(view, session) {
    const {returns, contents, definitions} = view.amounts;
    byId("calls").hidden = !hasStacks(session.reading) && returns + contents + definitions === 0;
    this.showCalls();
    if (byId("calls").hidden) return;
    try {
      const frames = await session.frames.of(view);
      if (this.view !== view) return;
      const choose = {
        goTo: (/** @type {number} */ number) => this.ask.goTo(number),
        block: (/** @type {number} */ place) => this.chooseBlock(place),
      };
      showFrames(byId("frames"), frames, view, session.reading, choose);
    } catch (error) {
      this.failed(error);
    }
  }

  // The tree of calls, while it is open.
  showCalls() {
    const {view, session} = this;
    const isOpen = !byId("call-tree").hidden && !byId("calls").hidden;
    openTree(isOpen);
    if (!isOpen || !view) return;
    const chronicle = session?.chronicle;
    const [calls, last] = [chronicle?.calls ?? [], chronicle?.callsUntil ?? null];
    showCallTree(byId("call-tree"), calls, last, view.state.number, (number) => this.ask.goTo(number));
  }

  // What was asked for beside the view has failed. (It may have been stopped, which is said elsewhere.)
  /** @param {unknown} error */
  failed(error) {
    if (!(error instanceof Stopped)) this.ask.trouble(error);
  }

  // The run was read meanwhile: the drawing is made of all of it.
  /** @param {Session} session */
  learned(session) {
    if (this.session !== session || !this.view) return;
    this.drawing.learn(session.reading, session.chronicle);
    this.redraw();
    this.showCalls();
    this.story.tellChanges();
  }

  tidy() {
    this.drawing.tidy();
    this.showTidy();
    this.redraw();
  }

  showTidy() {
    byId("tidy").setAttribute("aria-pressed", String(this.drawing.isTidy));
  }

  /**
   * What is said of the drawing: first pointers that dangle, then what one does not see.
   * @param {string[]} warnings
   * @param {string[]} notes
   */
  tellDrawing(warnings, notes) {
    const texts = [...warnings, ...notes];
    const more = texts.length > 1 ? ` (and ${texts.length - 1} more)` : "";
    const text = texts.length ? `${warnings.length ? "⚠ " : ""}${texts[0]}${more}` : "";
    if (byId("warnings").textContent !== text) byId("warnings").textContent = text;
    byId("warnings").title = texts.join("\n");
    byId("warnings").classList.toggle("note", !warnings.length);
  }

  redraw() {
    if (!this.view) return;
    this.drawing.show(this.view, this.before);
    this.legend.show(this.session?.hidden ?? []);
    this.showDetails();
  }

  /** @param {number} place */
  async chooseBlock(place) {
    this.ask.openTables();
    this.chosen = place;
    byId("place").value = String(place ?? "");
    byId("chain").value = "";
    await this.showDetails();
  }

  // The words of the block that is chosen, and what the chain leads to.
  /** @returns {Promise<void>} */
  async showDetails() {
    const {view, session, before} = this;
    if (!view || !session) return undefined;
    const chain = byId("chain").value.trim();
    try {
      const {missing, steps, trap, wrong} = chain ? follow(chain, view) : NOWHERE;
      if (missing !== undefined) {
        await session.addBlock(view, missing);
        return this.view === view ? this.showDetails() : undefined;
      }
      showChain(byId("led"), byId("answer"), {steps, trap, wrong}, view, (place) => this.chooseBlock(place));
      this.followed = chain ? {steps: steps ?? [], trap} : null;
      this.light();
      if (this.chosen !== null && view.store.block(this.chosen)) await session.addBlock(view, this.chosen);
    } catch (error) {
      return this.failed(error);
    }
    if (this.view !== view) return undefined;
    this.drawing.mark(this.chosen);
    this.strip.mark(this.chosen);
    const choose = {
      colourOf: (/** @type {string} */ name) => this.drawing.colourOf(name),
      watch: (/** @type {Watched} */ watched) => this.watch(watched),
    };
    return showWords(byId("words"), this.chosen, view, before, choose);
  }

  // Lights the chain that is typed, or else that which trapped.
  light() {
    const lit = this.followed ?? this.trapTold;
    this.drawing.light(lit?.steps ?? [], lit?.trap);
  }

  placeTyped() {
    const value = byId("place").value;
    this.chosen = value === "" ? null : Number(value);
    byId("chain").value = "";
    this.showDetails();
  }

  // A chain is followed in the drawing, and through the run.
  chainTyped() {
    const chain = byId("chain").value.trim().toUpperCase();
    const isChain = /^[A-Z][A-Z0-9]{0,5}$/.test(chain);
    this.watched = isChain ? {chain} : null;
    this.showWatched();
    this.showDetails();
  }

  // Follows a bug, a field of a block, or a definition through the run: its changes can be gone to.
  /** @param {Watched} watched */
  watch(watched) {
    this.watched = watched;
    this.showWatched();
  }

  showWatched() {
    const {watched} = this;
    byId("watched").textContent = watched ? `of ${Values.nameOf(watched)}` : "";
    for (const id of ["change-back", "change-next"]) byId(id).setAttribute("aria-disabled", String(!watched));
    if (this.view) this.showTables(this.view, this.before);
  }

  // Draws all again where the window has another size.
  resized() {
    clearTimeout(this.resizeTimer);
    this.resizeTimer = setTimeout(() => {
      this.editor.measure();
      this.editor.revealSpot();
      if (!this.view) return;
      this.drawing.resized();
      this.strip.draw();
    }, 120);
  }

  // Shows nothing of a run, and says why not.
  /** @param {string} why */
  clear(why) {
    this.view = this.before = this.followed = this.trapTold = null;
    this.story.forget();
    this.drawing.empty(why);
    this.legend.forget();
    byId("papers-below").classList.toggle("blank", !byId("input").value);
    this.strip.forget();
    this.history.forget();
    this.editor.point(null);
    for (const id of
           ["next", "changes", "bugs", "bug-strip", "fields", "words", "led", "answer", "printed", "printed-strip",
            "frames", "trap"])
      byId(id).replaceChildren();
    for (const id of ["card", "calls", "call-tree", "trap"]) byId(id).hidden = true;
    byId("board").classList.add("vacant");
    byId("amounts").textContent = "";
    byId("where").textContent = "Not run yet";
    byId("now").classList.remove("trapped");
    byId("empty").replaceChildren(make(
      "div", {}, ...(why ? [make("b", {}, why), make("br")] : []),
      "Run goes to the end. Step goes on by one step."
    ));
  }
}
