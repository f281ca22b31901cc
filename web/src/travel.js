// What the reader asks for in a run: to go on and back, by steps, statements, calls, changes and breakpoints.

import {Core} from "./core.js";
import {disable} from "./controls.js";
import {Values} from "./values.js";
import {count, withCommas} from "./word.js";

const SHORT_RUN = 2_000_000; // steps of a run that is made ahead, to know how many states there are
const LARGE_STATE = 1_000_000; // characters of answers from which on the next states are asked for ahead
const AHEAD = 10;  // states that are asked for ahead, if so many can be kept
const WORKERS = 3; // that ask for them at the same time

/** @typedef {import("./session.js").Session} Session */
/** @typedef {import("./view.js").View} View */
/** @typedef {{view: View, before?: View, isStep?: boolean}} Step */
/** @typedef {View | Step | null} Found */
/** @typedef {(session: Session, at: number) => Found | Promise<Found>} Find */

export class Travel extends Core {
  // Goes to the end of the run.
  run() {
    this.pause();
    return this.act(async (session) => {
      const {ending, milliseconds} = await session.run();
      const told = this.told(session); // (meanwhile the state is asked for)
      const view = await session.view(ending.number);
      await told;
      if (session !== this.session) return; // (the deck was changed meanwhile)
      this.show(view, null);
      this.reveal(this.library.isTask ? "exercise" : view.store.blocks ? "board" : "printed");
      this.tell(`${count(ending.steps, "step")} in ${
        milliseconds < 10 ? milliseconds.toFixed(1) : withCommas(Math.round(milliseconds))} ms`);
    });
  }

  // Goes to a state: `find` has the session and the number of the state that is shown, and answers a view; or
  // a view and that with which it is compared, and whether it is one step from there.
  /** @param {Find} find */
  goTo(find) {
    return this.act(async (session) => {
      if (session.options.steps <= SHORT_RUN) await session.run();
      const told = this.told(session);
      const shown = this.view ?? (await session.view(0));
      const found = await find(session, shown.state.number);
      await told;
      if (session !== this.session || !found) return; // (the deck was changed meanwhile)
      /** @type {Step} */
      const {view, before = shown, isStep} = "state" in found ? {view: found} : found;
      const isNear = Math.abs(view.state.number - before.state.number) <= 1;
      const isBack = view.state.number < before.state.number;
      this.show(view, this.view || isNear || isStep ? before : null, isStep ?? isNear);
      this.engine.most = session.size > LARGE_STATE ? WORKERS : 1;
      if (this.engine.most > 1) setTimeout(() => this.foresee(session, view.state.number, isBack), 0);
    });
  }

  /**
   * Of very large states the next ones are asked for while the reader looks at this one, so that steps that follow
   * at once do not wait for one another. Each worker takes one after another, as long as this state is shown: what
   * the reader asks for meanwhile waits for no more than that.
   * @param {Session} session
   * @param {number} number
   * @param {boolean} isBack
   */
  async foresee(session, number, isBack) {
    const {view} = this;
    const isShown = () => session === this.session && view === this.view && !this.player.isPlaying;
    if (view?.state.number !== number || !isShown()) return;
    this.foreseeing++;
    try {
      /** @type {number[]} */
      const wanted = [];
      const most = Math.min(AHEAD, session.roomBeside(view));
      for (let at = number; wanted.length < most; wanted.push(at))
        at = isBack ? await session.steps.back(at) : await session.steps.on(at);
      const inTurn = async () => {
        while (wanted.length && isShown()) await session.view(wanted.shift() ?? number);
      };
      await Promise.all(Array.from({length: WORKERS}, inTurn));
    } catch {
      // (it is asked for again where it is wanted)
    }
    this.foreseeing--;
    this.showBusy();
  }

  // As `goTo`, asked for by the reader: what plays is paused.
  /** @param {Find} find */
  leap(find) {
    this.pause();
    return this.goTo(find);
  }

  // Goes on by a step that shows something, or by any step if the reader wants that.
  advance() {
    return this.goTo(async (session, at) => {
      const number = this.stopsAtEvery ? at + 1 : await session.steps.on(at);
      return {view: await session.view(number), isStep: true};
    });
  }

  step() {
    this.pause();
    return this.advance();
  }

  back() {
    return this.leap(async (session, at) => {
      const number = this.stopsAtEvery ? Math.max(0, at - 1) : await session.steps.back(at);
      return {view: await session.view(number), isStep: true};
    });
  }

  /** @param {number} number */
  state(number) {
    return this.leap(async (session) => {
      const view = await session.view(number);
      const {number: last} = view.state;
      if (number > last)
        this.tell(`There is no state ${withCommas(number)}: the last one is ${withCommas(last)}.`);
      return view;
    });
  }

  end() {
    return this.leap(async (session) => {
      return session.view((await session.run()).ending.number);
    });
  }

  statement() {
    return this.leap(async (session, at) => session.view(await session.steps.statement(at)));
  }

  over() {
    return this.leap(async (session, at) => session.view(await session.steps.over(at)));
  }

  out() {
    return this.leap(async (session, at) => {
      if (this.view?.amounts.returns) return session.view(await session.steps.out(at));
      this.tell("No call waits for its return here.");
      return null;
    });
  }

  // Goes to the step that changed what the reader has chosen: the one before, or the next.
  /** @param {boolean} isForward */
  change(isForward) {
    const {watched} = this.viewer;
    this.pause();
    if (!watched) return this.tell("Choose what is to be followed: click a bug or a field, or type a chain.");
    return this.leap(async (session, at) => {
      const number = await session.values.change(watched, at, isForward);
      if (number !== null) {
        const [before, view] = [await session.view(number - 1), await session.view(number)];
        return {view, before, isStep: true};
      }
      this.tell(`${Values.nameOf(watched)} does not change ${isForward ? "any more" : "before this state"}.`);
      return null;
    });
  }

  nextBreakpoint() {
    return this.withBreakpoints((session, at, breakpoints) => session.go(at, breakpoints));
  }

  breakpointBefore() {
    return this.withBreakpoints((session, at, breakpoints) => session.goBack(at, breakpoints));
  }

  /** @param {(session: Session, at: number, breakpoints: number[]) => Found | Promise<Found>} find */
  withBreakpoints(find) {
    const {breakpoints, deck} = this.editor;
    const known = [...breakpoints].filter((it) => it <= deck.statements.length).sort((a, b) => a - b);
    if (!known.length) return this.tell("No statement has a breakpoint: click the number of one.");
    return this.leap((session, at) => find(session, at, known));
  }

  /** @param {number} statement */
  runTo(statement) {
    return this.leap((session, at) => session.go(at, [statement]));
  }

  /**
   * @param {number} statement
   * @param {boolean} runs
   */
  markClicked(statement, runs) {
    this.pause();
    return runs ? this.runTo(statement) : this.toggle(statement);
  }

  /** @param {number} statement */
  toggle(statement) {
    const {breakpoints} = this.editor;
    if (!breakpoints.delete(statement)) breakpoints.add(statement);
    this.editor.draw();
    this.tell(
      `statement ${statement} has ${breakpoints.has(statement) ? "a breakpoint" : "no breakpoint any more"}`
    );
  }

  /** @param {number[]} statements */
  setBreakpoints(statements) {
    this.editor.breakpoints = new Set(statements);
    this.editor.draw();
  }

  // Sets a breakpoint at the statement where the run is.
  markHere() {
    if (this.view?.state.statement !== undefined) this.toggle(this.view.state.statement);
  }

  // Whether there is something to stop. (What takes a moment, as the deck that is assembled while it is
  // typed, is nothing.)
  get isRunning() {
    return this.isBusy || this.player.isPlaying || document.body.classList.contains("busy");
  }

  play() {
    this.player.toggle();
    if (this.player.isPlaying) disable("stop", false);
  }

  // While a run plays nothing is spoken: its last state is, once it ends.
  playEnded() {
    if (!this.isBusy && !this.engine.isBusy) disable("stop", true);
    this.viewer.story.speak();
  }

  stop() {
    this.pause();
    this.waiting = null;
    if (this.engine.isBusy) this.engine.stop();
  }

  // Hides a bug that leads to a block by chance, or shows it again.
  /** @param {string} name */
  hideBug(name) {
    return this.leap(async (session, at) => {
      session.hide(name);
      return session.view(at);
    });
  }
}
