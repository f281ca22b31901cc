// What all of the page is built on: its job and the session of it, what is done one after another, and what is
// told and shown.

import {Chronicle} from "./chronicle.js";
import {clearNumber, disable, showNumber} from "./controls.js";
import {readDeck} from "./deck.js";
import {byId} from "./dom.js";
import {Stopped} from "./engine.js";
import {memoryChosen, optionsChosen, sayWrongOptions} from "./options.js";
import {Refused, Session} from "./session.js";
import {isSilent, nextShown} from "./steps.js";
import {errorOf} from "./thrown.js";

const RUNNING = "running ..";
const MOST_WAIT = 700;  // milliseconds that a first picture waits for the run to be read

/** @typedef {import("./view.js").View} View */
/** @typedef {import("./transcript.js").State} State */

// A part of the page that is made later, by page.js.
/** @returns {any} */
function later() {
  return null;
}

export class Core {
  constructor() {
    /** @type {Session | null} */
    this.session = null;
    this.sessionKey = "";
    /** @type {Promise<void> | null} */
    this.telling = null; // the run that is being read
    /** @type {((session: Session) => unknown) | null} */
    this.waiting = null; // what is to be done once the engine has answered
    this.isBusy = false;
    this.foreseeing = 0;       // how often states are being asked for ahead
    this.isFilling = false;    // whether the page itself puts a deck into its box
    this.kindsWanted = "";     // what fields hold, as a link says
    this.noteBefore = "";
    /** @type {ReturnType<typeof setTimeout> | undefined} */
    this.busyTimer = undefined;
    /** @type {ReturnType<typeof setTimeout> | undefined} */
    this.readTimer = undefined;
    /** @type {string | null} */
    this.readText = null; // the deck as it was read last
    // (the parts of the page, which page.js makes)
    /** @type {import("./engine.js").Engine} */
    this.engine = later();
    /** @type {import("./engine.js").Engine} */
    this.surveyor = later();
    /** @type {import("./editor.js").Editor} */
    this.editor = later();
    /** @type {import("./viewer.js").Viewer} */
    this.viewer = later();
    /** @type {import("./library.js").Library} */
    this.library = later();
    /** @type {import("./player.js").Player} */
    this.player = later();
    /** @type {import("./panes.js").Panes} */
    this.panes = later();
    /** @type {import("./papers.js").Papers} */
    this.papers = later();
    /** @type {import("./tasks.js").TaskMaker} */
    this.tasks = later();
    /** @type {import("./answers.js").Answers} */
    this.answers = later();
    /** @type {import("./checker.js").Checker} */
    this.checker = later();
    /** @type {import("./keep.js").Keeper} */
    this.keeper = later();
    /** @type {import("./pictures.js").Pictures} */
    this.pictures = later();
  }

  // ---- The job

  job() {
    return {deck: byId("deck").value, input: byId("input").value, options: optionsChosen()};
  }

  /**
   * @param {string[]} words
   * @param {Uint8Array} input
   * @param {object | null} digest
   */
  ask(words, input, digest = null) {
    return this.engine.run(words, input, memoryChosen(), digest);
  }

  // The session of the job as it is now; another one where the deck, the input or an option was changed.
  current() {
    const wrong = sayWrongOptions();
    if (wrong) throw new Error(wrong);
    const now = this.job();
    const key = [now.deck, now.input, ...Object.values(now.options)].join("\u0000");
    if (!this.session || this.sessionKey !== key) {
      this.readDeck();
      /** @type {import("./session.js").Ask} */
      const ask = (words, input, digest = null) => this.ask(words, input, digest);
      this.session = new Session(ask, now, this.editor.deck);
      this.sessionKey = key;
      this.telling = null;
      if (this.surveyor.isBusy) this.surveyor.stop();
      this.viewer.forget();
      this.viewer.drawing.kinds.code = this.kindsWanted;
    }
    return this.session;
  }

  // Waits a moment until the run is read, so that its first picture is the lasting one. A large run is shown
  // at once, and its drawing made again once it is read.
  /** @param {Session} session */
  async told(session) {
    this.telling ??= this.survey(session);
    if (this.viewer.session === session) return; // (there is a picture)
    await Promise.race([this.telling, new Promise((resolve) => setTimeout(resolve, MOST_WAIT))]);
  }

  /** @param {Session} session */
  async survey(session) {
    try {
      const told = await this.surveyor.survey({...session.survey, limit: memoryChosen()});
      session.chronicle = new Chronicle(told);
      if (session === this.session) this.viewer.learned(session);
    } catch {
      session.chronicle = null; // (each state is then drawn by itself)
    }
  }

  // ---- What the reader asks for

  // Has something done with the session, if nothing else is. Else it is done next, in place of what waited.
  /** @param {(session: Session) => unknown} what */
  async act(what) {
    if (this.isBusy) {
      this.waiting = what;
      return;
    }
    this.setBusy(true);
    try {
      await what(this.current());
    } catch (error) {
      this.trouble(error);
    }
    this.setBusy(false);
    const next = this.waiting;
    this.waiting = null;
    if (next) await this.act(next);
  }

  get isForeseeing() {
    return this.foreseeing > 0;
  }

  /** @param {boolean} isBusy */
  setBusy(isBusy) {
    this.isBusy = isBusy;
    this.showBusy();
  }

  // Whether something is done is shown where it takes longer than a moment; then it can be stopped.
  showBusy() {
    if (!this.isBusy && (!this.engine.isBusy || this.isForeseeing)) {
      clearTimeout(this.busyTimer);
      this.busyTimer = undefined;
      disable("stop", !this.player.isPlaying);
      document.body.classList.remove("busy");
      if (byId("run-note").textContent === RUNNING) this.note(this.noteBefore);
    } else
      this.busyTimer ??= setTimeout(() => this.tellBusy(), 150);
  }

  tellBusy() {
    disable("stop", false);
    document.body.classList.add("busy");
    this.noteBefore = byId("run-note").textContent ?? ""; // (it comes back)
    this.note(RUNNING);
  }

  /** @param {unknown} error */
  trouble(error) {
    this.pause();
    if (error instanceof Stopped) {
      this.tell("stopped");
    } else if (error instanceof Refused) {
      this.checker.refused(error.message);
      this.clear(error.message);
      this.reveal("fault");
    } else {
      const {message} = errorOf(error);
      this.tell(message);
      this.clear(message);
    }
  }

  // ---- What is shown

  get view() {
    return this.viewer.view;
  }

  // Where the run is in a state that has a next step: the step that is shown next.
  /**
   * @param {State} state
   * @returns {import("./steps.js").Place}
   */
  nextOf(state) {
    const {deck} = this.editor;
    if (state.ending || this.stopsAtEvery || !isSilent(deck, state)) return state;
    return nextShown(deck, state);
  }

  /**
   * @param {View} view
   * @param {View | null} before
   * @param {boolean} isStep
   */
  show(view, before, isStep = false) {
    this.checker.ran();
    const {session} = this;
    if (!session) return;
    this.viewer.show(view, before, session, isStep);
    if (this.library.hasWork) this.keeper.typed(); // (with the place)
    if (!this.player.isPlaying) this.viewer.story.speak();
    showNumber(view.state.number, session.last);
    this.library.checkExercise(view, session);
  }

  // Shows nothing of a run, and says why not.
  /** @param {string} why */
  clear(why) {
    this.viewer.clear(why);
    clearNumber();
  }

  /** @param {string} text */
  tell(text) {
    this.note(text);
    byId("spoken").textContent = text;
  }

  // Shows a note for a moment.
  /** @param {string} text */
  note(text) {
    const note = byId("run-note");
    note.textContent = text;
    note.style.animationName = text === RUNNING ? "none" : "";
    for (const animation of note.getAnimations()) {
      animation.cancel();
      animation.play();
    }
  }

  // Brings what a run has answered into sight, where all is in one column.
  /** @param {string} id */
  reveal(id) {
    if (this.panes.isColumn) byId(id).scrollIntoView({block: "nearest"});
  }

  get stopsAtEvery() {
    return byId("every-step").checked;
  }

  pause() {
    this.player.pause();
  }

  readDeck() {
    clearTimeout(this.readTimer);
    const text = byId("deck").value;
    if (this.readText === text) return;
    this.readText = text;
    this.editor.read(readDeck(text));
    this.library.deckRead(this.editor.deck);
  }
}
