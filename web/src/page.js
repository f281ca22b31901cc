// The page: its parts, and what the reader does with them.

import {Answers} from "./answers.js";
import {Checker} from "./checker.js";
import {byId} from "./dom.js";
import {Editor} from "./editor.js";
import {Engine} from "./engine.js";
import {Keeper} from "./keep.js";
import {press} from "./keys.js";
import {Library} from "./library.js";
import {exercisePart} from "./links.js";
import {Manual} from "./manual.js";
import {OPTIONS} from "./options.js";
import {Panes} from "./panes.js";
import {Papers} from "./papers.js";
import {Pictures} from "./pictures.js";
import {Player} from "./player.js";
import {referenceOf} from "./reference.js";
import {Session, wordsOf} from "./session.js";
import {TaskMaker} from "./tasks.js";
import {Typing} from "./typing.js";
import {unpacked} from "./unpack.js";
import {Viewer} from "./viewer.js";

const LAST_STATE = 1_000_000_001;

class Page extends Typing {
  /**
   * The surveyor is an engine of its own, which reads runs while the other one answers.
   * @param {Engine} engine
   * @param {Engine} surveyor
   * @param {{examples: import("./library.js").Group[], traps: Record<string, string>,
   *   manual: {name: string, title: string, markup: string}[]}} texts
   */
  constructor(engine, surveyor, {examples, manual, traps}) {
    super();
    this.engine = engine;
    this.engine.changed = () => this.showBusy();
    this.surveyor = surveyor;
    this.editor = new Editor(
      {
        text: byId("deck"), under: byId("under"), gutter: byId("gutter"), ruler: byId("ruler"),
        cards: byId("cards")
      },
      (statement, runs) => this.markClicked(statement, runs)
    );
    /** @type {Viewer} */
    this.viewer = new Viewer(this.editor, {
      trouble: (error) => this.trouble(error),
      goTo: (number) => this.state(number),
      hide: (name) => this.hideBug(name),
      next: (state) => this.nextOf(state),
      openTables: () => this.panes.open("tables"),
    }, traps);
    this.makeTools();
    this.manual = new Manual(manual);
    this.library = new Library(this.desk(), examples);
    byId("reference").append(...referenceOf());
    this.listen();
  }

  // What has a task of its own, and of the page just what it needs for that.
  makeTools() {
    this.papers = new Papers({
      job: () => this.job(),
      ask: (words, input) => this.ask(words, input),
      words: (verb) => wordsOf(verb, this.job().options),
      exchanges: () => this.session?.exchanges ?? [],
    });
    this.checker = new Checker({
      editor: this.editor,
      check: (input) => this.ask(["check", "--long"], input),
      isBusy: () => this.isBusy,
      tell: (text) => this.tell(text),
    });
    this.player = new Player({
      step: () => this.advance(),
      begin: () => this.goTo((session) => session.view(0)),
      atEnd: () => Boolean(this.view?.state.ending),
      paused: () => this.playEnded(),
    });
    this.keeper = new Keeper({
      work: () => this.work(),
      refused: (why) => setTimeout(() => this.tell(why), 0), // (after what is said of a deck that is opened)
    });
    this.panes = new Panes(() => this.viewer.resized());
    this.pictures = new Pictures({
      drawing: () => this.viewer.drawing,
      view: () => this.view,
      says: () => this.viewer.story.lineInWords(),
      frameLink: () => this.library.frameLink(),
      tell: (text) => this.tell(text),
    });
    this.tasks = new TaskMaker({
      job: () => this.job(),
      printed: () => this.session?.printout?.printed ?? this.view?.output ?? "",
      open: (/** @type {any} */ task) => this.library.openTask(task),
      printoutOf: async (/** @type {string} */ deck, /** @type {string} */ input) => {
        const session = new Session((words, bytes) => this.ask(words, bytes), {...this.job(), deck, input});
        const {printed, ending} = await session.run();
        if (ending.ending === "DONE") return printed;
        throw new Error(`With a hidden input your own deck does not end by DONE: ${ending.line}`);
      },
      ask: (/** @type {string[]} */ words, /** @type {Uint8Array} */ input, /** @type {any} */ digest) =>
        this.ask(words, input, digest),
    });
    this.answers = new Answers({
      job: () => this.job(),
      exercise: () => this.library.exercise,
      find: (key) => this.library.find(key),
      ask: (words, input, digest) => this.ask(words, input, digest),
      tell: (text) => this.tell(text),
      open: (deck, exercise) => this.library.put({...exercise, deck}, null, exercise),
    });
  }

  // What the library may do with the page.
  /** @returns {import("./library.js").Desk} */
  desk() {
    return {
      job: () => this.job(),
      put: (job) => this.put(job),
      tell: (text) => this.tell(text),
      state: (number) => this.state(number),
      shown: () => this.view?.state.number ?? null,
      kinds: () => this.viewer.drawing.kinds.code,
      breakpoints: () => [...this.editor.breakpoints].sort((a, b) => a - b),
      setBreakpoints: (statements) => this.setBreakpoints(statements),
      lecture: (isOn) => this.panes.lecture(isOn),
      embed: () => this.panes.embed(),
      isLecture: () => this.panes.isLecture,
      keeper: this.keeper,
      verdict: (exercise) => this.answers.verdict(exercise, this.job().deck),
      handIn: (name) => this.answers.handIn(name),
    };
  }

  // What the reader has typed, with where they are in it.
  /** @returns {import("./keep.js").Work} */
  work() {
    return {
      ...this.job(),
      number: this.view?.state.number ?? null,
      breakpoints: [...this.editor.breakpoints],
      kinds: this.viewer.drawing.kinds.code,
      ...exercisePart(this.library.exercise),
      address: location.hash
    };
  }

  // Opens what the address says, else what was typed last, else the first deck. What was typed at this very address
  // is there again where the page is loaded again; where a link opens something else, it is among the last decks.
  async begin() {
    const {library, keeper} = this;
    const address = location.hash;
    if (isAgain() && keeper.work()?.address === address) {
      if (address.endsWith(";lecture")) this.panes.lecture(true);
      library.restore();
      return;
    }
    if (address.length > 1 && !address.endsWith(";embed")) keeper.list();
    if (!(await library.openLink()) && !library.restore()) library.welcome();
  }

  // ---- Events

  listen() {
    const on = (/** @type {string} */ id, /** @type {string} */ event, /** @type {() => void} */ what) =>
      byId(id).addEventListener(event, what);
    const buttons = {
      run: () => this.run(),
      stop: () => this.stop(),
      start: () => this.state(0),
      back: () => this.back(),
      play: () => this.play(),
      step: () => this.step(),
      end: () => this.end(),
      statement: () => this.statement(),
      over: () => this.over(),
      out: () => this.out(),
      "change-back": () => this.change(false),
      "change-next": () => this.change(true),
      "mark-back": () => this.breakpointBefore(),
      "mark-next": () => this.nextBreakpoint(),
      "to-cursor": () => this.runTo(this.editor.statementAtCursor()),
      open: () => byId("file").click(),
      save: () => this.library.saveFile(),
      link: () => this.library.makeLink(),
      papers: () => this.papers.open(this.papers.tab),
      task: () => this.tasks.open(),
      lecture: () => this.panes.lecture(!this.panes.isLecture),
      "leave-lecture": () => this.panes.lecture(false),
      manual: () => this.manual.toggle(),
      help: () => byId("help-dialog").showModal(),
    };
    for (const [id, what] of Object.entries(buttons))
      on(id, "click", () => byId(id).getAttribute("aria-disabled") !== "true" && what());
    on("deck", "input", () => this.changed());
    on("input", "input", () => this.inputChanged());
    for (const name of OPTIONS) on(name, "change", () => this.optionChanged());
    on("every-step", "change", () => this.viewer.story.showWhere());
    on("slider", "input", () => this.state(Number(byId("slider").value)));
    on("number", "change", () => this.numberTyped());
    on("example", "change", () => this.library.chooseExample(byId("example").value));
    on("file", "change", () => this.fileChosen());
    this.listenToWindow();
  }

  listenToWindow() {
    document.addEventListener("keydown", (event) => press(this, event));
    document.addEventListener("selectionchange", () => this.explainCursor());
    document.addEventListener("click", (event) => {
      for (const id of ["options", "share"])
        if (event.target instanceof Node && !byId(id).contains(event.target)) byId(id).open = false;
    });
    window.addEventListener("beforeprint", () => this.editor.drawCards());
    window.addEventListener("hashchange", () => this.library.openLink());
    window.addEventListener("beforeunload", (event) => {
      if (this.library.isChanged) event.preventDefault();
    });
    for (const kind of /** @type {const} */ (["dragover", "drop"]))
      document.addEventListener(kind, (event) => this.dragged(event));
  }

  // A file that is dropped is opened. A text goes into the box under it, as everywhere, and elsewhere does nothing.
  /** @param {DragEvent} event */
  dragged(event) {
    const isFile = event.dataTransfer?.types.includes("Files");
    const isOverBox = event.target instanceof Element && event.target.matches("textarea, input");
    if (!isFile && isOverBox) return;
    event.preventDefault();
    if (event.type === "drop") this.openFile(event.dataTransfer?.files[0]);
  }

  numberTyped() {
    const number = Math.floor(Number(byId("number").value) || 0);
    return this.state(Math.max(0, Math.min(LAST_STATE, number)));
  }

  /** @param {File | null | undefined} file */
  openFile(file) {
    if (file && this.library.mayLeave()) this.library.openFile(file);
  }

  fileChosen() {
    this.openFile(byId("file").files?.[0]);
    byId("file").value = ""; // (so that the same one can be chosen again)
  }
}

// Whether the page is loaded again, or reached by going back, and no link was followed.
function isAgain() {
  const [way] = /** @type {PerformanceNavigationTiming[]} */ (performance.getEntriesByType("navigation"));
  return way?.type === "reload" || way?.type === "back_forward";
}

async function begin() {
  const {worker, examples, manual, traps} = window.l6Texts;
  const bytes = await unpacked(byId("module").textContent);
  const engine = new Engine(await WebAssembly.compile(bytes), worker);
  const page = new Page(engine, new Engine(engine.module, worker), {examples, manual, traps});
  window.l6 = page; // (for tests, and for whoever looks inside)
  await page.begin();
  document.body.dataset.ready = "yes";
}

begin().catch((error) => {
  byId("run-note").textContent =
    `The page can't begin: ${error.message}. It needs a browser of 2023 or later.`;
  document.body.dataset.ready = "no";
});
