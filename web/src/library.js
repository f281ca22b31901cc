// Where decks come from and go to: the menu of examples and exercises, files, and links.

import {handInForm} from "./answers.js";
import {byId, make} from "./dom.js";
import {save} from "./download.js";
import {readFile} from "./files.js";
import {job} from "./job.js";
import {titleOf} from "./keep.js";
import {exercisePart, linkOf, readLink, taskWith} from "./links.js";
import {areOptionsOf} from "./options.js";
import {differenceOf} from "./printouts.js";
import {Solved} from "./solved.js";
import {withCommas} from "./word.js";

const LAST = "last:"; // before the number of one of the reader's last decks
const TO_BEGIN = "Beside this is what it is to print. Type, and press Run.";

/** @typedef {import("./session.js").Session} Session */
/** @typedef {import("./view.js").View} View */
/** @typedef {import("./deck.js").Reading} Reading */
/** @typedef {import("./keep.js").Work} Work */
/** @typedef {import("./verify.js").Task} Task */
/**
 * A deck that is put into the page, with what may belong to it.
 * @typedef {{deck: string, input?: string, commands?: string, options?: object, breakpoints?: number[],
 *   bySize?: boolean, kinds?: string}} Own
 *
 * An exercise, which has a key, or a task.
 * @typedef {Task & {key?: string, task: string, options?: object}} Exercise
 * @typedef {Own & {key: string, title: string, task?: string, printout?: string}} Example
 * @typedef {{name: string, items: Example[]}} Group of the menu
 *
 * What the library needs of the page: the job, what is shown, and what may be done with it.
 * @typedef {{job: () => import("./session.js").Job, put: (own: Own) => void, tell: (text: string) => void,
 *   state: (number: number) => Promise<void>, shown: () => number | null, kinds: () => string,
 *   breakpoints: () => number[], setBreakpoints: (statements: number[]) => void,
 *   lecture: (isOn: boolean) => void, embed: () => void, isLecture: () => boolean,
 *   keeper: import("./keep.js").Keeper, verdict: (exercise: Exercise) => Promise<string>,
 *   handIn: (name: string) => void}} Desk
 */

export class Library {
  /**
   * `desk` is what of the page the library may use: its job, its messages, its states.
   * @param {Desk} desk
   * @param {Group[]} examples
   */
  constructor(desk, examples) {
    this.desk = desk;
    this.examples = examples;
    /** @type {Example | null} */
    this.example = null; // that was opened
    /** @type {Exercise | null} */
    this.exercise = null; // one of the examples, or one that came with a link or a file
    this.isChanged = false; // whether the deck or the input was changed since it was opened, saved or linked
    this.hasWork = false;   // and whether since it was opened
    this.solved = new Solved();
    this.fillMenu();
  }

  fillMenu() {
    const nameOf = (/** @type {Example} */ {key, title, task}) =>
      `${task && this.solved.has(key) ? "✓ " : ""}${title}`;
    const last = this.desk.keeper.decks();
    const lastOf = (/** @type {Work} */ work, /** @type {number} */ index) =>
      make("option", {value: `${LAST}${index}`}, titleOf(work));
    byId("example").replaceChildren(
      make("option", {value: ""}, "Examples and exercises .."),
      ...(last.length ? [make("optgroup", {label: "Your last decks"}, ...last.map(lastOf))] : []),
      ...this.examples.map(
        ({name, items}) =>
          make("optgroup", {label: name}, ...items.map((it) => make("option", {value: it.key}, nameOf(it))))
      )
    );
    byId("example").value = this.chosenKey;
  }

  // What of the menu is open: an example, or an exercise with a deck of the reader's own, or "".
  get chosenKey() {
    return (this.example ?? this.exercise)?.key ?? "";
  }

  get isTask() {
    return Boolean(this.exercise);
  }

  // Whether the reader lets go of what was changed.
  mayLeave() {
    return !this.isChanged || window.confirm("The deck was changed and not saved. Open another one?");
  }

  /** @param {string} key */
  find(key) {
    return this.examples.flatMap((it) => it.items).find((it) => it.key === key);
  }

  /** @param {string} key */
  chooseExample(key) {
    if (!key || !this.mayLeave()) return this.fillMenu();
    if (key.startsWith(LAST)) return this.openLast(Number(key.slice(LAST.length)));
    history.replaceState(null, "", `#${key}`);
    return this.openExample(key);
  }

  // Opens one of the reader's last decks again.
  /** @param {number} index */
  openLast(index) {
    const work = this.desk.keeper.decks()[index];
    if (work) this.openWork(work);
  }

  // Opens what was typed when the page was closed; answers whether there is such.
  restore() {
    const work = this.desk.keeper.work();
    if (!work) return false;
    this.openWork(work);
    this.desk.tell("This is what you typed last.");
    return true;
  }

  /** @param {Work} work */
  openWork(work) {
    this.put(work, null, this.exerciseWith(work));
    this.hasWork = true;
    this.desk.keeper.save();
    if (typeof work.number === "number") this.offerState(work.number, "These are your deck and your input.");
  }

  /** @param {string} key */
  openExample(key) {
    const example = this.find(key);
    if (example) this.put(example, example, exerciseOf(example));
  }

  /**
   * Puts a job into the page: one of the examples, or null, and the exercise that it belongs to.
   * @param {Own} own
   * @param {Example | null} example
   * @param {Exercise | null} exercise
   */
  put(own, example, exercise) {
    if (this.hasWork) {
      this.desk.keeper.save();
      this.desk.keeper.leave();
    }
    this.example = example;
    this.exercise = exercise;
    this.desk.put(own);
    this.isChanged = this.hasWork = false;
    this.fillMenu();
    this.showExercise();
  }

  // The deck or the input was changed: what was said of the answer holds no more.
  changed() {
    this.isChanged = this.hasWork = true;
    this.forgetVerdict();
  }

  forgetVerdict() {
    if (this.exercise) this.showVerdict("", TO_BEGIN);
  }

  // What is shown where the page is opened without a link.
  welcome() {
    this.openExample("first");
    byId("empty").replaceChildren(make(
      "div", {class: "welcome"},
      make("b", {}, "L6 is Bell Labs' language for linked lists, of 1966. Here it runs forward and back."),
      make(
        "p", {}, "Press Run to see what this deck of one card prints, or Step to see each thing that it does."
      ),
      make("p", {}, "The menu has decks with lists, trees and a store in pieces, and eight exercises.")
    ));
  }

  // The box of the input says whether the deck reads it.
  /** @param {Reading} deck */
  deckRead(deck) {
    const reads =
      deck.statements.some(({operations}) => operations.some(({elements}) => elements[1] === "IN"));
    byId("input-label").textContent =
      reads ? "Input: put data of your own here" : "Input: this deck reads none";
  }

  // What is printed is right: the exercise is solved if it is with the exercise's own input and options, and if the
  // hidden inputs and the conditions are, too.
  /** @param {Exercise} exercise */
  async solveIfRight(exercise) {
    const {tests = [], conditions = {}, input: wanted = ""} = exercise;
    const {deck, input, options} = this.desk.job();
    const isOther = input !== wanted || !areOptionsOf(exercise, options);
    if (!isOther && !tests.length && !Object.keys(conditions).length) return this.solve(exercise);
    this.showVerdict("", "This is printed. Hidden inputs are tried ..");
    const why = await this.desk.verdict(exercise);
    if (this.exercise !== exercise || this.desk.job().deck !== deck) return undefined;
    if (!why) return this.solve(exercise);
    const what = input === wanted ? "options" : "input";
    const which = isOther && !why.startsWith("with ") ? `with the ${what} of the exercise ` : "";
    this.showVerdict("wrong-answer", `Not yet: just this is printed, but ${which}${why}.`);
    return undefined;
  }

  // ---- Exercises

  // The exercise to which a link, or the work that is kept, belongs, or null.
  /** @param {any} own */
  exerciseWith(own) {
    return exerciseOf(own.exercise ? this.find(own.exercise) : null) ?? taskWith(own);
  }

  showExercise() {
    const frame = byId("exercise");
    const {exercise} = this;
    frame.hidden = !exercise;
    if (!exercise) return;
    frame.replaceChildren(
      make("p", {}, make("b", {}, exercise.key ? "Exercise " : "Task "), exercise.task),
      make("pre", {tabindex: 0, "aria-label": "What it is to print"}, exercise.printout),
      make("div", {class: "verdict-row"}, make("p", {id: "verdict", role: "status"}), handInForm(this.desk.handIn))
    );
    this.showVerdict("", TO_BEGIN, ...this.ownSolution(exercise));
  }

  /**
   * @param {string} kind
   * @param {(string | Node)[]} parts
   */
  showVerdict(kind, ...parts) {
    byId("verdict").className = kind;
    byId("verdict").replaceChildren(...parts);
  }

  // A button that puts back the deck with which the reader has solved the exercise.
  /** @param {Exercise} exercise */
  ownSolution(exercise) {
    const {key} = exercise;
    const deck = key && this.solved.deckOf(key);
    if (!deck) return [];
    const put = () => {
      if (this.mayLeave()) this.put({...exercise, deck}, null, exercise);
    };
    return [" You have solved it. ", make("button", {type: "button", onclick: put}, "Show how")];
  }

  /**
   * Whether the printout is that which the exercise asks for.
   * @param {View} view
   * @param {Session} session
   */
  checkExercise(view, session) {
    const {exercise} = this;
    if (!exercise || !view.state.ending) return;
    const printed = session.printout?.printed ?? view.output;
    const why = differenceOf(printed, exercise.printout, view.state.ending, session.options.steps);
    if (why)
      this.showVerdict("wrong-answer", `Not yet: ${why}.`);
    else
      this.solveIfRight(exercise);
  }

  /** @param {Exercise} exercise */
  solve(exercise) {
    if (exercise.key) {
      this.solved.add(exercise.key, this.desk.job().deck);
      this.fillMenu();
      this.isChanged = false; // (the answer is kept)
    }
    const lost = exercise.key && !this.solved.isKept;
    this.showVerdict(
      "right-answer", "✓ Solved: just this is printed.",
      lost ? " This browser keeps it only until the page is closed." : "", ...this.nextExercise(exercise)
    );
  }

  // A button that opens the exercise after this one, if there is one.
  /** @param {Exercise} exercise */
  nextExercise({key}) {
    const all = this.examples.flatMap(({items}) => items).filter((it) => it.task);
    const next = key ? all[all.findIndex((it) => it.key === key) + 1] : null;
    if (!next) return [];
    return [
      make("button", {type: "button", onclick: () => this.chooseExample(next.key)}, `On to ${next.title}`)
    ];
  }

  /** @param {Exercise & Own} task */
  openTask(task) {
    this.put(task, null, task);
  }

  // ---- Files

  /** @param {File} file */
  async openFile(file) {
    const {own, task, why} = await readFile(file);
    if (!own) return this.desk.tell(`${file.name} was not opened: ${why}`);
    this.put(own, null, task);
    return this.desk.tell(`opened ${file.name}`);
  }

  saveFile() {
    const {deck, input} = this.desk.job();
    this.isChanged = false;
    save(`${this.example?.key ?? "my"}.deck`, job(deck, null, input));
  }

  // ---- Links

  // A link to what the page shows.
  /** @param {object} more */
  linkNow(more = {}) {
    const now = this.desk.job();
    const {example} = this;
    const isSame = example && example.deck === now.deck && (example.input ?? "") === now.input &&
      areOptionsOf(example, now.options);
    const kinds = this.desk.kinds() || undefined;
    return linkOf({
      ...now,
      ...exercisePart(this.exercise),
      kinds,
      example: isSame && !kinds ? example.key : null,
      breakpoints: this.desk.breakpoints(),
      number: this.desk.shown(),
      lecture: this.desk.isLecture(),
      ...more
    });
  }

  // The address of the page, for a frame of another one.
  async frameLink() {
    const number = this.desk.shown() ?? 0;
    return new URL(await this.linkNow({number, lecture: false, embed: true}), location.href).href;
  }

  async makeLink() {
    const link = await this.linkNow();
    history.replaceState(null, "", link);
    this.isChanged = false;
    const isFile = location.protocol === "file:"; // (whose path is of use on this computer alone)
    const part =
      isFile ? " For other computers take it from # on, after the address of their own l6.html." : "";
    try {
      await navigator.clipboard.writeText(location.href);
      this.desk.tell(`The link is copied, and is in the address.${part}`);
    } catch {
      this.desk.tell(`The link is in the address.${part}`);
    }
  }

  // Opens what a link says. An example is shown at its state; the deck of someone else is not run until the
  // reader asks for it.
  async openLink() {
    const link = await readLink(location.hash);
    if (!link) return false;
    const why =
      link.damaged ?? (link.example && !this.find(link.example) ? `no deck is called “${link.example}”` : "");
    if (why) {
      if (!this.example && !this.isChanged) this.welcome();
      this.desk.tell(`The link is damaged: ${why}.`);
      return true;
    }
    if (!this.mayLeave()) return false;
    if (link.lecture) this.desk.lecture(true);
    if (link.embed) this.desk.embed();
    if (link.example) {
      this.openExample(link.example);
      if (link.breakpoints.length) this.desk.setBreakpoints(link.breakpoints);
      if (link.number !== null) await this.desk.state(link.number);
      return true;
    }
    this.openOwn(link);
    return true;
  }

  /** @param {any} link */
  openOwn(link) {
    this.put(link, null, this.exerciseWith(link));
    if (link.number !== null) this.offerState(link.number, "This deck came with the link, and was not run.");
  }

  /**
   * A button that goes to a state of what was opened.
   * @param {number} number
   * @param {string} why
   */
  offerState(number, why) {
    const go = make(
      "button", {type: "button", class: "main", onclick: () => this.desk.state(number)},
      `Go to state ${withCommas(number)}`
    );
    byId("empty").replaceChildren(make("div", {}, make("b", {}, why), make("br"), go));
  }
}

// An example as an exercise, or null where it is none.
/** @param {Example | null | undefined} example */
function exerciseOf(example) {
  return example?.task ? /** @type {Exercise} */ (example) : null;
}
