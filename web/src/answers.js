// Answers to a task: a file that a pupil hands in, and a table of a folder of them, each of which is run again.
// Nothing leaves the machine.

import {byId, make} from "./dom.js";
import {save} from "./download.js";
import {DEFAULTS} from "./options.js";
import {verdictOf} from "./verify.js";

const MOST_BYTES = 2_000_000; // of a file
const MARK = "l6 answer";

/**
 * An answer: who hands it in, to which exercise or task, and the deck.
 * @typedef {{what: string, name: string, exercise?: string, task: string, deck: string, when: string}} Answer
 */

export class Answers {
  /**
   * `source` has the job and the exercise of the page, finds one by its key, asks the program, and opens a deck.
   * @param {{job: () => any, exercise: () => any, find: (key: string) => any, tell: (text: string) => void,
   *   ask: (words: string[], input: Uint8Array, digest?: object | null) => Promise<any>,
   *   open: (deck: string, exercise: any) => void}} source
   */
  constructor(source) {
    this.source = source;
    /** @type {File[]} */
    this.files = []; // that are being read
    byId("read-answers").addEventListener("click", () => byId("answers-dialog").showModal());
    for (const id of ["answer-files", "answer-folder"]) byId(id).addEventListener("change", () => this.chosen(byId(id)));
  }

  // Reads the files of a box, and empties it, so that the same ones can be chosen again.
  /** @param {HTMLInputElement} box */
  chosen(box) {
    const files = [...(box.files ?? [])];
    box.value = "";
    this.read(files);
  }

  // Saves the answer as a file to hand in.
  /** @param {string} name */
  handIn(name) {
    const exercise = this.source.exercise();
    const {deck} = this.source.job();
    /** @type {Answer} */
    const answer =
      {what: MARK, name, exercise: exercise.key, task: exercise.task, deck, when: new Date().toISOString()};
    const file = `${name.trim().replace(/[^\p{L}\p{N}]+/gu, "-") || "my"}.answer`;
    save(file, `${JSON.stringify(answer, null, 1)}\n`, true);
    this.source.tell(`Saved as ${file}: hand that file in.`);
  }

  // Makes the table of some files. Where others are chosen meanwhile, theirs takes its place.
  /** @param {File[]} files */
  async read(files) {
    this.files = files;
    const wanted = files.filter((it) => /\.answer$/.test(it.name) && it.size <= MOST_BYTES);
    const table = byId("answers");
    table.replaceChildren();
    let solved = 0;
    for (const file of wanted) {
      const {row, isSolved} = await this.rowOf(file);
      if (this.files !== files) return;
      solved += Number(isSolved);
      table.append(row);
      byId("answers-note").textContent = `${table.children.length} of ${wanted.length} read, ${solved} solved`;
    }
    if (!wanted.length) byId("answers-note").textContent = "No file there ends in .answer.";
  }

  /** @param {File} file */
  async rowOf(file) {
    const answer = answerOf(await file.text());
    const cells = (/** @type {string} */ name, /** @type {string} */ verdict, /** @type {any} */ more) =>
      make(
        "tr", {}, make("th", {scope: "row"}, name), make("td", {}, file.name), make("td", {}, verdict),
        make("td", {}, more)
      );
    if (!answer) return {row: cells("?", "this is no answer", ""), isSolved: false};
    const exercise = this.exerciseOf(answer);
    if (!exercise) return {row: cells(answer.name, "open its task first", ""), isSolved: false};
    const why = await this.verdict(exercise, answer.deck);
    const open = () => {
      byId("answers-dialog").close();
      byId("task-dialog").close();
      this.source.open(answer.deck, exercise);
    };
    const button = make("button", {type: "button", onclick: open}, "Open");
    return {row: cells(answer.name, why || "✓ solved", button), isSolved: why === ""};
  }

  /** @param {Answer} answer */
  exerciseOf({exercise, task}) {
    if (exercise) return this.source.find(exercise);
    const own = this.source.exercise();
    return own?.task === task ? own : null;
  }

  /**
   * Whether a deck solves an exercise, with the input and the options of that, whatever those of the page are.
   * @param {any} exercise
   * @param {string} deck
   */
  async verdict(exercise, deck) {
    try {
      const {input = "", options} = exercise;
      return await verdictOf(exercise, {deck, input, options: {...DEFAULTS, ...options}}, this.source.ask);
    } catch (error) {
      return error instanceof Error ? error.message : String(error);
    }
  }
}

/**
 * A name, and a button that saves the answer as a file.
 * @param {(name: string) => void} handIn
 */
export function handInForm(handIn) {
  const name = make("input", {type: "text", id: "answer-name", placeholder: "your name", "aria-label": "Your name"});
  const hand = () => handIn(name.value);
  const button = make("button", {type: "button", id: "hand-in", onclick: hand}, "Save answer");
  return make("p", {class: "hand-in"}, name, button);
}

/**
 * The answer of a file's text, or null.
 * @param {string} text
 * @returns {Answer | null}
 */
export function answerOf(text) {
  try {
    const found = JSON.parse(text);
    const isRight = found.what === MARK && ["name", "task", "deck"].every((it) => typeof found[it] === "string");
    return isRight ? found : null;
  } catch {
    return null;
  }
}
