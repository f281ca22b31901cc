// Tasks that a teacher makes: a text, the deck to begin with, the input, and what is to be printed. A task
// goes out as a link or a file.

import {byId} from "./dom.js";
import {save} from "./download.js";
import {linkOf, numbersOf} from "./links.js";
import {errorOf} from "./thrown.js";
import {conditionsOf, testsOf, verdictOf} from "./verify.js";

export class TaskMaker {
  // `source` has the job of the page, what it has printed, and opens a task.
  /** @param {any} source */
  constructor(source) {
    this.source = source;
    const on = (/** @type {string} */ id, /** @type {() => void} */ what) => byId(id).addEventListener("click", what);
    on("task-printed", () => this.takePrinted());
    on("task-link", () => this.copyLink());
    on("task-file", () => this.saveFile());
    on("task-try", () => this.tryIt());
  }

  open() {
    this.solution = this.source.job().deck;
    byId("task-deck").value = this.solution;
    if (!byId("task-printout").value) this.takePrinted();
    byId("task-note").textContent = "";
    byId("task-dialog").showModal();
  }

  takePrinted() {
    byId("task-printout").value = this.source.printed();
  }

  // The conditions as they are written. One that can't be read is an error.
  conditions() {
    const [listed, uses] = ["task-list", "task-uses"].map((id) => byId(id).value.trim().toUpperCase());
    const [bug, field, length, ...more] = listed.split(/[\s,]+/);
    const list = {bug, field, length: length === undefined || more.length ? NaN : Number(length)};
    const found = conditionsOf({noLost: byId("task-lost").checked, uses, list});
    if (listed && !found.list) throw new Error(`A list is a bug, a field and how many blocks, as L N 5, and not “${listed}”.`);
    if (uses && !found.uses) throw new Error(`A field that is used is a letter or a digit, and not “${uses}”.`);
    return found;
  }

  // The hidden inputs, each with what the solution prints.
  async tests() {
    const inputs = inputsOf(byId("task-tests").value);
    const tests = [];
    for (const input of inputs) tests.push({input, printout: await this.source.printoutOf(this.solution, input)});
    return tests;
  }

  // The task as it is written, or null, which is said, where something is missing.
  async task() {
    const [task, printout] =
      [byId("task-text").value.trim(), byId("task-printout").value.replace(/\n+$/, "")];
    const missing = [!task && "what is to be done", !printout && "what it is to print"].filter((it) => it);
    byId("task-note").textContent = missing.length ? `Missing: ${missing.join(", and ")}.` : "";
    if (missing.length) return null;
    const {input, options} = this.source.job();
    const whole = {task, printout, deck: byId("task-deck").value, input, options};
    try {
      const made = {...whole, tests: await this.tests(), conditions: this.conditions()};
      const why = await this.unsolved(made);
      if (why) byId("task-note").textContent = `Your own deck does not solve it: ${why}.`;
      return why ? null : made;
    } catch (error) {
      byId("task-note").textContent = errorOf(error).message;
      return null;
    }
  }

  // Why the solution does not solve the task, or "": hidden inputs and conditions are for others what they are for it.
  /** @param {any} task */
  async unsolved(task) {
    const isTested = task.tests.length > 0 || Object.keys(task.conditions).length > 0;
    const job = {deck: this.solution, input: task.input, options: task.options};
    return isTested ? verdictOf(task, job, this.source.ask) : "";
  }

  async copyLink() {
    const task = await this.task();
    if (!task) return;
    const link = new URL(await linkOf({...task, breakpoints: [], number: null}), location.href).href;
    try {
      await navigator.clipboard.writeText(link);
      byId("task-note").textContent = "The link is copied.";
    } catch {
      history.replaceState(null, "", link);
      byId("task-note").textContent = "The link is in the address.";
    }
  }

  async saveFile() {
    const task = await this.task();
    if (!task) return;
    save("my.task", `${JSON.stringify(task, null, 1)}\n`, true);
    byId("task-note").textContent = "Saved. Pupils open the file with Open.";
  }

  // Shows the task as a pupil gets it.
  async tryIt() {
    const task = await this.task();
    if (!task) return;
    byId("task-dialog").close();
    this.source.open(task);
  }
}

// The hidden inputs that a text has, between lines of ---. A blank line is part of an input.
/** @param {string} text */
export function inputsOf(text) {
  return text.split(/^---+[ \t]*(?:\n|$)/m).filter((it) => it.trim());
}

// The task of a file's text, or null.
/** @param {string} text */
export function taskOf(text) {
  if (!/^\s*\{/.test(text)) return null;
  try {
    const {task, printout, deck, input = "", options = {}, tests, conditions} = JSON.parse(text);
    const isRight = [task, printout, deck, input].every((it) => typeof it === "string") && task && printout;
    const more = {tests: testsOf(tests), conditions: conditionsOf(conditions)};
    return isRight ? {task, printout, deck, input, options: numbersOf(options), ...more} : null;
  } catch {
    return null;
  }
}
