// The engine: its workers do the jobs, so that the page always answers, and the reader can stop them. There is
// one, until jobs take so long that several at a time are worth their memory.

import {textOfBytes} from "./bytes.js";

/** @typedef {{resolve: (answer: any) => void, reject: (error: Error) => void, worker: Worker}} Job that waits */

// Why a job has no answer: the reader stopped it.
export class Stopped extends Error {}

export class Engine {
  // The module is compiled already, and the script is that of the worker. `changed` is called where jobs
  // begin or end.
  /**
   * @param {WebAssembly.Module} module
   * @param {string} script
   * @param {() => void} changed
   */
  constructor(module, script, changed = () => {}) {
    this.module = module;
    this.changed = changed;
    this.address = URL.createObjectURL(new Blob([script], {type: "text/javascript"}));
    /** @type {Map<number, Job>} */
    this.waiting = new Map();
    this.number = 0;
    this.most = 1; // workers
    this.worker = this.begin();
    /** @type {Worker[]} */
    this.others = [];
  }

  begin() {
    const worker = new Worker(this.address);
    worker.onmessage = ({data}) => this.settle(data);
    worker.onerror = (event) => this.fail(new Error(event.message));
    worker.postMessage({module: this.module});
    return worker;
  }

  // A worker that has nothing to do; another one, as long as there may be more; else that with the fewest jobs.
  idle() {
    const jobs = new Map([this.worker, ...this.others].map((it) => [it, 0]));
    for (const {worker} of this.waiting.values()) jobs.set(worker, (jobs.get(worker) ?? 0) + 1);
    const [[worker, count]] = [...jobs].sort((a, b) => a[1] - b[1]);
    if (count === 0 || jobs.size >= this.most) return worker;
    const other = this.begin();
    this.others.push(other);
    return other;
  }

  // Has a job done: the words of the command line, and what standard input has, as bytes. With a digest the
  // worker makes of the output what that says.
  /**
   * @param {string[]} words
   * @param {Uint8Array} input
   * @param {number} limit
   * @param {object | null} digest
   * @returns {Promise<any>}
   */
  run(words, input, limit, digest = null) {
    const number = ++this.number;
    const worker = this.idle();
    return new Promise((resolve, reject) => {
      this.waiting.set(number, {resolve, reject, worker});
      this.changed();
      worker.postMessage({number, words, input, limit, digest});
    });
  }

  // Has the worker read the chronicle of a run: the deck, the input, the words of the command line and the
  // limit of memory.
  /**
   * @param {import("./survey.js").Survey} survey
   * @returns {Promise<import("./chronicle.js").Told>}
   */
  survey(survey) {
    const number = ++this.number;
    const {worker} = this;
    return new Promise((resolve, reject) => {
      this.waiting.set(number, {resolve, reject, worker});
      worker.postMessage({number, survey});
    });
  }

  get isBusy() {
    return this.waiting.size > 0;
  }

  /** @param {{number: number, answer?: any, told?: any, broken?: string}} data */
  settle({number, answer, told, broken}) {
    const job = this.waiting.get(number);
    if (!job) return; // (it was stopped)
    this.waiting.delete(number);
    this.changed();
    if (broken)
      job.reject(new Error(broken));
    else if (told)
      job.resolve(told);
    else
      job.resolve({...answer, output: textOfBytes(answer.output), errors: textOfBytes(answer.errors)});
  }

  // Ends what is being done, and begins with another worker.
  stop() {
    this.fail(new Stopped("stopped"));
  }

  /** @param {Error} error */
  fail(error) {
    for (const worker of [this.worker, ...this.others]) worker.terminate();
    this.others = [];
    const jobs = [...this.waiting.values()];
    this.waiting.clear();
    this.worker = this.begin();
    this.changed();
    for (const job of jobs) job.reject(error);
  }
}
