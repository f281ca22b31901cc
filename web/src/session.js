// A session: the states of one run, asked of the debugger as they are needed, and kept.
//
// A question is a whole job that begins at state 0. To reach state 100,000,000 takes a second or two, and
// each state there is cheap: so the states around the one that is wanted are asked for at the same time.

import {bytesOf} from "./bytes.js";
import {readDeck} from "./deck.js";
import {Frames} from "./frames.js";
import {job} from "./job.js";
import {Steps} from "./steps.js";
import {Trail} from "./trail.js";
import {stateOf, Transcript} from "./transcript.js";
import {Values} from "./values.js";
import {View} from "./view.js";

const FAR = 1_000_000;           // the state from which on the way there takes longer than the answers
const MOST_KEPT = 24_000_000;    // characters of answers whose states are kept
const MOST_ANSWER = 3_000_000;   // characters of the answers to one question, about
const NEAR = 3;                  // states that are kept anyhow
const MOST_OUT = 200_000;        // characters of output that are shown
const SHORT_WAY = 4096;          // states that are gone through for the breakpoint before
const MOST_GOES = 100_000;       // in one question
const MOST_REMEMBERED = 100_000; // characters of an answer
const LARGE_STORE = 32; // units from which on one state is asked for at first, to see how large it is

// Why there is no state: the program refused the job, or memory ran out in the midst.
export class Refused extends Error {
  /** @param {Answer} answer */
  constructor(answer) {
    super(answer.errors.trim() || `status ${answer.status}`);
    this.status = answer.status;
  }
}

/** @typedef {import("./deck.js").Reading} Reading */
/** @typedef {import("./transcript.js").State} State */
/** @typedef {import("./view.js").Known} Known */
/** @typedef {{store: number, steps: number, output: number}} Options */
/** @typedef {{deck: string, input: string, options: Options}} Job */
/** @typedef {{status: number, output: string, errors: string, milliseconds: number, digest?: any}} Answer */
/** @typedef {(words: string[], input: Uint8Array, digest?: object | null) => Promise<Answer>} Ask */
/** @typedef {{text: string, printed: string, ending: State, milliseconds: number}} Printout */

/**
 * The words of the command line for a job.
 * @param {string} verb
 * @param {Options} options
 * @returns {string[]}
 */
export function wordsOf(verb, {store, steps, output}) {
  return [verb, "--store", String(store), "--steps", String(steps), "--output", String(output)];
}

export class Session {
  /**
   * `ask` has the engine do a job: the words of the command line, the bytes of standard input, and what is to
   * be made of the output. `reading` is what the page reads in the deck.
   * @param {Ask} ask
   * @param {Job} job
   * @param {Reading} reading
   */
  constructor(ask, {deck, input, options}, reading = readDeck(deck)) {
    this.ask = ask;
    this.deck = deck;
    this.input = input;
    this.options = options;
    this.reading = reading;
    /** @type {Map<number, View>} */
    this.views = new Map();
    this.kept = 0;
    /** @type {Map<number, Promise<void>>} */
    this.fetching = new Map(); // what is being asked for
    /** @type {Printout | null} */
    this.printout = null; // what `run` prints, once it was asked
    /** @type {number | null} */
    this.last = null; // the last state's number, once it is known
    this.size = options.store > LARGE_STORE ? Infinity : 2000; // characters that a state took lately
    /** @type {{asked: string, answered: string, milliseconds: number}[]} */
    this.exchanges = []; // what was asked and answered last
    /** @type {string[]} */
    this.hidden = []; // bugs that the reader has hidden
    this.trail = new Trail((first, count) => this.trailFrom(first, count));
    this.steps = new Steps(reading, this.trail);
    this.values = new Values(this);
    this.frames = new Frames(this);
    /** @type {import("./chronicle.js").Chronicle | null} */
    this.chronicle = null; // what happened to the blocks, once it was read
  }

  // What the worker needs to read the chronicle.
  get survey() {
    return {deck: this.deck, input: this.input, words: this.words("debug")};
  }

  /**
   * @param {string} verb
   * @param {{steps?: number}} more
   */
  words(verb, more = {}) {
    return wordsOf(verb, {...this.options, ...more});
  }

  // What `run` answers. It gives how many states there are, and all of the output.
  async run() {
    if (!this.printout) {
      const answer = await this.ask(this.words("run"), bytesOf(job(this.deck, null, this.input)));
      if (answer.status > 3) throw new Refused(answer);
      const lines = answer.output.trimEnd();
      const end = lines.lastIndexOf("\n") + 1;
      const ending = stateOf(lines.slice(end));
      this.printout = {
        text: answer.output,
        printed: answer.output.slice(0, end),
        ending,
        milliseconds: answer.milliseconds
      };
      this.last = ending.number;
    }
    return this.printout;
  }

  /**
   * The view of a state, or of the last one where the number is past it.
   * @param {number} number
   * @returns {Promise<View>}
   */
  async view(number) {
    const wanted = this.last === null ? number : Math.min(number, this.last);
    if (!this.views.has(wanted)) await this.fetchOnce(wanted);
    const view = this.views.get(wanted) ?? this.views.get(this.last ?? wanted);
    if (!view) throw new Error("the debugger has not answered with the state");
    return view;
  }

  // How many states that are as large as this one can be kept beside it.
  /** @param {View} view */
  roomBeside(view) {
    return Math.max(1, Math.floor(MOST_KEPT / view.cost) - NEAR);
  }

  /** @param {number} number */
  has(number) {
    return this.views.has(number);
  }

  // Asks for a state, unless it is being asked for.
  /** @param {number} number */
  async fetchOnce(number) {
    if (!this.fetching.has(number)) {
      const done = () => this.fetching.delete(number);
      this.fetching.set(number, this.fetch(number).finally(done));
    }
    await this.fetching.get(number);
  }

  // Asks for the states around one, and keeps them.
  /** @param {number} number */
  async fetch(number) {
    const {hidden} = this;
    const room = Math.max(1, Math.min(number < FAR ? 6 : 60, Math.floor(MOST_ANSWER / this.size)));
    const before = Math.min(number, Math.floor(room / 4));
    const views = await this.look(number - before, room);
    await this.addWords(views);
    if (hidden === this.hidden)
      views.forEach((view) => this.keep(view));
    else // (a bug was hidden meanwhile, or is shown again)
      await this.fetch(number);
  }

  /**
   * Looks at so many states from one on.
   * @param {number} first
   * @param {number} count
   */
  async look(first, count) {
    const commands = [`step ${first}`];
    for (let state = 0; state < count; state++) {
      if (state > 0) commands.push("step 1");
      commands.push("show", "fields", "draw", "store");
    }
    commands.push("out");
    const more = {skip: 1, count, hidden: this.hidden, mostOutput: MOST_OUT};
    const {views, output, size} = await this.digest("views", commands, more);
    this.size = Math.max(500, size / views.length);
    const printed = output.text.length / views.length;
    return /** @type {Known[]} */ (views).map((it) => new View({...it, output, cost: it.cost + printed}));
  }

  // Asks for the words of the blocks that are shown of each view.
  /** @param {View[]} views */
  async addWords(views) {
    const commands = [`step ${views[0].state.number}`];
    let at = views[0].state.number;
    for (const view of views) {
      if (view.state.number > at) commands.push(`step ${view.state.number - at}`);
      at = view.state.number;
      for (const place of view.shown.places) commands.push(`block ${place}`);
      if (view.state.ending) this.last = view.state.number;
    }
    const transcript = await this.question(commands);
    transcript.line();
    views.forEach((view, index) => {
      if (index > 0) transcript.line();
      const begun = transcript.place;
      for (const place of view.shown.places) view.words.set(place, transcript.block());
      view.cost += transcript.place - begun;
    });
  }

  /**
   * The words of one more block of a view.
   * @param {View} view
   * @param {number} place
   */
  async addBlock(view, place) {
    if (view.words.has(place)) return;
    const transcript = await this.question([`step ${view.state.number}`, `block ${place}`]);
    transcript.line();
    view.words.set(place, transcript.block());
  }

  /** @param {View} view */
  keep(view) {
    this.kept += view.cost;
    this.views.set(view.state.number, view);
    for (const [number, old] of this.views) {
      if (this.kept < MOST_KEPT || this.views.size < 3) break;
      this.views.delete(number);
      this.kept -= old.cost;
    }
  }

  // Hides a bug, or shows it again: what it alone leads to is not drawn.
  /** @param {string} name */
  hide(name) {
    this.hidden =
      this.hidden.includes(name) ? this.hidden.filter((it) => it !== name) : [...this.hidden, name];
    this.views.clear();
    this.kept = 0;
  }

  /**
   * @param {number} first
   * @param {number} count
   */
  trailFrom(first, count) {
    return this.digest("trail", [`step ${first}`, ...Array(count - 1).fill("step 1")], {});
  }

  // How the store's words are shared out in some states, whose numbers are in order.
  /** @param {number[]} numbers */
  async totals(numbers) {
    const commands = numbers.flatMap((it, index) => [`step ${it - (numbers[index - 1] ?? 0)}`, "store"]);
    return this.digest("totals", commands, {count: numbers.length});
  }

  /**
   * The view of the next state that is at the condition of one of these statements, or of the last state.
   * @param {number} number
   * @param {number[]} breakpoints
   */
  async go(number, breakpoints) {
    const way = [`step ${number}`, ...breakpoints.map((it) => `break ${it}`), "go"];
    const transcript = await this.question(way);
    let state = null;
    while (!transcript.isAtEnd) {
      const line = transcript.line();
      if (/^(AT|==) /.test(line)) state = stateOf(line);
    }
    if (!state) throw new Error("the debugger has not answered with a state");
    if (state.ending) this.last = state.number;
    return this.view(state.number);
  }

  /**
   * The view of the latest state before one that is at the condition of one of these statements, or of
   * the first state. The limit of steps keeps each `go` from running past the state it is asked from.
   * @param {number} number
   * @param {number[]} breakpoints
   */
  async goBack(number, breakpoints) {
    let before = SHORT_WAY;
    for (;;) {
      const from = Math.max(0, number - before);
      const found = await this.breakpointsBetween(from, number, breakpoints);
      if (found.last !== null) return this.view(found.last);
      if (from === 0) return this.view(0);
      before *= 64;
    }
  }

  /**
   * The last state from one number on, and before another, that is at a breakpoint.
   * @param {number} from
   * @param {number} to
   * @param {number[]} breakpoints
   */
  async breakpointsBetween(from, to, breakpoints) {
    let begin = from;
    let last = null;
    for (;;) {
      // (a `go` always goes on, and the first state may be at a breakpoint)
      const start = Math.max(0, begin - 1);
      const goes = Math.min(MOST_GOES, to - start + 1);
      const way = [`step ${start}`, ...breakpoints.map((it) => `break ${it}`), ...Array(goes).fill("go")];
      const transcript = await this.question(way, {steps: Math.min(this.options.steps, to)});
      let state = stateOf(transcript.line());
      if (start === 0 && state.action === 0 && breakpoints.includes(state.statement ?? -1) && to > 0) last ??= 0;
      for (let mark = 0; mark < breakpoints.length; mark++) transcript.line();
      for (let go = 0; go < goes && !state.ending; go++) {
        state = stateOf(transcript.line());
        if (!state.ending && state.number < to) last = state.number;
        if (state.number >= to) return {last};
      }
      if (state.ending) return {last};
      begin = state.number + 1;
    }
  }

  /**
   * The answers to commands.
   * @param {string[]} commands
   * @param {{steps?: number}} more
   */
  async question(commands, more = {}) {
    return new Transcript((await this.asked(commands, more)).output);
  }

  /**
   * What the worker makes of the answers to commands.
   * @param {string} name
   * @param {string[]} commands
   * @param {object} more
   */
  async digest(name, commands, more) {
    return (await this.asked(commands, {}, {name, begin: MOST_REMEMBERED, ...more})).digest;
  }

  /**
   * @param {string[]} commands
   * @param {{steps?: number}} more
   * @param {object | null} digest
   */
  async asked(commands, more, digest = null) {
    const text = commands.join("\n") + "\n";
    const answer = await this.ask(this.words("debug", more), bytesOf(job(this.deck, text, this.input)), digest);
    this.remember(text, answer);
    if (answer.status !== 0) throw new Refused(answer);
    return answer;
  }

  /**
   * @param {string} asked
   * @param {Answer} answer
   */
  remember(asked, answer) {
    this.exchanges.push({
      asked: asked.slice(0, 20_000),
      answered: answer.output.slice(0, MOST_REMEMBERED),
      milliseconds: answer.milliseconds
    });
    if (this.exchanges.length > 2) this.exchanges.shift();
  }
}
