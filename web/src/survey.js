// Reads the chronicle of a run, in the worker. The trail and the deck say which operation each step does. Of
// those that may change a bug, a field or a block the debugger is asked what was there before and after, and
// which words the blocks had to which their chains lead.

import {bytesOf, textOfBytes} from "./bytes.js";
import {follow} from "./chain.js";
import {MOST_CALLS} from "./chronicle.js";
import {readDeck} from "./deck.js";
import {DIGESTS} from "./digest.js";
import {job} from "./job.js";
import {isChain, isDefinition, Recorder, valueAfter} from "./recorder.js";
import {serve} from "./serve.js";
import {operationAt, stackingAt} from "./steps.js";
import {Transcript} from "./transcript.js";

const MOST_STATES = 400_000; // of a run that are read
const MOST_STEPS = 60_000;   // of them that the debugger is asked about
const MOST_LOOKED = 30_000;  // steps in one question, whose commands may have 1,048,576 bytes
const MOST_ASKED = 40_000;   // blocks in one question
const STRETCH = 65_536;      // states of the trail in one question
const ROUNDS = 8;            // chains have at most five fields
const QUIET = ["DO", "PR", "PD", "PO", "PH"];
const NUMBERS = ["A", "S", "M", "V", "Y", "N", "O", "X", "C", "L", "R"];

/** @typedef {import("./recorder.js").Moment} Moment */
/** @typedef {{number: number, elements: string[], isApart: boolean, isDone: boolean, made?: number | null,
 *   before?: Moment, after?: Moment}} Step */
/** @typedef {{deck: string, input: string, words: string[], limit: number}} Survey */

/**
 * The chronicle of a run, by the module.
 * @param {WebAssembly.Module} module
 * @param {Survey} survey
 */
export function surveyed(module, {deck, input, words, limit}) {
  const ask = (/** @type {string[]} */ commands) => {
    const text = job(deck, `${commands.join("\n")}\n`, input);
    const {status, output, errors} = serve(module, {words, input: bytesOf(text), limit});
    if (status !== 0) throw new Error(textOfBytes(errors));
    return textOfBytes(output);
  };
  return new Surveyor(ask, readDeck(deck)).read();
}

export class Surveyor {
  /**
   * `ask` answers commands of the debugger; `reading` is what is read in the deck.
   * @param {(commands: string[]) => string} ask
   * @param {import("./deck.js").Reading} reading
   */
  constructor(ask, reading) {
    this.ask = ask;
    this.reading = reading;
    this.last = MOST_STATES;
    this.isWhole = false;
    /** @type {import("./chronicle.js").Call[]} */
    this.calls = [];
    /** @type {(import("./chronicle.js").Call | null)[]} */
    this.waiting = []; // calls, of which null are past the limit
    /** @type {Map<number, Map<number, number[] | null>>} */
    this.known = new Map(); // words of blocks that were asked for: by states, by places
  }

  read() {
    const steps = this.findSteps();
    const asked = steps.filter((it) => it.made === undefined);
    for (let from = 0; from < asked.length; from += MOST_LOOKED) this.look(asked.slice(from, from + MOST_LOOKED));
    for (let round = 0; round < ROUNDS; round++) {
      const missing = asked.flatMap((step) => this.missingOf(step));
      if (!missing.length) break;
      this.askBlocks(missing);
    }
    this.known.clear();
    const recorder = new Recorder();
    for (const step of steps) recorder.take(step);
    return recorder.told(this.last, this.isWhole, this.calls);
  }

  // The steps that may change a bug, a field's definition or a block, with their operations.
  findSteps() {
    /** @type {Step[]} */
    const steps = [];
    let asked = 0;
    for (let first = 0; first < MOST_STATES; first += STRETCH) {
      const trail = DIGESTS.trail(this.ask([`step ${first}`, ...Array(STRETCH - 1).fill("step 1")]));
      if (trail.number < first) break; // (the stretch before had the last state)
      const size = trail.statements.length - (trail.ending ? 1 : 0); // (no step begins in the last state)
      for (let at = 0; at < size; at++) {
        const spot = {statement: trail.statements[at], action: trail.actions[at]};
        this.takeCall(first + at, spot);
        const elements = operationAt(this.reading, spot)?.elements ?? [];
        if (!isTold(elements)) continue;
        if (asked >= MOST_STEPS) {
          this.last = first + at;
          return steps;
        }
        const made = numberMade(elements);
        if (made === undefined) asked++;
        steps.push({number: first + at + 1, elements, made, isApart: false, isDone: false});
      }
      if (!trail.ending) continue;
      this.last = first + trail.statements.length - 1;
      this.isWhole = true;
      const isTrapped = trail.ending.includes("TRAP"); // (then the last step changes nothing)
      if (isTrapped) this.calls = this.calls.filter((it) => it.number < this.last - 1);
      return isTrapped ? steps.filter((it) => it.number < this.last) : steps;
    }
    return steps.filter((it) => it.number <= this.last);
  }

  /**
   * Notes a call, or the return from one.
   * @param {number} number
   * @param {{statement: number, action: number}} spot
   */
  takeCall(number, spot) {
    const stacking = stackingAt(this.reading, spot);
    if (stacking?.name !== "returns") return;
    if (stacking.change < 0) {
      const call = this.waiting.pop();
      if (call) call.until = number + 1;
      return;
    }
    const label = stacking.operation?.elements[0] ?? "";
    const call = {number, until: Infinity, statement: spot.statement, label, depth: this.waiting.length};
    const isKept = this.calls.length < MOST_CALLS;
    if (isKept) this.calls.push(call);
    this.waiting.push(isKept ? call : null);
  }

  /**
   * The bugs before and after each step, and the fields where these may have changed.
   * @param {Step[]} steps
   */
  look(steps) {
    let at = steps[0].number - 1;
    const commands = [`step ${at}`, "show", "fields"];
    for (const step of steps) {
      step.isApart = step.number - 1 > at;
      if (step.isApart) commands.push(`step ${step.number - 1 - at}`, "show");
      commands.push("step 1", "show");
      if (isDefinition(step.elements)) commands.push("fields");
      at = step.number;
    }
    const transcript = new Transcript(this.ask(commands));
    transcript.line();
    let {bugs} = transcript.show();
    let fields = transcript.fields();
    for (const step of steps) {
      if (step.isApart) {
        transcript.line();
        bugs = transcript.show().bugs;
      }
      transcript.line();
      step.before = this.moment(step.number - 1, bugs, fields);
      bugs = transcript.show().bugs;
      if (isDefinition(step.elements)) fields = transcript.fields();
      step.after = this.moment(step.number, bugs, fields);
    }
  }

  /**
   * @param {number} number
   * @param {Map<string, number>} bugs
   * @param {Map<string, import("./transcript.js").Field>} fields
   * @returns {Moment}
   */
  moment(number, bugs, fields) {
    const known = this.known.get(number) ?? new Map();
    this.known.set(number, known);
    return {number, bugs, fields, wordsAt: (place) => known.get(place)};
  }

  /**
   * The blocks that must be known to say what a step did: pairs of a state and a place.
   * @param {Step} step
   * @returns {[number, number][]}
   */
  missingOf(step) {
    const {before, after} = step;
    if (step.isDone || !before || !after) return [];
    /** @type {[number, number][]} */
    const missing = [];
    const need = (/** @type {Moment} */ moment, /** @type {number} */ place) => {
      if (place > 0 && moment.wordsAt(place) === undefined) missing.push([moment.number, place]);
    };
    const both = (/** @type {number | null} */ place) => {
      if (place === null) return;
      need(before, place);
      need(after, place);
    };
    const value = (/** @type {string} */ chain, /** @type {Moment} */ moment) => {
      if (!isChain(chain)) return null;
      const {steps, trap, missing: place} = follow(chain, moment);
      if (place !== undefined) need(moment, place);
      return place === undefined && !trap ? steps[steps.length - 1].value : null;
    };
    const target = (/** @type {string} */ chain, /** @type {Moment} */ moment) => {
      if (isChain(chain) && chain.length > 1) both(value(chain.slice(0, -1), moment));
    };
    const [first, verb, third, fourth] = step.elements;
    target(verb === "FC" ? third : first, before);
    if (verb === "I") target(third, before);
    if (["E", "FR", "FC", "DP"].includes(verb)) value(third, before);
    if (verb === "FR") both(value(first, before));
    if (verb === "GT" || verb === "DP") {
      both(valueAfter(first, before, after) || null);
      target(fourth, after);
    }
    step.isDone = missing.length === 0;
    return missing;
  }

  /** @param {[number, number][]} missing */
  askBlocks(missing) {
    const wanted = [...new Map(missing.map((it) => [`${it[0]} ${it[1]}`, it])).values()];
    wanted.sort((a, b) => a[0] - b[0]);
    for (let from = 0; from < wanted.length; from += MOST_ASKED) {
      const part = wanted.slice(from, from + MOST_ASKED);
      const commands = [];
      let at = 0;
      for (const [number, place] of part) {
        if (number > at) commands.push(`step ${number - at}`);
        at = number;
        commands.push(`block ${place}`);
      }
      const transcript = new Transcript(this.ask(commands));
      at = 0;
      for (const [number, place] of part) {
        if (number > at) transcript.line();
        at = number;
        this.known.get(number)?.set(place, transcript.block());
      }
    }
  }
}

/**
 * Whether an operation may change what a chronicle tells.
 * @param {string[]} elements
 */
function isTold(elements) {
  const [first, verb] = elements;
  if (verb === undefined || (verb === "FD" && first === "S")) return false;
  return isDefinition(elements) || !QUIET.includes(verb);
}

/**
 * The number that an operation makes of a bug, by the deck alone, or null where the deck does not say which:
 * then the debugger need not be asked what it did. Undefined where it may do something else.
 * @param {string[]} elements
 * @returns {number | null | undefined}
 */
function numberMade([first, verb, third]) {
  if (!/^[A-Z]$/.test(first)) return undefined;
  if (verb[0] === "E" && /^[0-9]+$/.test(third)) return verb === "E" ? Number(third) : null;
  const isArithmetic = NUMBERS.includes(verb[0]) && /^.[OH]?$/.test(verb);
  return verb === "IN" || isArithmetic ? null : undefined;
}
