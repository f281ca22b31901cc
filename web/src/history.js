// How the store was used over the states of a run: a small graph of the words in blocks, the free words, and
// the largest free piece. A click goes to a state.

import {make, svg} from "./dom.js";
import {count, withCommas} from "./word.js";

const SAMPLES = 60; // states that are asked for
const WIDTH = 600;
const HEIGHT = 90;
/** @typedef {import("./view.js").View} View */
/** @typedef {import("./session.js").Session} Session */
/** @typedef {{number: number, used: number, free: number, largest: number}} Sample how a store is used in a state */

/** @type {{key: "used" | "free" | "largest", name: string, kind: string}[]} */
const LINES = [
  {key: "used", name: "words in blocks", kind: "used"},
  {key: "free", name: "free words", kind: "free"},
  {key: "largest", name: "largest free piece", kind: "largest"},
];

export class History {
  /**
   * The graph is in `frame`, and is made while the box is checked.
   * @param {HTMLElement} frame
   * @param {HTMLInputElement} box
   * @param {{goTo: (number: number) => void, trouble: (error: unknown) => void}} ask
   */
  constructor(frame, box, {goTo, trouble}) {
    this.frame = frame;
    this.box = box;
    this.goTo = goTo;
    this.trouble = trouble;
    /** @type {Sample[] | null} */
    this.samples = null;
    /** @type {View | null} */
    this.view = null;
    /** @type {Session | null} */
    this.session = null;
    box.addEventListener("change", () => this.draw());
  }

  /**
   * @param {View} view
   * @param {Session} session
   */
  show(view, session) {
    if (this.session !== session) this.samples = null;
    this.view = view;
    this.session = session;
    this.draw();
  }

  forget() {
    this.view = this.samples = this.session = null;
    this.frame.hidden = true;
  }

  async draw() {
    const {session, view} = this;
    this.frame.hidden = !this.box.checked || !view;
    if (!this.box.checked || !view || !session) return;
    let {samples} = this;
    try {
      samples ??= await session.totals(await numbersOf(session));
    } catch (error) {
      this.trouble(error);
      return;
    }
    if (this.session !== session || !this.view || !samples) return; // (another deck was opened meanwhile)
    this.samples = samples;
    this.put(samples, this.view.state.number);
  }

  /**
   * @param {Sample[]} samples
   * @param {number} number of the state that is shown
   */
  put(samples, number) {
    const last = Math.max(1, samples[samples.length - 1].number);
    const most = samples[0].used + samples[0].free;
    const x = (/** @type {number} */ at) => (at / last) * WIDTH;
    const y = (/** @type {number} */ words) => HEIGHT - 2 - (words / most) * (HEIGHT - 4);
    const lineOf = (/** @type {typeof LINES[0]} */ {key, kind}) => svg("polyline", {
      class: kind,
      points: samples.map((it) => `${x(it.number).toFixed(1)},${y(it[key]).toFixed(1)}`).join(" ")
    });
    const now =
      svg("line", {class: "now-line", x1: x(number), x2: x(number), y1: 0, y2: HEIGHT});
    const states = count(samples[samples.length - 1].number + 1, "state");
    const title = `Over ${states}, of ${withCommas(most)} words: ${inWords(samples)}`;
    const picture = svg(
      "svg", {
        viewBox: `0 0 ${WIDTH} ${HEIGHT}`,
        preserveAspectRatio: "none",
        role: "img",
        "aria-label": title,
        onclick: (/** @type {MouseEvent} */ event) => this.pick(event, last)
      },
      ...LINES.map(lineOf), now
    );
    const key = LINES.map(
      ({key: name, name: says, kind}) =>
        make("span", {class: kind}, `${says}: ${withCommas(nearest(samples, number)[name])}`)
    );
    this.frame.replaceChildren(picture, make("p", {class: "amounts"}, ...key));
  }

  /**
   * @param {MouseEvent} event
   * @param {number} last
   */
  pick(event, last) {
    const {left, width} = /** @type {Element} */ (event.currentTarget).getBoundingClientRect();
    this.goTo(Math.round(((event.clientX - left) / width) * last));
  }
}

// The states that are asked for: evenly from the first to the last one.
/** @param {Session} session */
async function numbersOf(session) {
  await session.run();
  const last = session.last ?? 0;
  const count = Math.min(SAMPLES, last + 1);
  const at = (/** @type {number} */ index) => (count < 2 ? 0 : Math.round((index * last) / (count - 1)));
  return [...new Set(Array.from({length: count}, (_, index) => at(index)))];
}

// The first, the greatest and the last of each line, for those who do not see it.
/** @param {Sample[]} samples */
function inWords(samples) {
  return LINES
    .map(({key, name}) => {
      const all = samples.map((it) => it[key]);
      return `${name} from ${withCommas(all[0])} to ${withCommas(all[all.length - 1])}, between ${
        withCommas(Math.min(...all))} and ${withCommas(Math.max(...all))}`;
    })
    .join("; ");
}

/**
 * @param {Sample[]} samples
 * @param {number} number
 */
function nearest(samples, number) {
  return samples.reduce(
    (best, it) => (Math.abs(it.number - number) < Math.abs(best.number - number) ? it : best)
  );
}
