// The drawing of the blocks: by which plan each has its place, which is chosen, what is lit, and what is said
// of it. A block stays where it is as long as it lives.

import {arrowsOf} from "./arrows.js";
import {Camera} from "./camera.js";
import {byId, svg} from "./dom.js";
import {arrowHeads, colourNumber, Figures} from "./figures.js";
import {graphOf} from "./graph.js";
import {Kinds} from "./kinds.js";
import {planOf, settle} from "./plan.js";
import {danglingInWords} from "./provenance.js";
import {snapshotOf} from "./snapshot.js";
import {drawingInWords} from "./spoken.js";
import {count, withCommas} from "./word.js";

const EDGE = 12;        // around a drawing in its frame
const OTHER = 1.3;      // a frame that is so much larger or smaller has another plan
const MOST_DRAWN = 400; // blocks of trees; what is below others is folded then
const LETTER = {chips: 13, boxes: 12, cards: 12}; // pixels in a scale of 1
const SMALL = 10;       // pixels of letters that can't be read well any more
const PAN = 60;         // pixels by a key
const MOST_NAMED = 4;   // lost blocks that are named

/** @typedef {import("./graph.js").Graph} Graph */
/** @typedef {import("./plan.js").Plan} Plan */
/** @typedef {import("./chain.js").ChainStep} ChainStep */
/** @typedef {import("./view.js").View} View */
/** @typedef {{choose: (place: number) => void, hide: (name: string) => void,
 *   told: (warnings: string[], notes: string[]) => void}} Ask */

export class Drawing {
  /**
   * `ask` has what the reader may ask for: `choose` gets the place of a block, `hide` the name of a bug, and
   * `told` what is said of the drawing.
   * @param {HTMLElement} frame
   * @param {Ask} ask
   */
  constructor(frame, ask) {
    this.frame = frame;
    this.ask = ask;
    this.kinds = new Kinds();
    /** @type {Map<string, number>} */
    this.colours = new Map(); // by names of fields, in the order in which they were met
    /** @type {Map<string, string>} */
    this.directions = new Map();
    /** @type {import("./plan.js").Detail | "auto"} */
    this.detail = "auto";
    /** @type {Plan | null} */
    this.plan = null;
    /** @type {Graph | null} */
    this.graph = null;
    /** @type {View | null} */
    this.view = null;
    /** @type {View | null} */
    this.before = null;
    this.isTidy = false;  // whether the plan is of one state alone
    this.isFresh = false; // whether it was not shown yet
    /** @type {Set<number>} */
    this.folded = new Set();
    /** @type {{blocks: Set<number>, arrows: Set<string>, end: number | null}} */
    this.lit = {blocks: new Set(), arrows: new Set(), end: null};
    /** @type {number | null} */
    this.chosen = null;
    /** @type {number | null} */
    this.focused = null;
    this.figures = new Figures({
      choose: (place) => this.pick(place),
      fold: (place) => this.fold(place),
      hide: ask.hide,
      focus: (place) => (this.focused = place),
      colourOf: (name) => this.colourOf(name)
    });
    this.picture = svg(
      "svg", {role: "group", "aria-roledescription": "drawing", class: "picture"}, arrowHeads(),
      ...this.figures.layers
    );
    frame.append(this.picture);
    this.camera = new Camera(frame, this.picture, byId("camera"), () => this.tell());
    frame.addEventListener("keydown", (event) => this.key(event));
  }

  forget() {
    this.colours.clear();
    this.directions.clear();
    this.kinds.forget();
    this.isTidy = false;
    this.replan();
    this.chosen = null;
    this.light([]);
  }

  // Another plan is made where the drawing is shown next.
  replan() {
    this.plan = null;
    this.folded.clear();
  }

  /**
   * The run was read: the drawing is made again, of all of it.
   * @param {import("./deck.js").Reading} reading
   * @param {import("./chronicle.js").Chronicle | null} chronicle
   */
  learn(reading, chronicle) {
    if (this.kinds.chronicle !== chronicle && !this.isTidy) this.replan();
    this.kinds.begin(reading, chronicle);
  }

  /** @param {string} name */
  colourOf(name) {
    const first = name[0];
    if (!this.colours.has(first)) this.colours.set(first, colourNumber(this.colours.size));
    return `f${this.colours.get(first)}`;
  }

  /** @param {import("./chronicle.js").Window} window */
  kindOf(window) {
    return this.kinds.of(window, this.number);
  }

  // The number of the state that is shown.
  get number() {
    return this.view?.state.number ?? 0;
  }

  /**
   * Shows a view; what is another than before is marked. Where all blocks are new, since the reader comes from far
   * away, none is, or the colours of the links could not be seen.
   * @param {View} view
   * @param {View | null} before
   */
  show(view, before) {
    this.view = view;
    this.before = before && (before.store.blocks > 0 || view.store.blocks === 1) ? before : null;
    for (const name of view.fields.keys()) this.colourOf(name);
    const plan = this.plan ?? this.makePlan(view);
    const {folded} = this;
    const {chronicle} = this.kinds;
    const graph = graphOf(view, this.before, {plan, chronicle, folded, kindOf: (it) => this.kindOf(it)});
    this.graph = graph;
    this.place(graph, plan);
    this.figures.draw(graph, arrowsOf(graph, plan), this.chosen, this.focused);
    this.applyLight();
    this.aim(graph, plan);
    this.picture.setAttribute("aria-label", drawingInWords(graph));
    if (!this.frame.clientWidth) this.replan(); // (it is not seen, so the plan has no frame)
    return graph;
  }

  /**
   * Moves the camera to what has changed, or to where it was in this state.
   * @param {Graph} graph
   * @param {Plan} plan
   */
  aim(graph, plan) {
    const {camera, number} = this;
    if (this.isFresh)
      camera.start(plan, plan.most, plan.legible, plan.places.get(plan.first ?? -1));
    else if (camera.size.width !== plan.width || camera.size.height !== plan.height)
      camera.resize({width: plan.width, height: plan.height});
    this.isFresh = false;
    camera.showMap(graph.blocks);
    if (!camera.follows) return;
    if (!camera.recall(number)) this.revealChange(graph);
    camera.remember(number);
  }

  /** @param {View} view */
  makePlan(view) {
    const {kinds} = this;
    const isRun = this.isTidy ? null : kinds.chronicle;
    const material = isRun || snapshotOf(view, (it) => this.kindOf(it) === "link");
    const texts = new Set();
    for (const {key, names} of material.windows.values())
      if (kinds.of({key, names}, this.number) === "text") for (const name of names) texts.add(name);
    this.plan = planOf(material, {
      directions: this.directions,
      detail: this.detail,
      frame: {width: this.frame.clientWidth - EDGE, height: this.frame.clientHeight - EDGE},
      isLecture: document.body.classList.contains("lecture"),
      isLink: (key) => kinds.mayLink(key),
      texts
    });
    this.isFresh = true;
    this.foldMany(this.plan);
    return this.plan;
  }

  // The frame has another size: where it is quite another one, another plan is made.
  resized() {
    const {clientWidth, clientHeight} = this.frame;
    if (!clientWidth || !clientHeight) return; // (it is not shown)
    const isOther = (/** @type {number} */ a, /** @type {number} */ b) => a > b * OTHER || b > a * OTHER;
    const frame = this.plan?.frame;
    if (frame && (isOther(clientWidth, frame.width) || isOther(clientHeight, frame.height))) this.replan();
    this.camera.resize();
    if (this.view && !this.plan) this.show(this.view, this.before);
  }

  /**
   * Of a run with very many blocks in trees, those far down are folded.
   * @param {Plan} plan
   */
  foldMany({below}) {
    let drawn = below.size;
    if (drawn <= MOST_DRAWN) return;
    const trees = [...below].filter(([, under]) => under.length > 0).sort((a, b) => a[1].length - b[1].length);
    const away = new Set();
    for (const [place, under] of trees) {
      if (drawn <= MOST_DRAWN) break;
      const more = under.filter((it) => !away.has(it));
      for (const it of more) away.add(it);
      this.folded.add(place);
      drawn -= more.length;
    }
  }

  /**
   * Places what is drawn by the plan. What that does not know is put next to what it belongs to.
   * @param {Graph} graph
   * @param {Plan} plan
   */
  place({blocks, ghosts}, plan) {
    const drawn = [...blocks, ...ghosts];
    for (const block of drawn) if (!plan.places.has(block.place)) settle(plan, block, drawn);
    for (const block of drawn) Object.assign(block, plan.places.get(block.place));
  }

  // Another picture, of the blocks that are there now alone; again, that of the whole run.
  tidy() {
    if (!this.view) return;
    this.isTidy = !this.isTidy;
    this.replan();
    this.show(this.view, this.before);
  }

  /** @param {string} text */
  empty(text) {
    this.graph = this.view = null;
    this.figures.forget();
    this.picture.setAttribute("aria-label", text);
    this.camera.showMap([]); // (which tells that there is nothing to be told of)
  }

  // ---- What is said of it

  // Tells which pointers dangle, what is not drawn, and whether there is more than one sees.
  tell() {
    if (!this.view || !this.graph) return this.ask.told([], []);
    const notes = [...this.hiddenInWords(this.graph, this.view), ...this.seenInWords(this.graph)];
    this.ask.told(danglingInWords(this.graph.dangling), notes);
  }

  /**
   * @param {Graph} graph
   * @param {View} view
   */
  hiddenInWords({blocks}, view) {
    const {hidden, hiddenLost, places} = view.shown;
    const folded = places.length - blocks.length;
    const lost = blocks.filter((it) => it.isLost).map((it) => it.place);
    const more = lost.length > MOST_NAMED ? " .." : "";
    const {chronicle} = this.kinds;
    const isPast = chronicle && !chronicle.knows(this.number);
    return [
      lost.length ? `Lost: nothing leads to ${lost.slice(0, MOST_NAMED).join(", ")}${more}` : "",
      hidden ? `Not drawn: ${count(hidden, "block")} further from the bugs` : "",
      hiddenLost ? `Not drawn: ${withCommas(hiddenLost)} lost` : "",
      folded ? `Folded: ${count(folded, "block")}` : "",
      isPast ? `The run is read up to state ${withCommas(chronicle.last)}; past it no use after free is reported` : ""
    ].filter((it) => it);
  }

  /** @param {Graph} graph */
  seenInWords({blocks}) {
    const {camera, plan} = this;
    if (!plan || !blocks.length) return [];
    if (!camera.isWhole) {
      const seen = blocks.filter((it) => camera.sees(it)).length;
      return seen < blocks.length ? [`${seen} of ${count(blocks.length, "block")} in view`] : [];
    }
    const letters = LETTER[plan.detail] * camera.aim.scale;
    return letters < SMALL ? ["Small letters: + or a pinch comes nearer"] : [];
  }

  // Folds what is below a block, or unfolds it.
  /** @param {number} place */
  fold(place) {
    if (!this.view || !this.plan?.below.get(place)?.length) return;
    if (!this.folded.delete(place)) this.folded.add(place);
    this.show(this.view, this.before);
  }

  // ---- What is lit, chosen and in focus

  /**
   * Lights the way of a chain: the blocks that it comes to, and the arrows along which. Where it traps, the
   * block at which it ends is marked.
   * @param {ChainStep[]} steps
   * @param {import("./chain.js").ChainTrap | null | undefined} trap
   */
  light(steps, trap = null) {
    const fields = steps.filter((it) => it.place !== null);
    this.lit = {
      blocks: new Set([...fields.map((it) => it.place ?? -1), ...steps.map((it) => it.value)]),
      arrows: new Set(fields.map((it) => `${it.place} ${it.name}`)),
      end: trap ? fields.at(-1)?.place ?? null : null
    };
    this.applyLight();
  }

  applyLight() {
    const {blocks, arrows, end} = this.lit;
    for (const [place, element] of this.figures.blocks) {
      element.classList.toggle("lit", blocks.has(place));
      element.classList.toggle("stopped", place === end);
    }
    for (const {element} of this.figures.arrows.values()) {
      const {from, field = ""} = element.dataset;
      element.classList.toggle("lit", field.split(" ").some((name) => arrows.has(`${from} ${name}`)));
    }
  }

  // Brings the first block that has changed into sight, if none is.
  /** @param {Graph} graph */
  revealChange({blocks, bugs}) {
    const led = new Set(bugs.filter((it) => it.isChanged).map((it) => it.place));
    const changed = blocks.filter((it) => it.isNew || it.isChanged);
    const wanted = changed.length ? changed : blocks.filter((it) => led.has(it.place));
    if (wanted.length && !wanted.some((it) => this.camera.sees(it))) this.camera.reveal(wanted[0]);
  }

  // Puts the focus on the block that had it last, or on the first.
  focusBlock() {
    const {blocks} = this.figures;
    (blocks.get(this.focused ?? -1) ?? blocks.values().next().value)?.focus();
  }

  /** @param {number} place */
  pick(place) {
    this.mark(place);
    this.ask.choose(place);
  }

  /** @param {number | null} place */
  mark(place) {
    const {blocks} = this.figures;
    blocks.get(this.chosen ?? -1)?.classList.remove("chosen");
    this.chosen = place;
    blocks.get(place ?? -1)?.classList.add("chosen");
  }

  // Arrow keys go from block to block, Enter chooses one; the others are of the camera.
  /** @param {KeyboardEvent} event */
  key(event) {
    const {camera, focused} = this;
    const turn = {ArrowRight: [1, 0], ArrowDown: [0, 1], ArrowLeft: [-1, 0], ArrowUp: [0, -1]}[event.key];
    const isBlock = focused !== null && this.figures.blocks.has(focused);
    const keys = {
      "+": () => camera.zoom(),
      "=": () => camera.zoom(),
      "-": () => camera.zoom(0.8),
      "0": () => camera.fitInTurn(),
      h: isBlock && (() => this.hideBugAt(focused)),
      f: isBlock && (() => this.fold(focused)),
      Enter: isBlock && (() => this.pick(focused)),
      " ": isBlock && (() => this.pick(focused))
    };
    const name = event.key.length > 1 ? event.key : event.key.toLowerCase(); // (Caps Lock may be on)
    const what = keys[/** @type {keyof typeof keys} */ (name)];
    if (event.ctrlKey || event.metaKey || event.altKey) return;
    if (turn && event.shiftKey)
      camera.pan(-turn[0] * PAN, -turn[1] * PAN);
    else if (turn && isBlock)
      this.focusNext(turn[0] + turn[1]);
    else if (what && !(event.target instanceof HTMLButtonElement))
      what();
    else
      return;
    event.preventDefault();
    event.stopPropagation();
  }

  /** @param {number} step */
  focusNext(step) {
    const places = [...this.figures.blocks.keys()].sort((a, b) => {
      const [one, other] = [this.plan?.places.get(a), this.plan?.places.get(b)];
      return one && other ? one.y - other.y || one.x - other.x : 0;
    });
    const at = places.indexOf(this.focused ?? -1) + step;
    const element = this.figures.blocks.get(places[Math.min(places.length - 1, Math.max(0, at))]);
    this.figures.reach(element);
    element?.focus();
  }

  /** @param {number} place */
  hideBugAt(place) {
    const bug = this.graph?.bugs.find((it) => it.place === place);
    if (bug) this.ask.hide(bug.name);
  }
}
