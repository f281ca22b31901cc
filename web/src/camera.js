// What of a drawing is seen: all of it, or a part that the reader has come nearer to, moved, or asked to follow.
// The camera alone moves then, and the blocks stay where they are.

import {make} from "./dom.js";
import {around, boxAround, centred, isIn, MOST, onTheWay, revealed, seenFrom, whole, zoomed} from "./lens.js";
import {Overview} from "./overview.js";

const STEP = 1.25;    // by a button or a key
const WHEEL = 0.0016; // for each pixel of a wheel
const FAR = 4;        // pixels from which on a press is a drag
const SLIGHT = 12;    // pixels by which a frame may differ, and the drawing stays
const LASTS = 220;    // milliseconds

/** @typedef {import("./lens.js").Spot} Spot */
/** @typedef {import("./lens.js").Box} Box */
/** @typedef {import("./lens.js").Size} Size */

export class Camera {
  /**
   * The camera of a picture in a frame, with its buttons in a box. `moved` is called where another part is
   * seen.
   * @param {HTMLElement} frame
   * @param {SVGSVGElement} picture
   * @param {HTMLElement} box
   * @param {() => void} moved
   */
  constructor(frame, picture, box, moved) {
    this.frame = frame;
    this.picture = picture;
    this.moved = moved;
    /** @type {Size} */
    this.size = {width: 10, height: 10}; // of the drawing
    /** @type {Spot} */
    this.at = {x: 0, y: 0, scale: 1};
    this.aim = this.at; // where it is going
    /** @type {Map<number, Spot>} */
    this.spots = new Map(); // in states that were shown
    this.isFitted = true;   // until the reader moves it
    this.follows = true;
    this.most = MOST;
    /** @type {Size} */
    this.fittedTo = {width: 0, height: 0}; // the frame in which it was fitted
    /** @type {Map<number, {x: number, y: number}>} */
    this.pointers = new Map();
    this.isDrag = false;
    this.begun = {x: 0, y: 0};
    this.asked = 0; // the frame that was asked for
    this.box = "";
    this.overview = new Overview((point) => this.lookAt(point));
    this.frame.append(this.overview.element);
    box.replaceChildren(...this.buttons());
    this.listen();
    this.apply();
  }

  buttons() {
    const button = (/** @type {string} */ text, /** @type {string} */ title, /** @type {() => void} */ onclick) =>
      make("button", {type: "button", title, "aria-label": title, onclick}, text);
    return [
      button("Fit", "All of the drawing; again, the blocks that are there now (0)", () => this.fitInTurn()),
      button("+", "Nearer (+)", () => this.zoom(STEP)),
      button("−", "Further away (-)", () => this.zoom(1 / STEP))
    ];
  }

  listen() {
    const {frame} = this;
    frame.addEventListener("wheel", (event) => {
      event.preventDefault();
      const {x, y} = this.pointIn(event.clientX, event.clientY);
      this.zoom(Math.exp(-event.deltaY * WHEEL), x, y, false);
    }, {passive: false});
    frame.addEventListener("pointerdown", (event) => this.press(event));
    frame.addEventListener("pointermove", (event) => this.drag(event));
    for (const name of ["pointerup", "pointercancel"])
      frame.addEventListener(name, (event) => this.pointers.delete(/** @type {PointerEvent} */ (event).pointerId));
    // (a click that ends a drag chooses nothing)
    frame.addEventListener("click", (event) => this.isDrag && event.stopPropagation(), true);
  }

  get room() {
    return {width: this.frame.clientWidth, height: this.frame.clientHeight};
  }

  // A point of the window, as one of the frame.
  /**
   * @param {number} x
   * @param {number} y
   */
  pointIn(x, y) {
    const {left, top} = this.frame.getBoundingClientRect();
    return {x: x - left, y: y - top};
  }

  /** @param {PointerEvent} event */
  press(event) {
    this.isDrag = false;
    this.pointers.set(event.pointerId, {x: event.clientX, y: event.clientY});
    this.begun = {x: event.clientX, y: event.clientY};
  }

  // One pointer moves the drawing; two, which are fingers, make it larger or smaller, too.
  /** @param {PointerEvent} event */
  drag(event) {
    const old = this.pointers.get(event.pointerId);
    if (!old || event.buttons === 0) return;
    const now = {x: event.clientX, y: event.clientY};
    if (!this.isDrag && Math.hypot(now.x - this.begun.x, now.y - this.begun.y) > FAR) {
      this.isDrag = true;
      this.frame.setPointerCapture(event.pointerId); // (not before, or no click chooses a block)
    }
    if (!this.isDrag) return;
    const other = [...this.pointers].find(([id]) => id !== event.pointerId)?.[1];
    this.pointers.set(event.pointerId, now);
    if (other) {
      const apart = (/** @type {{x: number, y: number}} */ it) => Math.hypot(it.x - other.x, it.y - other.y) || 1;
      const {x, y} = this.pointIn((now.x + other.x) / 2, (now.y + other.y) / 2);
      this.zoom(apart(now) / apart(old), x, y, false);
    } else {
      this.byHand();
      this.go({...this.at, x: this.at.x + now.x - old.x, y: this.at.y + now.y - old.y}, false);
    }
  }

  // The reader moves it: it stays where that leads.
  byHand() {
    this.isFitted = false;
    this.spots.clear();
  }

  // Comes nearer, or goes away; a point of the frame stays where it is.
  zoom(by = STEP, x = this.room.width / 2, y = this.room.height / 2, isSmooth = true) {
    this.byHand();
    this.go(zoomed(this.at, by, x, y), isSmooth);
  }

  // Goes to a point of the drawing.
  /** @param {{x: number, y: number}} point */
  lookAt(point) {
    this.byHand();
    this.go(centred(this.at, point, this.room), true);
  }

  // Moves by so many pixels.
  /**
   * @param {number} x
   * @param {number} y
   */
  pan(x, y) {
    this.byHand();
    this.go({...this.aim, x: this.aim.x + x, y: this.aim.y + y}, true);
  }

  // Shows all.
  fit(isSmooth = true) {
    this.spots.clear();
    this.isFitted = true;
    this.fittedTo = this.room;
    this.go(whole(this.size, this.room, this.most), isSmooth);
  }

  // Shows all; and where all is shown, the blocks that are there now, which may be few.
  fitInTurn() {
    const box = this.isFitted ? boxAround(this.overview.blocks) : null;
    if (!box) return this.fit();
    this.byHand();
    return this.go(around(box, this.room, this.most), true);
  }

  /**
   * Begins with a drawing of this size, in this scale at most; where it would be too small to be read, with
   * its upper part, round one place.
   * @param {Size} size
   * @param {number} most
   * @param {number} least
   * @param {{x: number, y: number} | undefined} first
   */
  start({width, height}, most, least, first) {
    this.spots.clear();
    this.size = {width, height};
    this.most = most;
    if (whole(this.size, this.room, most).scale >= least) {
      this.fit(false);
      return;
    }
    this.byHand();
    const x = this.room.width / 2 - (first?.x ?? width / 2) * least;
    this.go({x, y: 0, scale: least}, false);
  }

  // The drawing or its frame has another size.
  resize(size = this.size) {
    const {width, height} = this.room;
    const isSame = size === this.size && Math.abs(width - this.fittedTo.width) < SLIGHT &&
      Math.abs(height - this.fittedTo.height) < SLIGHT;
    this.size = size;
    if (this.isFitted && !isSame)
      this.fit(false);
    else
      this.apply();
  }

  /**
   * Brings a box of the drawing into sight.
   * @param {Box} box
   */
  reveal(box) {
    const next = revealed(this.aim, box, this.room);
    if (next !== this.aim) this.go(next, true);
  }

  // Whether all of a box is seen.
  /** @param {Box} box */
  sees(box) {
    return isIn(box, seenFrom(this.aim, this.room));
  }

  get isWhole() {
    return this.sees({x: 0, y: 0, ...this.size});
  }

  // Where it is in a state, so that going back shows that picture again; until the reader moves it.
  /** @param {number} number */
  remember(number) {
    this.spots.set(number, this.aim);
  }

  // Goes where it was in a state, if that is known.
  /** @param {number} number */
  recall(number) {
    const spot = this.spots.get(number);
    if (!spot) return false;
    const {x, y, scale} = this.aim;
    if (spot.x !== x || spot.y !== y || spot.scale !== scale) this.go(spot, true);
    return true;
  }

  /**
   * @param {Spot} to
   * @param {boolean} isSmooth
   */
  go(to, isSmooth) {
    this.aim = to; // (it may take a moment to be there)
    cancelAnimationFrame(this.asked);
    if (!isSmooth || matchMedia("(prefers-reduced-motion: reduce)").matches) {
      this.at = to;
      this.apply();
      return;
    }
    const [from, begun] = [this.at, performance.now()];
    const next = (/** @type {number} */ now) => {
      const part = Math.min(1, Math.max(0, (now - begun) / LASTS));
      this.at = part < 1 ? onTheWay(from, to, part * (2 - part)) : to;
      this.apply();
      if (part < 1) this.asked = requestAnimationFrame(next);
    };
    this.asked = requestAnimationFrame(next);
  }

  apply() {
    const view = seenFrom(this.at, this.room);
    const box = `${view.x} ${view.y} ${view.width} ${view.height}`;
    if (box !== this.box) this.picture.setAttribute("viewBox", box); // (or all would be laid out again)
    this.box = box;
    this.overview.show(view, this.size, isIn({x: 0, y: 0, ...this.size}, view));
    this.moved();
  }

  // The blocks of the small map.
  /** @param {any[]} blocks */
  showMap(blocks) {
    this.overview.blocks = blocks;
    this.apply();
  }
}
