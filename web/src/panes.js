// The parts of the page and their sizes: the bar between deck and drawing, that above the tables, which rows
// below the drawing are shown, and the lecture view, which has deck, drawing and place alone, in letters that
// are read from the last row.

import {byId} from "./dom.js";
import {Splitter} from "./splitter.js";

const COLUMN = "(max-width: 899px)"; // where all is in one column, as in the style
const ROWS = {                       // below the drawing, and the least height at which each is shown at first
  store: "(min-height: 780px)",
  tables: "(min-height: 980px)"
};

export class Panes {
  /**
   * `resized` is called where the drawing has another size.
   * @param {() => void} resized
   */
  constructor(resized) {
    this.resized = resized;
    /** @type {Map<string, boolean>} */
    this.chosen = new Map(); // the rows that the reader showed or hid
    const main = byId("main");
    this.splitter = new Splitter(byId("splitter"), {
      keys: ["ArrowLeft", "ArrowRight"],
      step: 2,
      least: 20,
      most: 75,
      read: () => Math.round((byId("left").getBoundingClientRect().width / window.innerWidth) * 100),
      write: (percent) => this.write(main, "--share", percent, "vw"),
      at: ({clientX}) => ((clientX - byId("left").getBoundingClientRect().left) / window.innerWidth) * 100
    });
    new Splitter(byId("row-splitter"), {
      keys: ["ArrowDown", "ArrowUp"],
      step: 2,
      least: 8,
      most: 60,
      read: () => Math.round((byId("details").getBoundingClientRect().height / window.innerHeight) * 100),
      write: (percent) => this.write(main, "--tables", percent, "vh"),
      at: ({clientY}) => ((byId("details").getBoundingClientRect().bottom - clientY) / window.innerHeight) * 100
    });
    for (const [name, condition] of Object.entries(ROWS)) {
      byId(`show-${name}`).addEventListener("click", () => this.toggle(name));
      matchMedia(condition).addEventListener("change", () => this.showRows());
    }
    this.showRows();
    matchMedia(COLUMN).addEventListener("change", () => this.resized());
  }

  /**
   * @param {HTMLElement} element
   * @param {string} name
   * @param {number | null} percent
   * @param {string} unit
   */
  write(element, name, percent, unit) {
    if (percent === null)
      element.style.removeProperty(name);
    else
      element.style.setProperty(name, `${percent}${unit}`);
    this.resized();
  }

  // ---- The rows below the drawing

  /** @param {string} name */
  isShown(name) {
    return this.chosen.get(name) ?? matchMedia(ROWS[/** @type {keyof typeof ROWS} */ (name)]).matches;
  }

  // Shows a row that the reader asked for something in.
  /** @param {string} name */
  open(name) {
    if (!this.isShown(name)) this.toggle(name);
  }

  /** @param {string} name */
  toggle(name) {
    this.chosen.set(name, !this.isShown(name));
    this.showRows();
    this.resized();
  }

  showRows() {
    for (const name of Object.keys(ROWS)) {
      document.body.classList.toggle(`no-${name}`, !this.isShown(name));
      byId(`show-${name}`).setAttribute("aria-pressed", String(this.isShown(name)));
    }
  }

  // ---- The lecture view

  get isLecture() {
    return document.body.classList.contains("lecture");
  }

  get isColumn() {
    return matchMedia(COLUMN).matches;
  }

  /** @param {boolean} isOn */
  lecture(isOn) {
    document.body.classList.toggle("lecture", isOn);
    byId("lecture").setAttribute("aria-pressed", String(isOn));
    this.resized();
  }

  // Drawing, deck and five buttons, in a frame of another page.
  embed() {
    document.body.classList.add("embed");
    this.resized();
  }

  // The share of the width that the deck has now, in percent.
  get shared() {
    return this.splitter.bar.read();
  }
}
