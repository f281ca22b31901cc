// The fields above the drawing: a click on a name turns the direction of its links, one on the sign after it
// says what the field holds, links, numbers or texts. And the bugs that are hidden.

import {byId, make} from "./dom.js";

const SIGNS = {link: "⚭", number: "#", text: "A"};
const MANY = {link: "links", number: "numbers", text: "texts"};

/** @typedef {import("./drawing.js").Drawing} Drawing */
/** @typedef {import("./chronicle.js").Window} Window */

export class Legend {
  /**
   * `ask` has what a click does: `changed` where the drawing is to be made again, and `show` a bug again.
   * @param {Drawing} drawing
   * @param {{changed: () => void, show: (name: string) => void}} ask
   */
  constructor(drawing, ask) {
    this.drawing = drawing;
    this.ask = ask;
    this.sign = ""; // what is shown
  }

  /** @param {string[]} hidden names of bugs */
  show(hidden) {
    const {graph, kinds, number} = this.drawing;
    if (!graph) return;
    const tell = (/** @type {Window} */ it) =>
      [it.name, it.key, kinds.of(it, number), kinds.chosen.has(it.key), graph.ways.get(it.key)];
    const sign = JSON.stringify([graph.windows.map(tell), hidden]);
    if (sign === this.sign) return; // (so that the focus stays)
    this.sign = sign;
    const was = document.activeElement?.id;
    byId("legend").replaceChildren(...graph.windows.map((it) => this.partOf(it)));
    byId("hidden-bugs").replaceChildren(...hidden.map((it) => this.buttonOf(it)));
    if (was) byId(was)?.focus();
  }

  forget() {
    this.sign = "";
    byId("legend").replaceChildren();
    byId("hidden-bugs").replaceChildren();
  }

  /** @param {Window} window */
  partOf(window) {
    const colour = this.drawing.colourOf(window.name);
    const way = this.drawing.graph?.ways.get(window.key);
    const kind = this.drawing.kindOf(window);
    const isLink = kind === "link" && way;
    return make(
      "span", {class: colour, "data-kind": kind},
      isLink ? this.wayOf(window, way) : make("b", {}, window.name), this.kindOf(window, kind)
    );
  }

  /**
   * @param {Window} window
   * @param {import("./rows.js").Way} way
   */
  wayOf(window, way) {
    const title = `Links of ${window.name} lead ${way.down ? "down" : "along a line"}: click to turn`;
    const turn = () => {
      for (const name of window.names) this.drawing.directions.set(name, way.down ? "right" : "down");
      this.changed();
    };
    const id = `way-${window.key}`;
    const arrow = way.down ? "↓" : way.isBack ? "←" : "→";
    return make("button", {type: "button", class: "way", id, title, onclick: turn}, `${window.name} ${arrow}`);
  }

  /**
   * @param {Window} window
   * @param {import("./kinds.js").Kind} kind
   */
  kindOf(window, kind) {
    const {kinds} = this.drawing;
    const why = kinds.chosen.has(window.key) ? "as you chose" : "as the run uses it";
    const title = `${window.name} holds ${MANY[kind]}, ${why}: click for another kind`;
    const turn = () => {
      kinds.turn(window, this.drawing.number);
      this.changed();
    };
    const names = {id: `kind-${window.key}`, title, "aria-label": title};
    return make("button", {type: "button", class: "kind", ...names, onclick: turn}, SIGNS[kind]);
  }

  /** @param {string} name */
  buttonOf(name) {
    const title = `Bug ${name} is not drawn: show it again`;
    return make("button", {type: "button", title, onclick: () => this.ask.show(name)}, `${name} hidden`);
  }

  changed() {
    this.drawing.replan();
    this.ask.changed();
  }
}
