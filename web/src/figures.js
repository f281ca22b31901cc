// The elements of a drawing: one for each block, bug and arrow. They stay from state to state, so that what
// moves glides, and what is the same is not drawn again.

import {PILL_HALF, PILL_STEP} from "./arrows.js";
import {partsOfBlock, pillOf} from "./block.js";
import {svg} from "./dom.js";
import {glide} from "./glide.js";
import {blockInWords} from "./spoken.js";

const COLOURS = 8;
const CROSS = 5; // pixels, of the mark on a broken arrow

/** @typedef {import("./graph.js").Graph} Graph */
/** @typedef {import("./graph.js").Block} Block */
/** @typedef {import("./graph.js").Bug} Bug */
/** @typedef {import("./arrows.js").Arrow} Arrow */
/** @typedef {import("./arrows.js").Point} Point */
/** @typedef {{element: SVGGElement, line: SVGPathElement, sign: string, points: Point[]}} ArrowFigure */
/** @typedef {{choose: (place: number) => void, fold: (place: number) => void, hide: (name: string) => void,
 *   focus: (place: number) => void, colourOf: (name: string) => string}} Ask */

export class Figures {
  /**
   * `ask` has what the reader may ask for by a click.
   * @param {Ask} ask
   */
  constructor(ask) {
    this.ask = ask;
    /** @type {Map<number, SVGGElement>} */
    this.blocks = new Map(); // by their places
    /** @type {Map<string, SVGGElement>} */
    this.pills = new Map();
    /** @type {Map<string, ArrowFigure>} */
    this.arrows = new Map();
    /** @type {WeakMap<Element, string>} */
    this.signs = new WeakMap(); // what each element shows
    /** @type {Element | undefined} */
    this.reachable = undefined; // the block that the tab key comes to
    this.layer = {
      ghosts: svg("g"),
      blocks: svg("g"),
      arrows: svg("g", {class: "arrows"}),
      pills: svg("g")
    };
  }

  get layers() {
    return [this.layer.ghosts, this.layer.blocks, this.layer.arrows, this.layer.pills];
  }

  forget() {
    this.blocks.clear();
    this.pills.clear();
    this.arrows.clear();
    for (const layer of this.layers) layer.replaceChildren();
  }

  /**
   * @param {Graph} graph
   * @param {Arrow[]} arrows
   * @param {number | null} chosen
   * @param {number | null} focused
   */
  draw(graph, arrows, chosen, focused) {
    const bugs = bugsByPlace(graph);
    this.drawBlocks(graph, bugs, chosen, focused);
    this.drawPills(graph, bugs);
    this.drawArrows(arrows);
  }

  /**
   * @param {Graph} graph
   * @param {Map<number, Bug[]>} bugs
   * @param {number | null} chosen
   * @param {number | null} focused
   */
  drawBlocks(graph, bugs, chosen, focused) {
    const hadFocus = this.layer.blocks.contains(document.activeElement);
    const kept = new Map();
    for (const block of graph.blocks) {
      const element = this.blocks.get(block.place) ?? this.newBlock(block.place);
      kept.set(block.place, element);
      this.drawBlock(element, block, bugs.get(block.place) ?? [], chosen);
      if (element.parentNode !== this.layer.blocks) this.layer.blocks.append(element);
    }
    for (const [place, element] of this.blocks) if (!kept.has(place)) element.remove();
    this.blocks = kept;
    this.layer.ghosts.replaceChildren(...graph.ghosts.map((ghost) => {
      const element = svg("g", {"data-place": ghost.place});
      this.drawBlock(element, ghost, [], null);
      return element;
    }));
    this.reach(this.blocks.get(focused ?? -1) ?? this.blocks.values().next().value);
    if (hadFocus) /** @type {any} */ (this.reachable)?.focus({preventScroll: true});
  }

  // The one block that the tab key comes to.
  /** @param {Element | undefined} element */
  reach(element) {
    if (this.reachable === element) return;
    this.reachable?.setAttribute("tabindex", "-1");
    element?.setAttribute("tabindex", "0");
    this.reachable = element;
  }

  /** @param {number} place */
  newBlock(place) {
    const element = svg("g", {role: "button", tabindex: -1, "data-place": place});
    element.addEventListener("click", () => this.ask.choose(place));
    element.addEventListener("dblclick", () => this.ask.fold(place));
    element.addEventListener("focus", () => this.ask.focus(place));
    return element;
  }

  /**
   * Draws a block, unless it is drawn so already.
   * @param {SVGGElement} element
   * @param {Block} block
   * @param {Bug[]} bugs
   * @param {number | null} chosen
   */
  drawBlock(element, block, bugs, chosen) {
    const {shape, isFolded, below} = block;
    const isAltered = shape.isBox && block.isChanged; // (a card shows each field that has changed)
    const kinds = [
      "block", block.isGhost && "ghost", shape.isChip && "chip", block.isLost && "lost",
      isAltered && "altered", block.isNew && "new", block.place === chosen && "chosen"
    ];
    const kind = kinds.filter((it) => it).join(" ");
    const cells = shape.rows.map((/** @type {any} */ row) => [row.y, row.note, row.cells.map(signOf)]);
    const sign = JSON.stringify(
      [kind, block.x, block.y, shape.width, shape.height, shape.text, cells, block.size, isFolded && below]
    );
    const label = block.isGhost ? null : blockInWords(block, bugs);
    if (label !== null) element.setAttribute("aria-label", label);
    if (this.signs.get(element) === sign) return;
    this.signs.set(element, sign);
    const more = ["lit", "stopped"].filter((it) => element.classList.contains(it));
    element.setAttribute("class", [kind, ...more].join(" "));
    element.style.transform = `translate(${block.x}px, ${block.y}px)`;
    element.replaceChildren(...partsOfBlock(block, this.ask.colourOf));
  }

  /**
   * @param {Graph} graph
   * @param {Map<number, Bug[]>} bugs
   */
  drawPills(graph, bugs) {
    const kept = new Map();
    for (const block of [...graph.blocks, ...graph.ghosts])
      for (const [index, bug] of (bugs.get(block.place) ?? []).entries()) {
        const element = this.pills.get(bug.name) ?? pillOf(bug.name, this.ask.hide);
        kept.set(bug.name, element);
        const kind = `pill${bug.isChanged ? " changed" : ""}${bug.isBroken ? " broken" : ""}`;
        element.setAttribute("class", kind);
        element.style.transform = `translate(${pillAt(block, index)}px, ${block.y}px)`;
        if (element.parentNode !== this.layer.pills) this.layer.pills.append(element);
      }
    for (const [name, element] of this.pills) if (!kept.has(name)) element.remove();
    this.pills = kept;
  }

  /** @param {Arrow[]} arrows */
  drawArrows(arrows) {
    const kept = new Map();
    for (const arrow of arrows) {
      const figure = this.arrows.get(arrow.name) ?? this.newArrow();
      kept.set(arrow.name, figure);
      this.drawArrow(figure, arrow);
    }
    for (const [name, {element}] of this.arrows) if (!kept.has(name)) element.remove();
    this.arrows = kept;
  }

  /** @returns {ArrowFigure} */
  newArrow() {
    const line = svg("path");
    const element = svg("g", {}, line);
    this.layer.arrows.append(element);
    return {element, line, sign: "", points: []};
  }

  /**
   * @param {ArrowFigure} figure
   * @param {Arrow} arrow
   */
  drawArrow(figure, {link, block, to, points, path, tag, dot}) {
    const isChanged = block.isNew || link.isChanged;
    const colour = this.ask.colourOf(link.name);
    const kind = `arrow ${colour}${isChanged ? " changed" : ""}${link.isBroken ? " broken" : ""}`;
    const head = link.isBroken ? "broken" : isChanged ? "new" : colour;
    const sign = `${path} ${kind} ${to.place} ${tag?.x} ${tag?.y}`;
    if (figure.sign === sign) return;
    figure.sign = sign;
    const {element, line} = figure;
    element.setAttribute("class", element.classList.contains("lit") ? `${kind} lit` : kind);
    Object.assign(element.dataset, {from: block.place, to: to.place, field: link.name});
    line.setAttribute("marker-end", `url(#head-${head})`);
    if (figure.points.length)
      glide(line, figure.points, points, path);
    else
      line.setAttribute("d", path);
    figure.points = points;
    element.replaceChildren(
      line,
      ...(dot ? [svg("circle", {cx: dot.x, cy: dot.y, r: 2.8})] : []),
      ...(tag ? [svg("text", {x: tag.x, y: tag.y, class: "tag"}, link.name)] : []),
      ...(link.isBroken ? [crossOn(points)] : [])
    );
  }
}

/**
 * The bugs that lead to each place.
 * @param {Graph} graph
 */
function bugsByPlace({bugs}) {
  /** @type {Map<number, Bug[]>} */
  const found = new Map();
  for (const bug of bugs) found.set(bug.place, [...(found.get(bug.place) ?? []), bug]);
  return found;
}

// What a cell shows, so that a block is drawn again only where that is another.
/** @param {any} cell */
function signOf({key, name, text, value, isChanged, link}) {
  return [key, name, text, value, isChanged, Boolean(link)];
}

/**
 * The mark on an arrow that is broken, in the middle of its longest part.
 * @param {Point[]} points
 */
function crossOn(points) {
  const parts = points.slice(1).map((to, index) => ({from: points[index], to}));
  const length = (/** @type {{from: Point, to: Point}} */ {from, to}) => Math.hypot(from.x - to.x, from.y - to.y);
  const {from, to} = parts.reduce((best, it) => (length(it) > length(best) ? it : best));
  const [x, y] = [(from.x + to.x) / 2 - CROSS, (from.y + to.y) / 2 - CROSS];
  const size = 2 * CROSS;
  return svg("path", {class: "break", d: `M${x} ${y}l${size} ${size}m0 ${-size}l${-size} ${size}`});
}

// Arrow heads, one for each colour.
export function arrowHeads() {
  const names = [...Array(COLOURS).keys()].map((it) => `f${it}`).concat("new", "lit", "broken");
  const size =
    {viewBox: "0 0 8 8", refX: 7, refY: 4, markerUnits: "userSpaceOnUse", markerWidth: 11, markerHeight: 11};
  return svg(
    "defs", {},
    ...names.map((name) => svg(
      "marker", {id: `head-${name}`, class: `head ${name}`, ...size, orient: "auto-start-reverse"},
      svg("path", {d: "M0.5 0.5L7.5 4L0.5 7.5Z"})
    ))
  );
}

// The colour, by its number, of the field that was met so many fields after the first.
/** @param {number} index */
export function colourNumber(index) {
  return index % COLOURS;
}

/**
 * Where a bug above a block begins: from its left on, or at one of its corners.
 * @param {Block} block
 * @param {number} index
 */
function pillAt({x, width, side = 0}, index) {
  if (side < 0) return x - PILL_HALF - index * PILL_STEP;
  return x + (side > 0 ? width - PILL_HALF : 0) + index * PILL_STEP;
}
