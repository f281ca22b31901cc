// The small map of a drawing of which not all is seen. A click on it goes there.

import {svg} from "./dom.js";

const SIZE = {width: 120, height: 84};

/** @typedef {import("./lens.js").Box} Box */
/** @typedef {import("./lens.js").Size} Size */

export class Overview {
  /** @param {(point: {x: number, y: number}) => void} go */
  constructor(go) {
    this.element = svg("svg", {class: "map", "aria-hidden": true, ...SIZE});
    this.seen = svg("rect", {class: "seen"});
    /** @type {any[]} */
    this.blocks = [];
    /** @type {any[]} */
    this.drawn = [];
    this.element.addEventListener("pointerdown", (/** @type {PointerEvent} */ event) => {
      event.stopPropagation();
      const matrix = this.element.getScreenCTM();
      if (matrix) go(new DOMPoint(event.clientX, event.clientY).matrixTransform(matrix.inverse()));
    });
    this.show({x: 0, y: 0, width: 1, height: 1}, {width: 1, height: 1}, true);
  }

  /**
   * Shows which part of a drawing of this size is seen; nothing where that is all, or where there is no block.
   * @param {Box} view
   * @param {Size} size
   * @param {boolean} isWhole
   */
  show(view, size, isWhole) {
    const isNone = isWhole || this.blocks.length === 0;
    this.element.style.display = isNone ? "none" : "";
    if (isNone) return;
    if (this.drawn !== this.blocks) this.draw();
    for (const [name, value] of Object.entries(view)) this.seen.setAttribute(name, value);
    this.element.setAttribute("viewBox", `0 0 ${size.width} ${size.height}`);
  }

  draw() {
    this.drawn = this.blocks;
    const paths = {plain: "", lost: "", fresh: ""};
    for (const {x, y, width, height, isNew, isChanged, isLost} of this.blocks)
      paths[isNew || isChanged ? "fresh" : isLost ? "lost" : "plain"] +=
        `M${x} ${y}h${width}v${height}h${-width}z`;
    this.element.replaceChildren(
      ...Object.entries(paths).map(([kind, d]) => svg("path", {class: kind, d})), this.seen
    );
  }
}
