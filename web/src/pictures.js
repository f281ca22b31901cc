// What is drawn, for use outside of the page: as SVG and PNG, as a frame for another page, and as a handout that
// is printed with the deck, the states that were chosen, and the printout.

import {byId, make, svg} from "./dom.js";
import {saveBlob} from "./download.js";
import {withCommas} from "./word.js";

const STYLED = [
  "fill", "stroke", "stroke-width", "stroke-dasharray", "font-family", "font-size", "font-weight", "text-anchor",
  "opacity", "marker-end"
];
const FINE = 2; // dots of a PNG for each pixel
const SPACE = "http://www.w3.org/2000/svg";

/** @typedef {{width: number, height: number}} Size */

/**
 * A copy of a drawing that needs no style sheet, all of it, in this size.
 * @param {SVGSVGElement} picture
 * @param {Size} size
 * @returns {SVGSVGElement}
 */
export function standalone(picture, {width, height}) {
  const copy = /** @type {SVGSVGElement} */ (picture.cloneNode(true));
  const all = [picture, ...picture.querySelectorAll("*")];
  const copies = [copy, ...copy.querySelectorAll("*")];
  for (const [index, element] of all.entries()) {
    const style = getComputedStyle(element);
    const to = /** @type {SVGElement} */ (copies[index]);
    for (const name of STYLED) {
      const value = style.getPropertyValue(name);
      if (value && value !== "none" || name === "fill" || name === "stroke") to.style.setProperty(name, value);
    }
    const {transform} = /** @type {SVGElement} */ (element).style;
    if (transform) {
      to.style.removeProperty("transform");
      to.setAttribute("transform", transform.replaceAll("px", ""));
    }
    for (const attribute of ["class", "role", "tabindex", "aria-label", "aria-roledescription"])
      to.removeAttribute(attribute);
  }
  copy.setAttribute("xmlns", SPACE);
  copy.setAttribute("viewBox", `0 0 ${width} ${height}`);
  copy.setAttribute("width", String(width));
  copy.setAttribute("height", String(height));
  const ground = getComputedStyle(document.body).getPropertyValue("--paper").trim();
  copy.prepend(svg("rect", {width, height, fill: ground}));
  return copy;
}

/**
 * A drawing as the text of an SVG file.
 * @param {SVGSVGElement} picture
 * @param {Size} size
 */
export function svgText(picture, size) {
  const text = new XMLSerializer().serializeToString(standalone(picture, size));
  return `<?xml version="1.0" encoding="UTF-8"?>\n${text}\n`;
}

/**
 * A drawing as a PNG.
 * @param {SVGSVGElement} picture
 * @param {Size} size
 * @returns {Promise<Blob>}
 */
export async function pngOf(picture, size) {
  const address = URL.createObjectURL(new Blob([svgText(picture, size)], {type: "image/svg+xml"}));
  try {
    const image = new Image();
    image.src = address;
    await image.decode();
    const canvas = document.createElement("canvas");
    canvas.width = Math.ceil(size.width * FINE);
    canvas.height = Math.ceil(size.height * FINE);
    canvas.getContext("2d")?.drawImage(image, 0, 0, canvas.width, canvas.height);
    const blob = await new Promise((resolve) => canvas.toBlob(resolve, "image/png"));
    if (!blob) throw new Error("the browser makes no picture of it");
    return blob;
  } finally {
    URL.revokeObjectURL(address);
  }
}

export class Pictures {
  /**
   * `source` has the drawing, the view and what the page says of it, a link to it, and `tell`.
   * @param {{drawing: () => import("./drawing.js").Drawing, view: () => import("./view.js").View | null,
   *   says: () => string,
   *   frameLink: () => Promise<string>, tell: (text: string) => void}} source
   */
  constructor(source) {
    this.source = source;
    const on = (/** @type {string} */ id, /** @type {() => any} */ what) => byId(id).addEventListener("click", () => {
      byId("share").open = false;
      Promise.resolve(what()).catch((/** @type {Error} */ error) => source.tell(error.message));
    });
    on("save-svg", () => this.saveSvg());
    on("save-png", () => this.savePng());
    on("keep-state", () => this.keep());
    on("print", () => window.print());
    on("frame-code", () => this.frameCode());
  }

  // The drawing and its size, or null, which is said, where nothing is drawn.
  drawn() {
    const {picture, plan, graph} = this.source.drawing();
    if (graph?.blocks.length && plan) return {picture, size: {width: plan.width, height: plan.height}};
    this.source.tell("Nothing is drawn yet.");
    return null;
  }

  saveSvg() {
    const found = this.drawn();
    if (found) saveBlob("drawing.svg", new Blob([svgText(found.picture, found.size)], {type: "image/svg+xml"}));
  }

  async savePng() {
    const found = this.drawn();
    if (found) saveBlob("drawing.png", await pngOf(found.picture, found.size));
  }

  // Keeps the state that is shown for the handout, once.
  keep() {
    const [found, view] = [this.drawn(), this.source.view()];
    if (!found || !view) return;
    const {number} = view.state;
    const copy = standalone(found.picture, found.size);
    const title = `State ${withCommas(number)}: ${this.source.says()}`;
    const figure = make("figure", {"data-state": number}, make("figcaption", {}, title), copy);
    const old = byId("handout").querySelector(`[data-state="${number}"]`);
    if (old)
      old.replaceWith(figure);
    else
      byId("handout").append(figure);
    this.source.tell(`State ${withCommas(number)} will be printed.`);
  }

  forget() {
    byId("handout").replaceChildren();
  }

  // The markup of a frame that shows the page in another one.
  async frameCode() {
    const code = `<iframe src="${await this.source.frameLink()}" width="900" height="480" title="L6"></iframe>`;
    try {
      await navigator.clipboard.writeText(code);
      this.source.tell("The code of the frame is copied.");
    } catch {
      this.source.tell(code);
    }
  }
}
