// A bar between two parts of the page: it is dragged, or moved by arrow keys, and a double click puts it back.

/**
 * `read` answers the share that it stands for, in percent, `write` sets it, or puts it back where it is null.
 * @typedef {{keys: [string, string], step: number, least: number, most: number, read: () => number,
 *   write: (percent: number | null) => void, at: (event: PointerEvent) => number}} Bar
 */

export class Splitter {
  /**
   * @param {HTMLElement} element
   * @param {Bar} bar
   */
  constructor(element, bar) {
    this.element = element;
    this.bar = bar;
    element.addEventListener("pointerdown", (event) => this.drag(event));
    element.addEventListener("keydown", (event) => this.key(event));
    element.addEventListener("dblclick", () => this.share(null));
    this.tell();
  }

  tell() {
    this.element.setAttribute("aria-valuenow", String(this.bar.read()));
  }

  // Gives the part a share; null is the one to begin with.
  /** @param {number | null} percent */
  share(percent) {
    const {least, most, write} = this.bar;
    write(percent === null ? null : Math.min(most, Math.max(least, percent)));
    this.tell();
  }

  /** @param {PointerEvent} event */
  drag(event) {
    this.element.setPointerCapture(event.pointerId);
    const {read, at} = this.bar;
    const beside = read() - at(event); // (the part may begin further from the bar)
    const move = (/** @type {PointerEvent} */ to) => this.share(at(to) + beside);
    const end = () => this.element.removeEventListener("pointermove", move);
    this.element.addEventListener("pointermove", move);
    this.element.addEventListener("pointerup", end, {once: true});
    this.element.addEventListener("pointercancel", end, {once: true});
  }

  /** @param {KeyboardEvent} event */
  key(event) {
    const {keys, step, read} = this.bar;
    const way = keys.indexOf(event.key);
    if (way < 0) return;
    event.preventDefault();
    event.stopPropagation();
    this.share(read() + (way ? step : -step));
  }
}
