// Arrows glide from one way to another: points along the old way go to points along the new one.

const POINTS = 24;
const LASTS = 250; // milliseconds

/** @typedef {{x: number, y: number}} Point */

/** @type {WeakMap<Element, number>} */
const gliding = new WeakMap(); // the frame that each path has asked for

/**
 * Some points along a way, at the same distances from one another.
 * @param {Point[]} points
 * @param {number} count
 * @returns {Point[]}
 */
export function along(points, count = POINTS) {
  const lengths = points.slice(1).map((it, index) => Math.hypot(it.x - points[index].x, it.y - points[index].y));
  const whole = lengths.reduce((sum, it) => sum + it, 0);
  const found = [];
  for (let index = 0; index < count; index++) {
    let left = (whole * index) / (count - 1);
    let part = 0;
    while (part < lengths.length - 1 && left > lengths[part]) left -= lengths[part++];
    const [from, to] = [points[part], points[part + 1] ?? points[part]];
    const share = lengths[part] ? Math.min(1, left / lengths[part]) : 0;
    found.push({x: from.x + (to.x - from.x) * share, y: from.y + (to.y - from.y) * share});
  }
  return found;
}

/**
 * The points between two ways of the same number of points: 0 is the first way, 1 the second.
 * @param {Point[]} from
 * @param {Point[]} to
 * @param {number} part
 * @returns {Point[]}
 */
export function between(from, to, part) {
  return from.map((it, index) => ({
    x: it.x + (to[index].x - it.x) * part,
    y: it.y + (to[index].y - it.y) * part
  }));
}

// Whether things glide: not where the reader wants little motion, nor where steps follow one another quickly.
export function mayGlide() {
  return !document.body.classList.contains("quick") && !matchMedia("(prefers-reduced-motion: reduce)").matches;
}

/**
 * Has the path of an arrow glide from one way to another, and then be the path that it is to be.
 * @param {SVGPathElement} element
 * @param {Point[]} old
 * @param {Point[]} now
 * @param {string} path
 */
export function glide(element, old, now, path) {
  cancelAnimationFrame(gliding.get(element) ?? 0);
  if (!mayGlide()) {
    element.setAttribute("d", path);
    return;
  }
  const [from, to] = [along(old), along(now)];
  const begun = performance.now();
  const next = (/** @type {number} */ time) => {
    const part = Math.min(1, Math.max(0, (time - begun) / LASTS));
    if (part >= 1 || !element.isConnected) {
      element.setAttribute("d", path);
      return;
    }
    const points = between(from, to, part * (2 - part));
    element.setAttribute("d", `M${points.map(({x, y}) => `${x.toFixed(1)} ${y.toFixed(1)}`).join("L")}`);
    gliding.set(element, requestAnimationFrame(next));
  };
  next(begun);
}
