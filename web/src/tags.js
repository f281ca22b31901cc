// Where the names of fields stand beside their arrows: so that they cover no arrowhead, no bug and no other
// name.

export const TAG = {width: 8, height: 9}; // of a name of one letter
const OFF = [3, 12];                      // pixels from its arrow
export const TIP = 11;                    // how long and wide an arrowhead is
const LINE = 6;                           // how wide an arrow is with its round corners

/** @typedef {{x: number, y: number}} Point */
/** @typedef {{x: number, y: number, width: number, height: number}} Box */
/** @typedef {{points: Point[], tag: Point | null, link: {name: string}}} Tagged */

/**
 * Puts the tags of arrows where they cover nothing, if there is such a spot: `tag` gets the left end of the
 * name's base line.
 * @param {Tagged[]} arrows
 * @param {Box[]} boxes that are covered already
 */
export function tagsOf(arrows, boxes) {
  const tips = arrows.map((it) => tipOf(it.points));
  const lines = arrows.flatMap((it) => linesOf(it.points));
  const taken = [...boxes, ...tips];
  for (const arrow of arrows) {
    if (!arrow.tag) continue;
    const width = TAG.width * arrow.link.name.length;
    const spots = spotsOf(arrow.points, width);
    const isFree = (/** @type {Box[]} */ all) => (/** @type {Point} */ it) =>
      !all.some((other) => isOver(boxAt(it, width), other));
    const spot = spots.find(isFree([...taken, ...lines])) ?? spots.find(isFree(taken)) ??
      spots.find(isFree(tips)) ?? spots[0];
    arrow.tag = spot;
    taken.push(boxAt(spot, width));
  }
}

/**
 * The box of the head of an arrow with these points.
 * @param {Point[]} points
 * @returns {Box}
 */
export function tipOf(points) {
  const [from, to] = points.slice(-2);
  const [dx, dy] = [Math.sign(Math.round(to.x - from.x)), Math.sign(Math.round(to.y - from.y))];
  const box = (/** @type {number} */ at, /** @type {number} */ step) =>
    (step > 0 ? at - TIP : step < 0 ? at : at - TIP / 2);
  return {x: box(to.x, dx), y: box(to.y, dy), width: TIP, height: TIP};
}

/**
 * What the lines of an arrow cover.
 * @param {Point[]} points
 * @returns {Box[]}
 */
function linesOf(points) {
  return points.slice(1).map((to, index) => {
    const from = points[index];
    const [x, y] = [Math.min(from.x, to.x) - LINE / 2, Math.min(from.y, to.y) - LINE / 2];
    return {x, y, width: Math.abs(to.x - from.x) + LINE, height: Math.abs(to.y - from.y) + LINE};
  });
}

/**
 * Where a name may stand: beside the begin of its arrow, on either side, and further along.
 * @param {Point[]} points
 * @param {number} width
 * @returns {Point[]}
 */
function spotsOf(points, width) {
  const spots = [];
  for (let index = 0; index + 1 < points.length; index++) {
    const [from, to] = [points[index], points[index + 1]];
    const length = Math.abs(to.x - from.x) + Math.abs(to.y - from.y);
    for (let along = 2; along <= Math.max(2, length - TIP); along += 6) {
      if (from.y === to.y) {
        const x = to.x > from.x ? from.x + along : from.x - along - width;
        for (const off of OFF) spots.push({x, y: from.y - off}, {x, y: from.y + TAG.height + off - 1});
      } else {
        const y = to.y > from.y ? from.y + along + TAG.height : from.y - along;
        for (const off of OFF) spots.push({x: from.x + off, y}, {x: from.x - width - off, y});
      }
    }
  }
  // (the near ones first)
  return spots.map((it, index) => ({it, order: index % 4 < 2 ? index : index + spots.length}))
    .sort((a, b) => a.order - b.order).map(({it}) => it);
}

/**
 * @param {Point} spot
 * @param {number} width
 * @returns {Box}
 */
function boxAt({x, y}, width) {
  return {x, y: y - TAG.height, width, height: TAG.height};
}

/**
 * Whether two boxes have a part in common.
 * @param {Box} a
 * @param {Box} b
 */
export function isOver(a, b) {
  return a.x < b.x + b.width && b.x < a.x + a.width && a.y < b.y + b.height && b.y < a.y + a.height;
}
