// Arrows that go straight or in bows: between small blocks, and where there are too many for a grid.

import {pathOf} from "./route.js";
import {GRID} from "./shape.js";

const CORNER = 5; // pixels
const APART = 3; // pixels between arrows that lead to and fro
const BENDS = [24, -24, 40, -40, 64, -64, 96, -96]; // pixels, of bows round blocks
const MOST_AVOIDED = 120; // blocks round which bows go
const STEPS = 16; // parts of a bow that glides

/** @typedef {import("./graph.js").Block} Block */
/** @typedef {import("./graph.js").Link} Link */
/** @typedef {import("./arrows.js").Arrow} Arrow */
/** @typedef {import("./arrows.js").Wanted} Wanted */
/** @typedef {import("./route.js").Point} Point */

/**
 * An arrow that goes straight, or in a bow where it leads back or far along a row, or would go through a block.
 * @param {Wanted} wanted
 * @param {Block[]} drawn
 * @returns {Arrow}
 */
export function direct({block, link, to}, drawn) {
  const first = directWay(block, link, to);
  const others = drawn.filter((it) => it !== block && it !== to);
  const mayAvoid = drawn.length <= MOST_AVOIDED;
  const isClear = (/** @type {Point[]} */ way) => !hits(traced(way), others);
  const isAlong = block.y === to.y && block !== to;
  const ways = [...(isAlong ? [lineAlong(block, to)] : []), first, ...BENDS.map((it) => bent(block, to, it))];
  const way = (mayAvoid && ways.find(isClear)) || first;
  const name = `${block.place} ${link.key}`;
  return {name, link, block, to, points: sampled(way), path: curveOf(way), tag: null, dot: null};
}

/**
 * Whether a way goes through one of some blocks.
 * @param {Point[]} points
 * @param {Block[]} blocks
 */
function hits(points, blocks) {
  return blocks.some((it) => points.some(({x, y}) =>
    x > it.x - 2 && x < it.x + it.width + 2 && y > it.y - 2 && y < it.y + it.height + 2));
}

/**
 * A bow from one block to another that is bent by so many pixels to one side.
 * @param {Block} block
 * @param {Block} to
 * @param {number} by
 * @returns {Point[]}
 */
function bent(block, to, by) {
  const middle = (/** @type {Block} */ it) => ({x: it.x + it.width / 2, y: it.y + it.height / 2});
  const [a, b] = [middle(block), middle(to)];
  const length = Math.hypot(b.x - a.x, b.y - a.y) || 1;
  const [nx, ny] = [-(b.y - a.y) / length * by, (b.x - a.x) / length * by];
  const control = (/** @type {number} */ part) =>
    ({x: a.x + (b.x - a.x) * part + nx, y: a.y + (b.y - a.y) * part + ny});
  const [one, other] = [control(1 / 4), control(3 / 4)];
  return [edgeTowards(block, one), one, other, edgeTowards(to, other)];
}

/**
 * The point at a block's edge on the way from its middle to a point.
 * @param {Block} block
 * @param {Point} point
 */
function edgeTowards({x, y, width, height}, point) {
  const [cx, cy] = [x + width / 2, y + height / 2];
  const [dx, dy] = [point.x - cx, point.y - cy];
  const part = Math.min(1, width / 2 / (Math.abs(dx) || 1e-9), height / 2 / (Math.abs(dy) || 1e-9));
  return {x: cx + dx * part, y: cy + dy * part};
}

/**
 * The points of a direct way: two of a line, four of a bow, or more of a way with corners.
 * @param {Block} block
 * @param {Link} link
 * @param {Block} to
 * @returns {Point[]}
 */
function directWay(block, link, to) {
  const start = block.x + block.width / 2;
  const end = to.y > block.y ? topOf(to) : to.x + to.width / 2;
  const [bottom, endBottom] = [block.y + block.height, to.y + to.height];
  if (link.down && to.y >= bottom) {
    const part = (block.links.indexOf(link) + 1) / (block.links.length + 1);
    return [{x: block.x + block.width * part, y: bottom}, {x: end, y: to.y}];
  }
  if (block.y === to.y && block.place !== to.place) {
    const line = lineAlong(block, to);
    const far = Math.abs(line[1].x - line[0].x);
    if (far <= GRID * 4) return line;
    const bow = Math.min(60, 10 + far / 6);
    return [
      {x: start, y: bottom}, {x: start, y: bottom + bow}, {x: end, y: endBottom + bow}, {x: end, y: endBottom}
    ];
  }
  if (Math.abs(to.y - block.y) > 2 * (block.height + GRID * 2)) {
    // (through the gap below its row, and through that beside the column of its end)
    const [y, x, at] = [bottom + 9, to.x - 10, to.y + to.height / 2 + APART];
    return [{x: start, y: bottom}, {x: start, y}, {x, y}, {x, y: at}, {x: to.x, y: at}];
  }
  // (links to and fro have bows of their own)
  const isBelow = to.y > block.y;
  const [from, at, aside] = isBelow ? [bottom, to.y, APART] : [block.y, endBottom, -APART];
  const bow = (at - from) / 3;
  const [x, there] = [start + aside, end + aside];
  return [{x, y: from}, {x, y: from + bow + aside}, {x: there, y: at - bow + aside}, {x: there, y: at}];
}

// Where an arrow from above comes in: beside the bugs.
/** @param {Block} block */
function topOf({x, width, side = 0}) {
  return side === 0 ? x + width / 2 : side > 0 ? x + CORNER : x + width - CORNER;
}

/**
 * A line along a row. Links to and fro have lines of their own.
 * @param {Block} block
 * @param {Block} to
 * @returns {Point[]}
 */
function lineAlong(block, to) {
  const isRight = to.x > block.x;
  const [from, at] = isRight ? [block.x + block.width, to.x] : [block.x, to.x + to.width];
  const y = block.y + block.height / 2 + (isRight ? -APART : APART);
  return [{x: from, y}, {x: at, y}];
}

/** @param {Point[]} points */
function curveOf(points) {
  const text = (/** @type {Point} */ {x, y}) => `${round(x)} ${round(y)}`;
  if (points.length === 2) return `M${text(points[0])}L${text(points[1])}`;
  if (points.length !== 4) return pathOf(points);
  return `M${text(points[0])}C${points.slice(1).map(text).join(" ")}`;
}

/** @param {number} number */
function round(number) {
  return Math.round(number * 10) / 10;
}

/**
 * Points along a way that may be a bow.
 * @param {Point[]} points
 */
function sampled(points) {
  if (points.length !== 4) return points;
  const [a, b, c, d] = points;
  return Array.from({length: STEPS + 1}, (_, index) => {
    const [t, u] = [index / STEPS, 1 - index / STEPS];
    const mix = (/** @type {"x" | "y"} */ axis) => u * u * u * a[axis] + 3 * u * u * t * b[axis] +
      3 * u * t * t * c[axis] + t * t * t * d[axis];
    return {x: mix("x"), y: mix("y")};
  });
}

/**
 * Points along a way, near enough to one another to find each block that it goes through.
 * @param {Point[]} points
 */
function traced(points) {
  const way = sampled(points);
  return way.flatMap((it, index) => {
    const next = way[index + 1] ?? it;
    const steps = Math.max(1, Math.ceil((Math.abs(next.x - it.x) + Math.abs(next.y - it.y)) / GRID));
    return Array.from({length: steps}, (_, step) =>
      ({x: it.x + (next.x - it.x) * step / steps, y: it.y + (next.y - it.y) * step / steps}));
  });
}
