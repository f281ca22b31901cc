// The ways of the arrows of a drawing: from the windows with links to the blocks to which they lead, round all
// others. Those that last longest are laid first, so that they stay when others come and go.

import {direct} from "./bows.js";
import {nameOf} from "./lasting.js";
import {pathOf, Router} from "./route.js";
import {GRID, HEAD, ROW} from "./shape.js";
import {tagsOf} from "./tags.js";

export const PILL_STEP = 26; // from one bug above a block to the next
export const PILL_HALF = 11; // of the sign of a bug
const PILL_HEIGHT = GRID * 2;
const MOST_ROUTED = 80;     // blocks
const MOST_CELLS = 40_000;  // of the grid
const IN_WINDOW = 6; // where an arrow begins, from the side of its window
const LANES = {forward: HEAD + ROW / 2, back: HEAD / 2}; // in small blocks, below their upper edges
const TAKEN = 9;            // what it costs to come in where another arrow leaves

/** @typedef {import("./graph.js").Block} Block */
/** @typedef {import("./graph.js").Link} Link */
/** @typedef {import("./graph.js").Graph} Graph */
/** @typedef {import("./plan.js").Plan} Plan */
/** @typedef {{x: number, y: number}} Point */
/** @typedef {{block: Block, link: Link, to: Block, rank: number, weight: number}} Wanted */
/**
 * An arrow: the link, the path and points along it, and where its field's name or its dot stands.
 * @typedef {{name: string, link: Link, block: Block, to: Block, points: Point[], path: string,
 *   tag: Point | null, dot: Point | null}} Arrow
 */

/**
 * The arrows of a graph whose blocks have their places.
 * @param {Graph} graph
 * @param {Plan} plan
 * @returns {Arrow[]}
 */
export function arrowsOf(graph, plan) {
  const drawn = [...graph.blocks, ...graph.ghosts];
  const bugs = bugsAbove(graph, plan);
  const router =
    isFew(graph.blocks, plan) ? new Router(plan.width, plan.height, obstacles(drawn, bugs)) : null;
  /** @type {Ports} */
  const ports = new Map();
  const arrows = wantedOf(graph, plan, drawn).map((it) => {
    return (router && routed(it, router, bugs.get(it.to.place) ?? 0, ports)) ?? direct(it, drawn);
  });
  if (router) tagsOf(arrows, pillsOf(drawn, bugs));
  return arrows;
}

// The links that have both ends in the drawing, in the order in which they are laid.
/**
 * @param {Graph} graph
 * @param {Plan} plan
 * @param {Block[]} drawn
 * @returns {Wanted[]}
 */
function wantedOf({blocks}, plan, drawn) {
  const known = new Map(drawn.map((it) => [it.place, it]));
  /** @type {Wanted[]} */
  const wanted = [];
  for (const block of blocks)
    for (const link of block.links) {
      const to = known.get(link.target);
      const edge = plan.edges.get(nameOf({key: link.key, from: block.place, to: link.target}));
      if (to) wanted.push({block, link, to, rank: edge?.rank ?? 0, weight: edge?.weight ?? 0});
    }
  const isRanked = (/** @type {Wanted} */ it) => Number(it.rank > 0);
  return wanted.sort((a, b) => isRanked(b) - isRanked(a) || span(a) - span(b) || b.weight - a.weight);
}

// About how far an arrow has to go.
/** @param {Wanted} wanted */
function span({block, to}) {
  return Math.abs(block.x - to.x) + Math.abs(block.y - to.y);
}

// How many bugs have room above each block: as many as ever lead there, so that arrows stay as they come and
// go.
/**
 * @param {Graph} graph
 * @param {Plan} plan
 */
function bugsAbove(graph, plan) {
  const bugs = new Map(plan.bugs);
  const now = new Map();
  for (const {place} of graph.bugs) now.set(place, (now.get(place) ?? 0) + 1);
  for (const [place, number] of now) bugs.set(place, Math.max(bugs.get(place) ?? 0, number));
  return bugs;
}

/**
 * The boxes of the bugs above blocks.
 * @param {Block[]} blocks
 * @param {Map<number, number>} bugs
 */
function pillsOf(blocks, bugs) {
  return blocks.filter((it) => bugs.get(it.place)).map(({x, y, place}) => {
    const width = Math.ceil(((bugs.get(place) ?? 0) * PILL_STEP - GRID) / GRID) * GRID;
    return {x, y: y - PILL_HEIGHT, width: Math.max(GRID, width), height: PILL_HEIGHT};
  });
}

/**
 * What arrows go round: the blocks, and the bugs above them.
 * @param {Block[]} blocks
 * @param {Map<number, number>} bugs
 */
function obstacles(blocks, bugs) {
  return [...blocks, ...pillsOf(blocks, bugs)];
}

/**
 * Whether arrows go round blocks: where there are many they would take too long, and be too long.
 * @param {Block[]} blocks
 * @param {Plan} plan
 */
function isFew(blocks, {width, height}) {
  return !blocks.some((it) => it.shape.isChip) && blocks.length <= MOST_ROUTED &&
    (width * height) / (GRID * GRID) < MOST_CELLS;
}

/**
 * The points at blocks' sides that arrows have taken: "start", "end" or both.
 * @typedef {Map<string, Set<string>>} Ports
 */

/**
 * An arrow that goes round blocks, or null where there is no way. A point where another one leaves is none
 * where it comes in, if it can be, or its head would cover the other's begin; nor the other way round.
 * @param {Wanted} wanted
 * @param {Router} router
 * @param {number} bugs
 * @param {Ports} ports
 * @returns {Arrow | null}
 */
function routed({block, link, to}, router, bugs, ports) {
  const dear = (/** @type {Start[]} */ all, /** @type {string} */ other) => all.map((it) => {
    const isTaken = ports.get(`${it.x} ${it.y}`)?.has(other);
    return isTaken ? {...it, cost: (it.cost ?? 0) + TAKEN} : it;
  });
  const starts = dear(startsOf(block, link), "end");
  const points = router.way(starts, dear(endsOf(to, link, bugs), "start"));
  if (!points) return null;
  const begin = starts.find((it) => it.inner && it.inner === points[0]) ?? points[0];
  /** @type {[Point, string][]} */
  const used = [[begin, "start"], [points[points.length - 1], "end"]];
  for (const [{x, y}, what] of used) {
    const taken = ports.get(`${x} ${y}`) ?? new Set();
    ports.set(`${x} ${y}`, taken.add(what));
  }
  const inner = starts.some((it) => it.inner === points[0]);
  return {
    name: `${block.place} ${link.key}`,
    link, block, to, points,
    path: pathOf(points),
    tag: inner ? null : points[0],
    dot: inner ? points[0] : null
  };
}

// ---- Where arrows leave and come in

/**
 * A point at which an arrow may leave a block, the direction in which it runs there, what it costs to take
 * it, and where in the block's window it begins.
 * @typedef {{x: number, y: number, direction: number, cost?: number, inner?: Point}} Start
 */

/**
 * Where an arrow may leave its block: at a side that its window touches, or below; elsewhere at a price.
 * @param {Block} block
 * @param {Link} link
 * @returns {Start[]}
 */
function startsOf(block, link) {
  const {shape} = block;
  const row = shape.rows.find((it) => it.cells.some((cell) => cell.link === link));
  const cell = row?.cells.find((it) => it.link === link);
  if (!row || !cell) return [{x: block.x + block.width, y: block.y + HEAD / 2, direction: 0}];
  const middle = block.x + Math.round((cell.x + cell.width / 2) / GRID) * GRID;
  return shape.isBox ? startsOfBox(block, link, middle) : startsOfCard(block, link, row, cell);
}

/**
 * Links that lead on and links that lead back have lanes of their own.
 * @param {Block} block
 * @param {Link} link
 * @param {number} middle
 * @returns {Start[]}
 */
function startsOfBox({x, y, shape}, link, middle) {
  const lane = y + (link.isBack ? LANES.back : LANES.forward);
  const other = y + (link.isBack ? LANES.forward : LANES.back);
  const [side, below] = link.down ? [2, 0] : [0, 2];
  return [
    {x: middle, y: y + shape.height, direction: 1, cost: below},
    {x: x + shape.width, y: lane, direction: 0, cost: side},
    {x, y: lane, direction: 2, cost: side},
    {x: x + shape.width, y: other, direction: 0, cost: side + 4},
    {x, y: other, direction: 2, cost: side + 4},
  ];
}

/**
 * At a side that its window touches, or below; at the other side, beside the head, where a list was turned
 * round.
 * @param {Block} block
 * @param {Link} link
 * @param {any} row
 * @param {any} cell
 * @returns {Start[]}
 */
function startsOfCard(block, link, row, cell) {
  const {shape} = block;
  const middle = block.x + Math.round((cell.x + cell.width / 2) / GRID) * GRID;
  const y = block.y + Math.round((row.y + row.height / 2) / GRID) * GRID;
  const [touchesLeft, touchesRight] = [cell.window.first === 0, cell.window.last === 35];
  const right = {x: block.x + cell.x + cell.width - IN_WINDOW, y};
  const left = {x: block.x + cell.x + IN_WINDOW, y};
  /** @type {Start[]} */
  const starts = [];
  if (touchesRight || !touchesLeft)
    starts.push({x: block.x + shape.width, y, direction: 0, cost: touchesRight ? 0 : 5, inner: right});
  if (touchesLeft || !touchesRight)
    starts.push({x: block.x, y, direction: 2, cost: touchesLeft ? 0 : 5, inner: left});
  if (row === shape.rows.at(-1))
    starts.push({x: middle, y: block.y + shape.height, direction: 1, cost: 24, inner: {x: middle, y}});
  if (!link.down && !touchesLeft) starts.push({x: block.x, y: block.y + HEAD / 2, direction: 2, cost: 8});
  return starts;
}

/**
 * Where it may come in: at a side, from above beside the bugs, or from below at a price.
 * @param {Block} block
 * @param {Link} link
 * @param {number} bugs
 */
function endsOf(block, link, bugs) {
  const {x, y, width, height, shape} = block;
  const [left, right] = [x + bugs * PILL_STEP + 4, x + width];
  const above = [0.5, 0.75, 0.9].map((part) => Math.round((x + width * part) / GRID) * GRID);
  const tops = [...new Set(above)].filter((it) => it > left && it < right);
  const [side, top] = link.down ? [4, 0] : [0, 3];
  const isTall = height >= LANES.forward + GRID;
  const atTop = tops.map((it, index) => ({x: it, y, direction: 1, cost: top + index}));
  if (shape.isBox && isTall) {
    const [lane, other] = link.isBack ? [LANES.back, LANES.forward] : [LANES.forward, LANES.back];
    return [
      {x, y: y + lane, direction: 0, cost: side}, {x: right, y: y + lane, direction: 2, cost: side},
      {x, y: y + other, direction: 0, cost: side + 2}, {x: right, y: y + other, direction: 2, cost: side + 2},
      {x: Math.round((x + width / 2) / GRID) * GRID, y: y + height, direction: 3, cost: link.down ? 5 : 2}, ...atTop
    ];
  }
  const [fromLeft, fromRight] = link.isBack ? [6, 0] : [0, 6];
  const head = y + HEAD / 2;
  const third = Math.round((x + width / 3) / GRID) * GRID;
  const below = {x: third, y: y + height, direction: 3, cost: link.down ? 9 : 4};
  return [
    {x, y: head, direction: 0, cost: side + fromLeft},
    {x: right, y: link.isBack && isTall ? head + HEAD / 2 : head, direction: 2, cost: side + fromRight},
    ...(shape.isBox ? [] : [below]), ...atTop
  ];
}
