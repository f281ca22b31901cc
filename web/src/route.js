// The ways of arrows: along a grid, round the blocks, with few corners, and beside one another.

import {GRID} from "./shape.js";

const TURN = 3;      // what a corner costs, in steps of the grid
const SHARED = 8;    // what it costs to run where another arrow runs
const CROSSED = 2;   // and where one crosses
const NEAR = 0.15;   // beside a block
const LOWER = 0.001; // across, for each line further down, so that an arrow that goes up turns early
const DIRECTIONS = [[1, 0], [0, 1], [-1, 0], [0, -1]]; // right, down, left, up
const BLOCKED = 255;

/** @typedef {{x: number, y: number}} Point */
/** @typedef {{x: number, y: number, width: number, height: number}} Box */
/**
 * A point at a block's side where an arrow may begin or end: the direction in which it runs there, what it costs to
 * take it, and where in the block the arrow begins.
 * @typedef {Point & {direction: number, cost?: number, inner?: Point | null}} Start
 * @typedef {{index: number, column: number, line: number}} Cell
 * @typedef {Start & {at: Cell}} Goal
 * @typedef {Map<number, Goal>} Goals
 */

// A grid over a drawing, in which ways are found one after another.
export class Router {
  /**
   * @param {number} width
   * @param {number} height
   * @param {Box[]} boxes
   */
  constructor(width, height, boxes) {
    this.columns = Math.ceil(width / GRID);
    this.lines = Math.ceil(height / GRID);
    const size = this.columns * this.lines;
    this.ground = new Uint8Array(size);
    this.used = [new Uint8Array(size), new Uint8Array(size)]; // by arrows that run across, and up or down
    this.cost = new Float64Array(size * 4);
    this.round = new Uint32Array(size * 4);
    this.from = new Int32Array(size * 4);
    this.now = 0;
    for (const box of boxes) this.block(box);
  }

  /** @param {Box} box */
  block({x, y, width, height}) {
    const [left, top] = [Math.round(x / GRID), Math.round(y / GRID)];
    const [right, bottom] = [Math.round((x + width) / GRID), Math.round((y + height) / GRID)];
    for (let line = top - 1; line <= bottom + 1; line++) {
      for (let column = left - 1; column <= right + 1; column++) {
        if (!this.has(column, line)) continue;
        const isInside = column >= left && column <= right && line >= top && line <= bottom;
        const at = line * this.columns + column;
        if (isInside)
          this.ground[at] = BLOCKED;
        else if (this.ground[at] === 0)
          this.ground[at] = 1;
      }
    }
  }

  /**
   * @param {number} column
   * @param {number} line
   */
  has(column, line) {
    return column > 0 && line > 0 && column < this.columns && line < this.lines; // (not on the edge)
  }

  /**
   * The points of the way from one of the starts to one of the ends: each has a point at a block's side, the
   * direction in which the arrow runs there, and what it costs to take it. Null where there is none.
   * @param {Start[]} starts
   * @param {Start[]} ends
   * @returns {Point[] | null}
   */
  way(starts, ends) {
    this.now++;
    /** @type {Goals} */
    const goals = new Map();
    for (const end of ends) {
      const at = this.stepFrom(end, -1);
      if (at && this.ground[at.index] !== BLOCKED) goals.set(at.index, {...end, at});
    }
    const heap = new Heap();
    for (const start of starts) {
      const at = this.stepFrom(start, 1);
      if (at && this.ground[at.index] !== BLOCKED)
        this.offer(heap, at.index * 4 + start.direction, start.cost ?? 0, -1 - starts.indexOf(start), goals);
    }
    for (let state; (state = heap.pop()) !== undefined;) {
      if (this.isDone(state)) continue;
      this.done(state);
      const goal = goals.get((state - (state % 4)) / 4);
      if (goal && state % 4 !== (goal.direction + 2) % 4) return this.points(state, starts, goal);
      this.spread(heap, state, goals);
    }
    return null;
  }

  /**
   * The grid's point a step outside of the block.
   * @param {Start} port
   * @param {number} sign
   * @returns {Cell | null}
   */
  stepFrom({x, y, direction}, sign) {
    const [dx, dy] = DIRECTIONS[direction];
    const column = Math.round(x / GRID) + sign * dx;
    const line = Math.round(y / GRID) + sign * dy;
    return this.has(column, line) ? {index: line * this.columns + column, column, line} : null;
  }

  /**
   * @param {Heap} heap
   * @param {number} state
   * @param {Goals} goals
   */
  spread(heap, state, goals) {
    const direction = state % 4;
    const index = (state - direction) / 4;
    const [column, line] = [index % this.columns, Math.floor(index / this.columns)];
    for (let next = 0; next < 4; next++) {
      if (next === (direction + 2) % 4) continue;
      const [dx, dy] = DIRECTIONS[next];
      if (!this.has(column + dx, line + dy)) continue;
      const to = (line + dy) * this.columns + column + dx;
      if (this.ground[to] === BLOCKED) continue;
      const along = next % 2;
      const price = 1 + (next === direction ? 0 : TURN) + this.ground[to] * NEAR +
        (this.used[along][to] ? SHARED : 0) + (this.used[1 - along][to] ? CROSSED : 0) +
        (along === 0 ? (line + dy) * LOWER : 0) + this.lastTurn(goals.get(to), next);
      this.offer(heap, to * 4 + next, this.cost[state] + price, state, goals);
    }
  }

  /**
   * The price of the corner between a way and its end.
   * @param {Goal | undefined} goal
   * @param {number} direction
   */
  lastTurn(goal, direction) {
    return goal && goal.direction !== direction ? TURN : 0;
  }

  /**
   * Notes a way to a state if it is the cheapest so far. Marks are of this search where `round` says so.
   * @param {Heap} heap
   * @param {number} state
   * @param {number} cost
   * @param {number} from
   * @param {Goals} goals
   */
  offer(heap, state, cost, from, goals) {
    if (this.round[state] === this.now * 2 + 1) return;
    if (this.round[state] === this.now * 2 && this.cost[state] <= cost) return;
    this.round[state] = this.now * 2;
    this.cost[state] = cost;
    this.from[state] = from;
    heap.push(cost + this.guess(state, goals), state);
  }

  /**
   * @param {number} state
   * @param {Goals} goals
   */
  guess(state, goals) {
    const index = (state - (state % 4)) / 4;
    const [column, line] = [index % this.columns, Math.floor(index / this.columns)];
    let best = Infinity;
    for (const {at, cost} of goals.values())
      best = Math.min(best, Math.abs(at.column - column) + Math.abs(at.line - line) + (cost ?? 0));
    return best;
  }

  /** @param {number} state */
  isDone(state) {
    return this.round[state] === this.now * 2 + 1;
  }

  /** @param {number} state */
  done(state) {
    this.round[state] = this.now * 2 + 1;
  }

  /**
   * @param {number} state
   * @param {Start[]} starts
   * @param {Goal} goal
   */
  points(state, starts, goal) {
    const cells = [];
    let at = state;
    for (; at >= 0; at = this.from[at]) {
      const index = (at - (at % 4)) / 4;
      this.used[at % 2][index] = 1;
      cells.push({x: (index % this.columns) * GRID, y: Math.floor(index / this.columns) * GRID});
    }
    const start = starts[-1 - at];
    return straight([
      ...(start.inner ? [start.inner] : []), {x: start.x, y: start.y}, ...cells.reverse(),
      {x: goal.x, y: goal.y}
    ]);
  }
}

// Points without those that lie on a straight line between their neighbours.
/** @param {Point[]} points */
function straight(points) {
  return points.filter((it, index) => {
    const [before, after] = [points[index - 1], points[index + 1]];
    if (!before || !after) return true;
    return !((before.x === it.x && it.x === after.x) || (before.y === it.y && it.y === after.y));
  });
}

/**
 * The path of an SVG through points, with round corners.
 * @param {Point[]} points
 * @param {number} radius
 */
export function pathOf(points, radius = 7) {
  let path = `M${points[0].x} ${points[0].y}`;
  for (let index = 1; index < points.length - 1; index++) {
    const [before, at, after] = points.slice(index - 1, index + 2);
    const r = Math.min(radius, distance(before, at) / 2, distance(at, after) / 2);
    const [into, out] = [towards(at, before, r), towards(at, after, r)];
    path += `L${into.x} ${into.y}Q${at.x} ${at.y} ${out.x} ${out.y}`;
  }
  const end = points[points.length - 1];
  return `${path}L${end.x} ${end.y}`;
}

/**
 * @param {Point} a
 * @param {Point} b
 */
function distance(a, b) {
  return Math.abs(a.x - b.x) + Math.abs(a.y - b.y);
}

/**
 * @param {Point} from
 * @param {Point} to
 * @param {number} by
 * @returns {Point}
 */
function towards(from, to, by) {
  const length = Math.hypot(to.x - from.x, to.y - from.y) || 1;
  const at = (/** @type {number} */ a, /** @type {number} */ b) => Math.round((a + ((b - a) * by) / length) * 10) / 10;
  return {x: at(from.x, to.x), y: at(from.y, to.y)};
}

// A heap of numbers with the least price first.
class Heap {
  constructor() {
    /** @type {number[]} */
    this.prices = [];
    /** @type {number[]} */
    this.states = [];
  }

  /**
   * @param {number} price
   * @param {number} state
   */
  push(price, state) {
    const {prices, states} = this;
    let at = prices.length;
    while (at > 0) {
      const up = (at - 1) >> 1;
      if (prices[up] <= price) break;
      prices[at] = prices[up];
      states[at] = states[up];
      at = up;
    }
    prices[at] = price;
    states[at] = state;
  }

  pop() {
    const {prices, states} = this;
    if (!states.length) return undefined;
    const first = states[0];
    const [price, state] = [prices.pop() ?? 0, states.pop() ?? 0];
    const size = prices.length;
    if (size) {
      let at = 0;
      for (let down; (down = 2 * at + 1) < size; at = down) {
        if (down + 1 < size && prices[down + 1] < prices[down]) down++;
        if (prices[down] >= price) break;
        prices[at] = prices[down];
        states[at] = states[down];
      }
      prices[at] = price;
      states[at] = state;
    }
    return first;
  }
}
