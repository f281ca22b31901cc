// Tests the ways of arrows: each is the cheapest that there is, by another search; and the paths that are drawn of them.
//
// routes.mjs prints what differs, and last 'N passed, M failed'.

import {direct} from "../src/bows.js";
import {pathOf, Router} from "../src/route.js";

import {canary, Tally} from "./common.mjs";

await canary();
const tally = new Tally();
const same = (name, got, want) => tally.same(name, got, want);

// ---- The cheapest way on a grid of 12 pixels: a step costs 1, a corner 3 more, beside a block 0.15, along another arrow 8,
// across one 2; and a step across costs 0.001 more for each line further down.

const GRID = 12;
const STEPS = [[1, 0], [0, 1], [-1, 0], [0, -1]];
const COLUMNS = 16, LINES = 12;
const boxOf = ({x, y, width, height}) => [x, y, x + width, y + height].map((it) => Math.round(it / GRID));

class Field {
  constructor(boxes) {
    this.boxes = boxes.map(boxOf);
    this.used = [new Set(), new Set()];
  }

  isIn(column, line, more) {
    return this.boxes.some(([left, top, right, bottom]) =>
      column >= left - more && column <= right + more && line >= top - more && line <= bottom + more);
  }

  isFree(column, line) {
    return column > 0 && line > 0 && column < COLUMNS && line < LINES && !this.isIn(column, line, 0);
  }

  // What it costs to go from a direction into a cell in another one.
  price(column, line, before, now, ends) {
    const cell = `${column} ${line}`, along = now % 2;
    const end = ends.findLast((it) => cell === cellAt(it, -1).join(" "));
    return 1 + (before === now ? 0 : 3) + (this.isIn(column, line, 1) ? 0.15 : 0) + (this.used[along].has(cell) ? 8 : 0) +
      (this.used[1 - along].has(cell) ? 2 : 0) + (along === 0 ? line * 0.001 : 0) + (end && end.direction !== now ? 3 : 0);
  }

  // The least price of a way, by going on from all that is known until nothing gets cheaper.
  least(starts, ends) {
    const known = new Map();
    const offer = (key, cost) => cost < (known.get(key) ?? Infinity) && known.set(key, cost);
    for (const it of starts) {
      const [column, line] = cellAt(it, 1);
      if (this.isFree(column, line)) offer(`${column} ${line} ${it.direction}`, it.cost ?? 0);
    }
    for (let before = -1, sum = 0; before !== sum;) {
      before = sum;
      for (const [key, cost] of [...known]) {
        const [column, line, from] = key.split(" ").map(Number);
        STEPS.forEach(([dx, dy], now) => {
          if (now !== (from + 2) % 4 && this.isFree(column + dx, line + dy))
            offer(`${column + dx} ${line + dy} ${now}`, cost + this.price(column + dx, line + dy, from, now, ends));
        });
      }
      sum = [...known.values()].reduce((all, it) => all + it, known.size);
    }
    const last = new Map(ends.map((it) => [cellAt(it, -1).join(" "), it]));
    const costs = [...known].map(([key, cost]) => {
      const [column, line, now] = key.split(" ").map(Number), end = last.get(`${column} ${line}`);
      return end && now !== (end.direction + 2) % 4 ? cost + (end.cost ?? 0) : Infinity;
    });
    return Math.min(...costs);
  }

  // The price of a way that was found, and whether it goes through a block. Its cells are used then.
  take(points, starts, ends) {
    const portOf = (all, point, [from, to]) => all.find(({x, y, direction: at}) => x === point.x && y === point.y &&
      STEPS[at][0] === Math.sign(to.x - from.x) && STEPS[at][1] === Math.sign(to.y - from.y));
    const [start, end] = [portOf(starts, points[0], points), portOf(ends, points.at(-1), points.slice(-2))];
    const cells = [cellAt(start, 1)], goal = cellAt(end, -1);
    const corners = points.map(({x, y}) => [x / GRID, y / GRID]);
    let direction = start.direction, cost = start.cost ?? 0, isFree = true;
    const begin = corners.findIndex(([x, y]) => x === start.x / GRID && y === start.y / GRID);
    const all = corners.slice(begin).flatMap((it, at, own) => between(it, own[at + 1] ?? it));
    const whole = all.filter((it, at) => !at || it.join() !== all[at - 1].join()).slice(1, -1);
    const used = [[whole[0], direction]];
    for (const [column, line] of whole.slice(1)) {
      const [x, y] = cells.at(-1);
      const now = STEPS.findIndex(([dx, dy]) => x + dx === column && y + dy === line);
      cost += this.price(column, line, direction, now, ends);
      direction = now;
      isFree &&= this.isFree(column, line);
      cells.push([column, line]);
      used.push([[column, line], now]);
    }
    for (const [cell, now] of used) this.used[now % 2].add(cell.join(" "));
    return {cost: cost + (end.cost ?? 0), isFree: isFree && cells.at(-1).join() === goal.join()};
  }
}

function cellAt({x, y, direction}, sign) {
  const [dx, dy] = STEPS[direction];
  return [Math.round(x / GRID) + sign * dx, Math.round(y / GRID) + sign * dy];
}

// The cells from one corner to the next.
function between([x, y], [toX, toY]) {
  const count = Math.max(Math.abs(toX - x), Math.abs(toY - y));
  return Array.from({length: count + 1}, (_, at) => [x + Math.sign(toX - x) * at, y + Math.sign(toY - y) * at]);
}

let seed = 4711;
const random = (most) => (seed = (seed * 48_271) % 2_147_483_647) % most;
for (let time = 0; time < 60; time++) {
  const spots = Array.from({length: 6}, (_, at) => [1 + (at % 3) * 5, 1 + Math.floor(at / 3) * 6]).filter(() => random(5) > 0);
  const boxes = spots.map(([column, line]) =>
    ({x: GRID * (column + random(2)), y: GRID * (line + random(3)), width: GRID * (1 + random(2)), height: GRID * (1 + random(2))}));
  if (boxes.length < 2) continue;
  const router = new Router(COLUMNS * GRID, LINES * GRID, boxes), field = new Field(boxes);
  for (let arrow = 0; arrow < 3; arrow++) {
    const portsOf = ({x, y, width, height}, isStart) => [
      {x: x + width, y: y + GRID * random(2), direction: isStart ? 0 : 2, cost: random(4)}, {x, y, direction: isStart ? 2 : 0, cost: random(4)},
      {x: x + GRID * random(2), y: y + height, direction: isStart ? 1 : 3, cost: random(4)}
    ];
    const first = random(boxes.length);
    const [from, to] = [boxes[first], boxes[(first + 1 + random(boxes.length - 1)) % boxes.length]];
    const [starts, ends] = [portsOf(from, true), portsOf(to, false)];
    const least = field.least(starts, ends.filter((it) => field.isFree(...cellAt(it, -1))));
    const points = router.way(starts, ends);
    if (!points) {
      same(`no way, arrow ${arrow} of drawing ${time}`, least, Infinity);
      break;
    }
    const {cost, isFree} = field.take(points, starts, ends);
    tally.count(`the way of arrow ${arrow} of drawing ${time}`, Math.abs(cost - least) < 1e-6 && isFree, () => `${cost}, and ${least} is the least: ${JSON.stringify(points)}`);
  }
}

// ---- Paths: straight lines, with round corners of 7 pixels, or of half of a short line

const pointsOf = (all) => all.map(([x, y]) => ({x, y}));
for (const [points, want] of [
  [[[0, 0], [20, 0]], "M0 0L20 0"], [[[0, 0], [20, 0], [20, 20]], "M0 0L13 0Q20 0 20 7L20 20"], [[[0, 0], [6, 0], [6, 20]], "M0 0L3 0Q6 0 6 3L6 20"],
  [[[0, 20], [0, 0], [-30, 0], [-30, -40]], "M0 20L0 7Q0 0 -7 0L-23 0Q-30 0 -30 -7L-30 -40"]
])
  same(`the path of ${JSON.stringify(points)}`, pathOf(pointsOf(points)), want);

// ---- Arrows that go straight or in bows

const blockAt = (place, x, y, more = {}) => ({place, x, y, width: 20, height: 20, links: [], shape: {isChip: true}, ...more});
const pathFrom = (block, to, link = {}, others = []) => direct({block: {...block, links: [link]}, link, to}, [block, to, ...others]).path;
const one = blockAt(1, 0, 0);
// (a bow between rows bends a third of the way from each end, 3 pixels further down than that where it leads down, and up where it leads up)
for (const [name, to, link, want] of [
  ["along a row", blockAt(2, 60, 0), {}, "M20 7L60 7"], ["back along a row", blockAt(2, -60, 0), {}, "M0 13L-40 13"], ["down a tree", blockAt(2, 40, 60), {down: true}, "M10 20L50 60"],
  ["beside a bug on the left", blockAt(2, 40, 60, {side: -1}), {down: true}, "M10 20L55 60"], ["beside one on the right", blockAt(2, 40, 60, {side: 1}), {down: true}, "M10 20L45 60"],
  ["to the row below", blockAt(2, 40, 60), {}, "M13 20C13 36.3 53 49.7 53 60"], ["to the row above", blockAt(2, 40, -60), {}, "M7 0C7 -16.3 47 -29.7 47 -40"]
])
  same(`an arrow ${name}`, pathFrom(one, to, link), want);
const isRound = (path, {x, y}) => {
  const numbers = path.match(/-?[\d.]+/g).map(Number), points = numbers.flatMap((it, at) => (at % 2 ? [] : [[it, numbers[at + 1]]]));
  const curve = (t) => (points.length === 4 ? [0, 1].map((axis) => [1, 3, 3, 1].reduce((sum, by, at) => sum + by * (1 - t) ** (3 - at) * t ** at * points[at][axis], 0)) : points[0]);
  return Array.from({length: 101}, (_, at) => curve(at / 100)).every(([px, py]) => px < x || px > x + 20 || py < y || py > y + 20);
};
const midst = blockAt(3, 60, 0);
tally.count("an arrow goes round a block in its row", isRound(pathFrom(one, blockAt(2, 120, 0), {}, [midst]), midst), () => pathFrom(one, blockAt(2, 120, 0), {}, [midst]));

tally.end();
