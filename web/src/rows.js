// Which block stands beside or below which for a whole run. Of the links of the run the lasting ones make
// rows, and say what hangs below what. So a list that is turned round stays the row that it was.

import {byRank} from "./lasting.js";

const RANK = 2 ** 40; // counts more than any number of states

/** @typedef {import("./lasting.js").Edge} Edge */
/** @typedef {{down: boolean, side: number, isBack: boolean}} Way */
/** @typedef {Map<string, Way>} Ways */
/** @typedef {{place: number, below: Row[]}} Item */
/**
 * Places in a row. A ring's last one leads to its first. `side` says on which side of the block above it
 * hangs, `heldFor` for how many states a bug held one of its blocks.
 * @typedef {{items: Item[], side: number, isRing: boolean, isDouble: boolean, up: Row | null, key: string,
 *   order: number, heldFor: number}} Row
 *
 * The links between two places in both directions, as one. `forward` is above 0 if most lead from one to the
 * other.
 * @typedef {{one: number, other: number, since: number, weight: number, forward: number, rank: number,
 *   keys: Set<string>}} Pair
 * @typedef {{items: number[], isRing: boolean}} Path
 */

/**
 * The rows of a run: `places` are those of all blocks in the order in which they were got, `heldFor` says for
 * how many states a bug held each.
 * @param {number[]} places
 * @param {Edge[]} edges
 * @param {Ways} ways
 * @param {Map<number, number>} heldFor
 * @returns {Row[]}
 */
export function rowsOf(places, edges, ways, heldFor = new Map()) {
  const order = new Map(places.map((it, index) => [it, index]));
  const all = edges.filter((it) => it.from !== it.to && order.has(it.from) && order.has(it.to));
  const pairs = pairsOf(all.filter((it) => !ways.get(it.key)?.down), ways);
  const isDouble = pairs.some((it) => it.keys.size > 1);
  const rows = pathsOf(places, pairs, heldFor, order).map(({items, isRing}) => ({
    items: items.map((place) => ({place, below: []})),
    side: 0,
    isRing,
    isDouble,
    up: null,
    key: "",
    order: Math.min(...items.map((it) => order.get(it) ?? 0)),
    heldFor: Math.max(...items.map((it) => heldFor.get(it) ?? 0))
  }));
  hang(rows, all.filter((it) => ways.get(it.key)?.down), ways);
  return rows.filter((it) => !it.up).sort((a, b) => a.order - b.order);
}

// ---- Rows

/**
 * Places in rows along the links that lead right: greedily by rank, a place between two others at most.
 * @param {number[]} places
 * @param {Pair[]} pairs
 * @param {Map<number, number>} heldFor
 * @param {Map<number, number>} order
 * @returns {Path[]}
 */
function pathsOf(places, pairs, heldFor, order) {
  /** @type {Map<number, number[]>} */
  const near = new Map(places.map((it) => [it, []]));
  const nearOf = (/** @type {number} */ place) => near.get(place) ?? [];
  const heads = new Heads();
  /** @type {Map<number, Pair>} */
  const rings = new Map(); // what closes a row, by its ends
  const left = [];
  const hasRoom = (/** @type {number} */ place) => nearOf(place).length < 2 && !rings.has(place);
  for (const pair of pairs) {
    const {one, other} = pair;
    const isFree = hasRoom(one) && hasRoom(other);
    const isSame = heads.of(one) === heads.of(other);
    if (isFree && !isSame) {
      nearOf(one).push(other);
      nearOf(other).push(one);
      heads.join(one, other);
    } else if (isFree) {
      rings.set(one, pair);
      rings.set(other, pair);
    } else if (!isSame)
      left.push(pair);
  }
  const byPair = new Map(pairs.map((it) => [pairName(it.one, it.other), it]));
  const rows = walks(places, near).map((items) => ({items: turned(items, byPair), isRing: false}));
  const paths = inserted(rows, left);
  for (const path of paths) closeRing(path, rings, byPair, heldFor, order);
  return paths;
}

// Which places are in one row: each leads to another of its row, and the last to itself.
class Heads {
  constructor() {
    /** @type {Map<number, number>} */
    this.next = new Map();
  }

  /**
   * @param {number} place
   * @returns {number}
   */
  of(place) {
    let head = place;
    for (let next = this.next.get(head); next !== undefined; next = this.next.get(head)) head = next;
    if (head !== place) this.next.set(place, head);
    return head;
  }

  /**
   * @param {number} one
   * @param {number} other
   */
  join(one, other) {
    this.next.set(this.of(one), this.of(other));
  }
}

/**
 * A row whose last place leads to the first one while all is in it is a ring. It begins with the block that a
 * bug holds for most of the time, if there is one, else with that which was got first.
 * @param {Path} path
 * @param {Map<number, Pair>} rings
 * @param {Map<string, Pair>} byPair
 * @param {Map<number, number>} heldFor
 * @param {Map<number, number>} order
 */
function closeRing(path, rings, byPair, heldFor, order) {
  const {items} = path;
  const has = new Set(items);
  const closing = items.map((it) => rings.get(it)).find((it) => it && has.has(it.one) && has.has(it.other));
  if (!closing || items.length < 3) return;
  const ranks = items.slice(1).map((it, index) => byPair.get(pairName(items[index], it))?.rank ?? 0);
  if (closing.rank === 0 || closing.rank < Math.max(...ranks)) return;
  path.isRing = true;
  const times = items.map((it) => heldFor.get(it) ?? 0);
  const most = times.indexOf(Math.max(...times));
  const next = Math.max(0, ...times.filter((_, index) => index !== most));
  const orderOf = (/** @type {number} */ index) => order.get(items[index]) ?? 0;
  const oldest = items.reduce((best, _, index) => (orderOf(index) < orderOf(best) ? index : best), 0);
  items.push(...items.splice(0, times[most] > 2 * next ? most : oldest));
}

/**
 * @param {number} a
 * @param {number} b
 */
function pairName(a, b) {
  return a < b ? `${a} ${b}` : `${b} ${a}`;
}

/**
 * @param {Edge[]} edges
 * @param {Ways} ways
 * @returns {Pair[]} the first ones by rank first
 */
function pairsOf(edges, ways) {
  /** @type {Map<string, Pair>} */
  const pairs = new Map();
  for (const {key, from, to, since, weight, rank} of edges) {
    const [a, b] = ways.get(key)?.isBack ? [to, from] : [from, to];
    const [one, other] = a < b ? [a, b] : [b, a];
    const name = pairName(one, other);
    const pair = pairs.get(name) ?? {one, other, since, weight: 0, forward: 0, rank: 0, keys: new Set()};
    pair.weight += weight;
    pair.rank = Math.max(pair.rank, rank);
    const counted = weight + rank * RANK;
    pair.forward += a === one ? counted : -counted;
    pair.since = Math.min(pair.since, since);
    pair.keys.add(key);
    pairs.set(name, pair);
  }
  return [...pairs.values()].sort(byRank);
}

/**
 * @param {number[]} places
 * @param {Map<number, number[]>} near
 * @returns {number[][]}
 */
function walks(places, near) {
  const seen = new Set();
  const found = [];
  for (const start of places) {
    if (seen.has(start) || (near.get(start)?.length ?? 0) > 1) continue;
    const items = [];
    /** @type {number | undefined} */
    let at = start;
    while (at !== undefined) {
      seen.add(at);
      items.push(at);
      at = near.get(at)?.find((it) => !seen.has(it));
    }
    found.push(items);
  }
  return found;
}

/**
 * A row in that direction in which most of its links lead most of the time.
 * @param {number[]} items
 * @param {Map<string, Pair>} byPair
 */
function turned(items, byPair) {
  let forward = 0;
  for (let index = 1; index < items.length; index++) {
    const [a, b] = [items[index - 1], items[index]];
    forward += Math.sign((a < b ? 1 : -1) * (byPair.get(pairName(a, b))?.forward ?? 0));
  }
  return forward < 0 ? items.reverse() : items;
}

/**
 * Short rows stand in the row where they were put in: before the place to which they led, or behind that
 * which led to them.
 * @param {Path[]} paths
 * @param {Pair[]} pairs
 */
function inserted(paths, pairs) {
  const pathOf = new Map(paths.flatMap((path) => path.items.map((it) => [it, path])));
  const gone = new Set();
  for (const {one, other, forward} of pairs) {
    const [from, to] = forward >= 0 ? [one, other] : [other, one];
    const [a, b] = [pathOf.get(from), pathOf.get(to)];
    if (!a || !b || a === b) continue;
    const isFirst = a.items.length < b.items.length;
    const [small, large] = isFirst ? [a, b] : [b, a];
    const at = isFirst ? large.items.indexOf(to) : large.items.indexOf(from) + 1;
    large.items.splice(at, 0, ...small.items);
    for (const place of small.items) pathOf.set(place, large);
    gone.add(small);
  }
  return paths.filter((it) => !gone.has(it));
}

// ---- What hangs below what

/**
 * Each row hangs below the place that leads down to it for the longest time, unless a bug holds it for longer.
 * @param {Row[]} rows
 * @param {Edge[]} edges
 * @param {Ways} ways
 */
function hang(rows, edges, ways) {
  const of = new Map(rows.flatMap((row) => row.items.map((item) => [item.place, {row, item}])));
  const isBelow = (/** @type {Row} */ row, /** @type {Row} */ other) => {
    /** @type {Row | null} */
    let up = other;
    while (up && up !== row) up = up.up;
    return up === row;
  };
  for (const {key, from, to, weight} of [...edges].sort(byRank)) {
    const [above, below] = [of.get(from), of.get(to)?.row];
    if (!above || !below || below.up || below.heldFor > weight || isBelow(below, above.row)) continue;
    below.up = above.row;
    below.side = ways.get(key)?.side ?? 0;
    below.key = key;
    above.item.below.push(below);
  }
  for (const {items} of rows)
    for (const item of items)
      item.below.sort((a, b) => a.side - b.side || a.key.localeCompare(b.key) || a.order - b.order);
}
