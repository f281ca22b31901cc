// The lasting picture of a run: where each block is, how its fields lead, and how much of a block is drawn. It
// is made once, of all states that are known, and stays until the reader asks for another one.

import {PILL_HALF, PILL_STEP} from "./arrows.js";
import {waysOf} from "./graph.js";
import {nameOf, union} from "./lasting.js";
import {pack} from "./packing.js";
import {rowsOf} from "./rows.js";
import {chipFor, chipText, GRID, shapeOf, sortedWindows} from "./shape.js";

// Gaps between blocks, and the room around all, and at the foot for arrows.
const GAPS = {
  cards:
    {side: GRID * 2, along: GRID * 3, below: GRID * 4, apart: GRID * 4, unit: GRID, margin: GRID * 2, foot: 0},
  boxes:
    {side: GRID * 2, along: GRID * 2, below: GRID * 4, apart: GRID * 4, unit: GRID, margin: GRID * 2, foot: 0},
  chips: {side: 4, along: 20, below: 24, apart: 24, unit: 4, margin: 12, foot: 16}
};
const MARGIN = GRID * 2;
const PILL = GRID * 2; // the height of a bug above its block
const BOX = GRID * 4;  // the height of a small block
const TRIED = 9;       // sizes
const COMFORT = 1.1;   // times the least scale that can be read: for more no row is wrapped
const LEAST_ROOM = 240;
const MANY = 400;      // blocks, which are the smallest ones then
const MOST = 3000;     // blocks that a plan has
const SMALLEST = 0.03;

// The least scales in which blocks with all words, small ones and the smallest ones are taken: letters have
// 12 pixels in a scale of 1, those of the smallest ones 13.
/** @type {[Detail, number][]} */
const DETAILS = [["cards", 1], ["boxes", 1], ["chips", 0.93]];
const SCALES = {page: {most: 2, factor: 1}, lecture: {most: 3, factor: 1.5}};

/** @typedef {"cards" | "boxes" | "chips"} Detail */
/** @typedef {{x: number, y: number}} Point */
/** @typedef {{width: number, height: number}} Size */
/** @typedef {{width: number, height: number, keys: Set<string>}} Chip */
/** @typedef {import("./lasting.js").Edge} Edge */
/**
 * Where all is: `places` are those of blocks in the drawing, `sizes` the largest that a block there ever has.
 * `scale` is the largest in which all fits into the frame, `legible` the least that can be read. `below` has
 * the places that hang below each, `bugs` how many bugs lead to each at most, `edges` all links by their
 * names. Of a chip the bugs stand at the corner on its `side`.
 * @typedef {{detail: Detail, ways: import("./rows.js").Ways, chip: Chip | null,
 *   places: Map<number, Point & {side?: number}>, width: number, height: number, scale: number, most: number, legible: number, below: Map<number, number[]>,
 *   bugs: Map<number, number>, edges: Map<string, Edge>, frame: Size, first: number | undefined,
 *   sizes: (place: number) => Size | undefined, extra: Map<number, Size>}} Plan
 *
 * What a plan is made of: the lives of blocks by places, their links, the windows that were ever defined, for
 * how many states bugs held each, and how many bugs at most.
 * @typedef {{lives: Map<number, {place: number, size: number, words: number[]}[]>,
 *   links: import("./chronicle.js").Link[], windows: Map<string, import("./chronicle.js").Window>,
 *   heldFor: Map<number, number>, mostBugs: Map<number, number>}} Material
 * @typedef {{directions: Map<string, string>, detail: Detail | "auto", frame: Size, isLecture: boolean,
 *   isLink: (key: string) => boolean, texts: Set<string>}} Wishes
 */

/**
 * The plan of a run.
 * @param {Material} material
 * @param {Wishes} wishes
 * @returns {Plan}
 */
export function planOf(material, {directions, detail, frame, isLecture, isLink, texts}) {
  const windows = sortedWindows([...material.windows.values()].map((it) => ({...it})));
  for (const it of windows) it.isText = it.names.some((/** @type {string} */ name) => texts.has(name));
  const edges = union(material.links.filter((it) => isLink(it.key)));
  const links = edges.map((it) => ({...it, target: it.to}));
  const ways = waysOf(windows, links, directions);
  const places = [...material.lives.keys()].slice(0, MOST);
  const rows = rowsOf(places, edges, ways, material.heldFor);
  const {most, factor} = SCALES[isLecture ? "lecture" : "page"];
  const isMany = places.length > MANY;
  const isWanted = (/** @type {Detail} */ it) =>
    detail === it || (detail === "auto" && (!isMany || it === "chips"));
  let plan = null;
  for (const [kind, least] of DETAILS.filter(([it]) => isWanted(it))) {
    const {sizes, chip} = sizesOf(material, places, windows, links, kind);
    const legible = least * factor;
    const fits = fitted(rows, sizes, GAPS[kind], frame, {most, legible});
    plan = {detail: kind, chip, sizes, legible, most, ...fits};
    if (plan.scale >= legible) break;
  }
  if (!plan) throw new Error(`no drawing of ${detail}`);
  if (plan.chip) putBugsAside(plan.places, edges);
  return {
    ...plan,
    width: widthWithBugs(plan.places, plan.sizes, material.mostBugs, {...GAPS[plan.detail], width: plan.width}),
    ways,
    below: belowOf(rows),
    bugs: material.mostBugs,
    edges: new Map(edges.map((it) => [nameOf(it), it])),
    frame,
    first: rows[0]?.items[0].place,
    extra: new Map()
  };
}

/**
 * Of chips, which are hardly wider than the sign of a bug, bugs stand at the corner to which no arrow comes from above.
 * @param {Plan["places"]} places
 * @param {Edge[]} edges
 */
function putBugsAside(places, edges) {
  const weights = new Map();
  for (const {from, to, weight} of edges) {
    const [above, below] = [places.get(from), places.get(to)];
    if (!above || !below || above.y >= below.y || weight <= (weights.get(to) ?? 0)) continue;
    weights.set(to, weight);
    below.side = above.x > below.x ? -1 : 1;
  }
}

/**
 * How wide a drawing is that has room for the bugs beside its blocks, too. Where they stand further left than
 * it begins, the blocks are moved.
 * @param {Plan["places"]} places
 * @param {(place: number) => Size} sizes
 * @param {Map<number, number>} bugs
 * @param {{width: number, unit: number}} without
 */
function widthWithBugs(places, sizes, bugs, {width, unit}) {
  let [left, right] = [0, width];
  for (const [place, {x, side = 0}] of places) {
    const number = bugs.get(place) ?? 0;
    if (!number) continue;
    const more = (number - 1) * PILL_STEP;
    const corner = side === 0 ? x : x - PILL_HALF + (side > 0 ? sizes(place).width : 0);
    left = Math.min(left, side < 0 ? corner - more : corner);
    right = Math.max(right, 2 * PILL_HALF + (side < 0 ? corner : corner + more));
  }
  const moved = Math.ceil(-left / unit) * unit;
  for (const it of places.values()) it.x += moved;
  return right + moved;
}

/**
 * The largest scale in which all is seen. Rows are lines where these can be read; else they are as long as
 * the frame is wide, and are not wrapped to be larger than is comfortable.
 * @param {import("./rows.js").Row[]} rows
 * @param {(place: number) => Size} sizes
 * @param {import("./packing.js").Gaps & {margin: number, foot: number}} gaps
 * @param {Size} frame
 * @param {{most: number, legible: number}} scales
 */
function fitted(rows, sizes, gaps, frame, {most, legible}) {
  const {margin} = gaps;
  const comfort = legible * COMFORT;
  const at = (/** @type {number} */ wanted) => {
    const room = Math.max(LEAST_ROOM, frame.width / wanted - 2 * margin);
    const packed = pack(rows, sizes, gaps, room);
    const [width, height] = [packed.width + 2 * margin, packed.height + 2 * margin + PILL + gaps.foot];
    return {places: packed.places, width, height, whole: Math.min(frame.width / width, frame.height / height)};
  };
  const straight = at(SMALLEST);
  const canWrap = !isTree(rows) && straight.whole < legible;
  let best = canWrap ? at(comfort) : straight;
  let [low, high] = [Math.log(SMALLEST), Math.log(comfort)];
  for (let tried = 0; canWrap && tried < TRIED && best.whole < comfort; tried++) {
    const wanted = Math.exp((low + high) / 2);
    const next = at(wanted);
    if (Math.min(wanted, next.whole) > Math.min(comfort, best.whole)) best = next;
    if (next.whole >= wanted * 0.999)
      low = Math.log(wanted);
    else
      high = Math.log(wanted);
  }
  for (const it of best.places.values()) {
    it.x += margin;
    it.y += margin + PILL;
  }
  return {places: best.places, width: best.width, height: best.height, scale: Math.min(most, best.whole)};
}

/**
 * Whether no row can be wrapped.
 * @param {import("./rows.js").Row[]} rows
 */
function isTree(rows) {
  /** @type {(row: import("./rows.js").Row) => boolean} */
  const isOne = (row) => row.items.length === 1 && row.items[0].below.every(isOne);
  return rows.length === 1 && isOne(rows[0]);
}

/**
 * The size of the block at a place: that of the largest one that is ever there.
 * @param {Material} material
 * @param {number[]} places
 * @param {any[]} windows
 * @param {any[]} links
 * @param {Detail} detail
 */
function sizesOf({lives}, places, windows, links, detail) {
  /** @type {Map<number, Size>} */
  const found = new Map();
  const keys = new Set(links.map((it) => it.key));
  const all = places.flatMap((place) => lives.get(place) ?? []);
  const chip =
    detail === "chips" ? chipFor(all.map((it) => chipText(it, it.words, windows, keys)), keys) : null;
  /** @type {Map<number, Map<string, any>>} */
  const linked = new Map();
  for (const link of links) {
    const own = linked.get(link.from) ?? new Map();
    linked.set(link.from, own.set(link.key, link));
  }
  for (const place of places) {
    const own = [...(linked.get(place)?.values() ?? [])];
    const shapes = chip ? [chip] : (lives.get(place) ?? []).map((it) => shapeOf(it, it.words, windows, own, detail));
    const least = detail === "boxes" ? BOX : 0; // (it keeps its size while it holds nothing)
    found.set(place, {
      width: Math.max(...shapes.map((it) => it.width)),
      height: Math.max(least, ...shapes.map((it) => it.height))
    });
  }
  return {chip, sizes: (/** @type {number} */ place) => found.get(place) ?? {width: BOX, height: BOX}};
}

/**
 * What hangs below each block, as lists of places.
 * @param {import("./rows.js").Row[]} rows
 */
function belowOf(rows) {
  /** @type {Map<number, number[]>} */
  const below = new Map();
  const all = (/** @type {import("./rows.js").Row} */ row) => {
    /** @type {number[]} */
    const found = [];
    for (const item of row.items) {
      const own = item.below.flatMap(all);
      below.set(item.place, own);
      found.push(item.place, ...own);
    }
    return found;
  };
  rows.forEach(all);
  return below;
}

/**
 * A place for a block that the plan does not know: free room next to one that it is linked with, or at the end.
 * It stays there, too.
 * @param {Plan} plan
 * @param {any} block
 * @param {any[]} blocks
 */
export function settle(plan, block, blocks) {
  const {width, height} = block;
  const sizeAt = (/** @type {number} */ place) => plan.extra.get(place) ?? plan.sizes(place) ?? {width, height};
  const taken = [...plan.places].map(([place, at]) => ({...at, ...sizeAt(place)}));
  const isFree = (/** @type {Point} */ {x, y}) => x >= MARGIN && y >= MARGIN + PILL && taken.every(
    (it) => x + width + GRID <= it.x || it.x + it.width + GRID <= x || y + height + PILL <= it.y ||
      it.y + it.height + PILL <= y
  );
  const leads = (/** @type {any} */ it, /** @type {number} */ place) =>
    it.links.some((/** @type {any} */ {target}) => target === place);
  const beside = blocks.find(
    (it) => it !== block && plan.places.has(it.place) && (leads(it, block.place) || leads(block, it.place))
  );
  const from = beside && plan.places.get(beside.place);
  const spot = from && spotsNear(from, width, height).find(isFree);
  const {x, y} = spot ?? {x: MARGIN, y: Math.ceil(plan.height / GRID) * GRID};
  plan.extra.set(block.place, {width, height});
  plan.places.set(block.place, {x, y});
  plan.width = Math.max(plan.width, x + width + MARGIN);
  plan.height = Math.max(plan.height, y + height + MARGIN);
}

/**
 * The spots around a block, the near ones first.
 * @param {Point} from
 * @param {number} width
 * @param {number} height
 */
function spotsNear({x, y}, width, height) {
  const spots = [];
  for (let ring = 1; ring < 8; ring++)
    for (const [across, down] of [[1, 0], [0, 1], [-1, 0], [1, 1], [-1, 1], [0, -1]])
      spots.push({x: x + across * ring * (width + GRID * 2), y: y + down * ring * (height + GRID * 4)});
  return spots;
}
