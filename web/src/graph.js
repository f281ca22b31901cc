// What a drawing shows of a view: blocks with their shapes and links, the bugs that lead to them, and what
// changed since the view that was shown before.

import {danglingOf, isNumber} from "./provenance.js";
import {shapeOf, windowsOf} from "./shape.js";
import {seenThrough} from "./word.js";

/** @typedef {import("./plan.js").Plan} Plan */
/** @typedef {import("./chronicle.js").Chronicle} Chronicle */
/** @typedef {import("./chronicle.js").Window} Window */
/** @typedef {import("./kinds.js").Kind} Kind */
/** @typedef {import("./provenance.js").Dangling} Dangling */
/**
 * A link of a block: of which window, where it leads, and how. It is broken if its pointer dangles.
 * @typedef {{key: string, name: string, names: string[], from: number, target: number, down?: boolean,
 *   side?: number, isBack?: boolean, isBroken?: boolean, isChanged?: boolean}} Link
 * @typedef {{place: number, size: number, isLost?: boolean, isNew?: boolean, isChanged?: boolean,
 *   isGhost?: boolean, dead?: number, words?: number[], links: Link[], shape: import("./shape.js").Shape,
 *   side?: number, width: number, height: number, below: number, isFolded: boolean, x: number, y: number}} Block
 * @typedef {{name: string, place: number, isChanged: boolean, isBroken: boolean}} Bug
 * @typedef {{windows: Window[], blocks: Block[], ghosts: Block[], bugs: Bug[], dangling: Dangling[],
 *   ways: Plan["ways"], isBox: boolean}} Graph
 */

/**
 * The drawing of a view by the plan of its run. `kindOf` says what a window holds, `folded` has the blocks of
 * which nothing below is drawn.
 * @param {import("./view.js").View} view
 * @param {import("./view.js").View | null} before
 * @param {{plan: Plan, kindOf: (window: Window) => Kind, chronicle?: Chronicle | null,
 *   folded?: Set<number>}} wishes
 * @returns {Graph}
 */
export function graphOf(view, before, {plan, kindOf, chronicle = null, folded = new Set()}) {
  const windows = /** @type {Window[]} */ (windowsOf(view.fields));
  for (const it of windows) it.isText = kindOf(it) === "text";
  const linked = windows.filter((it) => kindOf(it) === "link");
  const away = hiddenBy(folded, plan);
  const shown = view.shown.places.filter((/** @type {number} */ it) => !away.has(it));
  const dangling = danglingOf(view, chronicle, shown, linked);
  const links = new Map(shown.map((/** @type {number} */ place) => [place, linksOf(view, place, linked)]));
  for (const pointer of dangling.pointers) markDangling(pointer, links);
  /** @type {Block[]} */
  const blocks = shown.map((/** @type {number} */ place) => {
    const block = blockOf(view, place, windows, links.get(place) ?? [], plan);
    block.isFolded = folded.has(place) && block.below > 0;
    block.isNew = before !== null && before.store.block(place)?.size !== block.size;
    if (before) markChanges(block, before, windows);
    return block;
  });
  return {
    windows,
    blocks,
    ghosts: dangling.ghosts.map((it) => ghostOf(it, plan)),
    ways: plan.ways,
    isBox: plan.detail !== "cards",
    dangling: dangling.pointers,
    bugs: bugsLeading(view, before, chronicle, dangling.pointers)
  };
}

/**
 * @param {import("./view.js").View} view
 * @param {number} place
 * @param {Window[]} windows
 * @param {Link[]} links
 * @param {Plan} plan
 * @returns {Block}
 */
function blockOf(view, place, windows, links, plan) {
  const {size = 0, isLost = false} = view.store.block(place) ?? {};
  const words = view.words.get(place) ?? undefined;
  for (const link of links)
    Object.assign(link, plan.ways.get(link.key) ?? {down: false, side: 0, isBack: false});
  const shape = shapeOf({place, size}, words, windows, links, plan.detail, plan.chip);
  // (a small block keeps its size while it holds nothing)
  if (plan.detail === "boxes") shape.height = Math.max(shape.height, plan.sizes(place)?.height ?? 0);
  const below = plan.below.get(place)?.filter((it) => view.store.block(it)).length ?? 0;
  const {width, height} = shape;
  return {place, size, isLost, words, links, shape, width, height, below, isFolded: false, x: 0, y: 0};
}

/**
 * @param {Set<number>} folded
 * @param {Plan} plan
 */
function hiddenBy(folded, plan) {
  const away = new Set();
  for (const place of folded) for (const it of plan.below.get(place) ?? []) away.add(it);
  return away;
}

/**
 * A pointer that dangles has a broken arrow: to the ghost of its block, or to the other one that is there now.
 * @param {Dangling} pointer
 * @param {Map<number, Link[]>} links
 */
function markDangling({from, window, target}, links) {
  if (from === undefined || !window) return;
  const own = links.get(from) ?? [];
  const link = own.find((it) => it.key === window.key);
  if (link)
    link.isBroken = true;
  else
    own.push({key: window.key, name: window.name, names: window.names, from, target, isBroken: true});
}

/**
 * The place where a block was that is freed.
 * @param {import("./chronicle.js").Life} life
 * @param {Plan} plan
 * @returns {Block}
 */
function ghostOf({place, size, dead}, plan) {
  const {width, height} = plan.sizes(place) ?? {width: 72, height: 48};
  const shape = {width, height, rows: [], isBox: true, isChip: plan.detail === "chips", text: ""};
  return {place, size, dead, isGhost: true, links: [], shape, width, height, below: 0, isFolded: false, x: 0, y: 0};
}

/**
 * Where the windows of a block lead. The debugger gives it for blocks that are reached; lost ones are read
 * here.
 * @param {import("./view.js").View} view
 * @param {number} place
 * @param {Window[]} windows
 * @returns {Link[]}
 */
export function linksOf(view, place, windows) {
  const words = view.words.get(place);
  const drawn = view.draw.blocks.get(place);
  /** @type {Link[]} */
  const links = [];
  for (const {key, name, names, ...window} of windows) {
    let target = null;
    if (drawn) {
      target = drawn.links.find((it) => names.includes(it.field))?.target ?? null;
    } else if (words && window.word < words.length) {
      const value = seenThrough(words[window.word], window);
      if (view.store.block(value)) target = value;
    }
    if (target !== null) links.push({key, name, names, from: place, target});
  }
  return links;
}

/**
 * Whether the links of each window lead right or down. Those of a tree, with fields L and R, lead down. Where
 * one window has all links, or the list is linked both ways, they lead right. Else those of a field N do,
 * which is "next" in most decks, and the others lead down. `directions` has what the reader chose.
 * @param {Window[]} windows
 * @param {{key: string, from: number, target: number}[]} links
 * @param {Map<string, string>} directions
 * @returns {import("./rows.js").Ways}
 */
export function waysOf(windows, links, directions) {
  const used = windows.filter((it) => links.some((link) => link.key === it.key));
  const names = new Set(windows.flatMap((it) => it.names));
  const isTree = names.has("L") && names.has("R");
  const isDouble = !isTree && isLinkedBothWays(used, links);
  const isList = isDouble || (!isTree && used.length === 1);
  /** @type {import("./rows.js").Ways} */
  const ways = new Map();
  for (const [index, window] of used.entries()) {
    const leadsRight = isList || (!isTree && window.names.includes("N"));
    const chosen = window.names.map((it) => directions.get(it)).find((it) => it);
    const down = chosen ? chosen === "down" : !leadsRight;
    const isBack = isDouble && index === 0 && !down; // (its bits are on the left)
    ways.set(window.key, {down, side: 0, isBack});
  }
  const down = used.filter((it) => ways.get(it.key)?.down);
  const isSide = (/** @type {Window} */ it) => it.names.some((name) => name === "L" || name === "R");
  const sides = isTree ? windows.filter(isSide) : down;
  if (sides.length === 2)
    sides.forEach((it, index) => {
      const way = ways.get(it.key);
      if (way) way.side = index ? 1 : -1;
    });
  return ways;
}

/**
 * Whether, of two windows, most links of one have a link of the other that leads back. (Not all: while a
 * block is put in or taken out some do not.)
 * @param {Window[]} used
 * @param {{key: string, from: number, target: number}[]} links
 */
function isLinkedBothWays(used, links) {
  if (used.length !== 2) return false;
  const own = links.filter((it) => used.some(({key}) => key === it.key));
  const pairs = new Set(own.map((it) => `${it.key} ${it.from} ${it.target}`));
  const other = (/** @type {string} */ key) => used.find((it) => it.key !== key)?.key;
  const hasBack = own.filter((it) => pairs.has(`${other(it.key)} ${it.target} ${it.from}`));
  return hasBack.length * 2 >= own.length;
}

/**
 * The bugs that lead to blocks, and those that dangle. Those that only hold the number of a place do not lead.
 * @param {import("./view.js").View} view
 * @param {import("./view.js").View | null} before
 * @param {Chronicle | null} chronicle
 * @param {Dangling[]} dangling
 * @returns {Bug[]}
 */
function bugsLeading(view, before, chronicle, dangling) {
  /** @type {Map<string, number>} */
  const leading = new Map();
  for (const [name, place] of view.draw.bugs)
    if (!isNumber(name, view.state.number, chronicle)) leading.set(name, place);
  const broken = new Set();
  for (const {bug, target} of dangling) {
    if (!bug) continue;
    leading.set(bug, target);
    broken.add(bug);
  }
  return [...leading].map(([name, place]) => ({
    name,
    place,
    isChanged: before !== null && (before.bugs.get(name) ?? 0) !== place,
    isBroken: broken.has(name)
  }));
}

/**
 * @param {Block} block
 * @param {import("./view.js").View} before
 * @param {Window[]} windows
 */
function markChanges(block, before, windows) {
  const old = before.words.get(block.place);
  const {words} = block;
  if (!old || block.isNew || !words) return;
  const isOther = (/** @type {Window | null | undefined} */ window, /** @type {number} */ word) => {
    const number = window ? window.word : word;
    const seen = (/** @type {number[]} */ all) => (window ? seenThrough(all[number], window) : all[number]);
    return number < old.length && number < words.length && seen(old) !== seen(words);
  };
  for (const row of block.shape.rows) {
    for (const cell of row.cells)
      if (row.word >= 0) cell.isChanged = isOther(cell.window ?? windows.find((it) => it.key === cell.key), row.word);
  }
  for (const link of block.links) link.isChanged = isOther(windows.find((it) => it.key === link.key), 0);
  block.isChanged = words.some((word, index) => word !== old[index]);
}
