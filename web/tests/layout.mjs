// Tests the lasting picture of a run: which block stands where, arrows and their names, and how arrows glide.
//
// layout.mjs prints what differs, and last 'N passed, M failed'.

import {arrowsOf} from "../src/arrows.js";
import {along, between} from "../src/glide.js";
import {graphOf} from "../src/graph.js";
import {Kinds} from "../src/kinds.js";
import {byRank, union} from "../src/lasting.js";
import {pack} from "../src/packing.js";
import {planOf, settle} from "../src/plan.js";
import {rowsOf} from "../src/rows.js";
import {isOver, tagsOf, tipOf} from "../src/tags.js";

import {canary, Tally} from "./common.mjs";
import {DECKS, jobs, read} from "./runs.mjs";

await canary();
const tally = new Tally();
const same = (name, got, want) => tally.same(name, got, want);
const right = (name, isRight, tell = () => "it is not so") => tally.count(name, isRight, tell);

// ---- The plan: blocks have places of their own, and no picture moves

const WISHES = {
  directions: new Map(), detail: "auto", frame: {width: 716, height: 440}, isLecture: false, texts: new Set()
};

// Decks that have no two blocks at once: they have numbers alone, or one array.
const ALONE = ["cells", "first", "permute", "primes", "sieve", "squares", "sum"].map((it) => `${it}.deck`);
const MOST_PLANNED = 3000; // blocks that a plan has

function planFor(session, more = {}) {
  const own = new Kinds();
  own.begin(session.reading, session.chronicle);
  return {kinds: own, plan: planOf(session.chronicle, {...WISHES, isLink: (key) => own.mayLink(key), ...more})};
}

function drawnBy({plan, kinds: own}, session, view) {
  const kindOf = (window) => own.of(window, view.state.number);
  const graph = graphOf(view, null, {plan, chronicle: session.chronicle, kindOf});
  for (const block of [...graph.blocks, ...graph.ghosts]) Object.assign(block, plan.places.get(block.place));
  return graph;
}

// The blocks of a run that cover one another, or have no place, in some states, and how many pairs of them were compared.
async function covering(session, made) {
  const found = new Set();
  let pairs = 0;
  for (const part of [0.1, 0.3, 0.5, 0.7, 0.9, 1]) {
    const {blocks} = drawnBy(made, session, await session.view(Math.floor(session.last * part)));
    const placed = blocks.filter((it) => made.plan.places.has(it.place));
    if (placed.length < blocks.length && session.chronicle.lives.size <= MOST_PLANNED) found.add("some have no place");
    placed.forEach((it, index) => placed.slice(index + 1).forEach((other) => {
      pairs++;
      if (isOver(it, other)) found.add(`${it.place} and ${other.place}`);
    }));
  }
  return {found: [...found], pairs};
}

const compared = new Map();
for (const [name, {deck, input = ""}] of jobs) {
  const session = await read(deck, input);
  const {found, pairs} = await covering(session, planFor(session));
  same(`${name}: no block covers another`, found.slice(0, 3), []);
  compared.set(name, pairs);
}
right("of a list of 100 each pair was compared", compared.get("list100") >= 100 * 99 / 2, () => String(compared.get("list100")));
const without = [...compared].filter(([, pairs]) => pairs === 0).map(([name]) => name);
same("decks of which none was, since they have no two blocks at once", without.sort(), ALONE);
const spoilt = async (spoil) => {
  const session = await read(DECKS.tree31.deck, DECKS.tree31.input), made = planFor(session);
  spoil(made.plan.places);
  return (await covering(session, made)).found.length > 0;
};
right("two blocks at one place are seen", await spoilt((places) => places.set([...places.keys()][1], {...places.values().next().value})));
right("and a block without a place", await spoilt((places) => places.delete([...places.keys()][1])));

const rowPlaces = (plan, places) => places.map((it) => plan.places.get(it));
const list = await read(DECKS.list100.deck);
const listPlan = planFor(list).plan;
right("a list of 100 wraps", listPlan.width / listPlan.height < 4, () => `${listPlan.width}x${listPlan.height}`);
const double = await read(DECKS.double4.deck);
const doublePlan = planFor(double, {frame: {width: 1000, height: 500}}).plan;
const inLine = rowPlaces(doublePlan, [1024, 1025, 1026, 1027]);
right("a list that is linked both ways is a line", inLine.every((it, index) => !index || it.x > inLine[index - 1].x));
same("in one line", new Set(inLine.map((it) => it.y)).size, 1);
const tree = await read(DECKS.tree31.deck, DECKS.tree31.input);
const {plan: treePlan} = planFor(tree);
const root = treePlan.first;
same("a tree has its root on top", Math.min(...[...treePlan.places.values()].map((it) => it.y)), treePlan.places.get(root).y);
same("and all hangs below it", treePlan.below.get(root).length, 30);
right("31 nodes are legible", treePlan.scale >= treePlan.legible, () => String(treePlan.scale));

const link = (key, from, to, since, until) => ({key, from, to, since, until});
same(
  "what the fullest state shows ranks first", union([link("N", 1, 2, 0, 50), link("N", 1, 3, 50, 60), link("N", 3, 2, 50, 60)])
    .map((it) => [it.from, it.to, it.rank > 0]),
  [[1, 2, false], [1, 3, true], [3, 2, true]]
);
const leadsRight = new Map([["N", {down: false, side: 0, isBack: false}]]);
const itemsOf = (rows) => rows.map((row) => row.items.map((it) => it.place));
same("a list stands as it is when all is in it", itemsOf(rowsOf([1, 2, 3], union([
  link("N", 1, 2, 0, 50), link("N", 1, 3, 50, 60), link("N", 3, 2, 50, 60)
]), leadsRight)), [[1, 3, 2]]);
same("a row points as its links do", itemsOf(rowsOf([1, 2, 3], union([
  link("N", 3, 2, 0, 9), link("N", 2, 1, 0, 9)
]), leadsRight)), [[3, 2, 1]]);
same("what was put in for a while stands behind that which led to it", itemsOf(rowsOf([1, 2, 3, 4], union([
  link("N", 1, 2, 0, 90), link("N", 2, 3, 0, 50), link("N", 2, 4, 60, 70)
]), leadsRight)), [[1, 2, 4, 3]]);
const [ring] = rowsOf([1, 2, 3, 4], union([
  link("N", 1, 2, 5, 9), link("N", 2, 3, 5, 9), link("N", 3, 4, 5, 9), link("N", 4, 1, 5, 9)
]), leadsRight);
same("a ring is closed", [ring.isRing, ring.items.map((it) => it.place)], [true, [1, 2, 3, 4]]);
const ringOf = (places, held) => rowsOf(places, union([1, 2, 3, 4].map((it) => link("N", it, it % 4 + 1, 5, 9))), leadsRight, new Map(held));
same("it begins with the block that a bug holds for most of the time", itemsOf(ringOf([1, 2, 3, 4], [[3, 100], [1, 10]])), [[3, 4, 1, 2]]);
same("or, where none does, with that which was got first", itemsOf(ringOf([2, 1, 3, 4], [[3, 100], [1, 60]])), [[2, 3, 4, 1]]);
same("two blocks that lead to one another are no ring", rowsOf([1, 2], union([link("N", 1, 2, 0, 9), link("N", 2, 1, 0, 9)]), leadsRight).map((it) => it.isRing), [false]);
const down = new Map([["L", {down: true, side: -1, isBack: false}], ["R", {down: true, side: 1, isBack: false}]]);
const [top] = rowsOf([1, 2, 3], union([link("R", 1, 2, 0, 9), link("L", 1, 3, 3, 9)]), down);
same("the left part of a tree is on the left", itemsOf(top.items[0].below).flat(), [3, 2]);
const hung = (held) => itemsOf(rowsOf([1, 2], union([link("L", 1, 2, 0, 5)]), down, new Map(held)));
same("what a bug holds for longer hangs below nothing", [hung([]), hung([[2, 5]]), hung([[2, 6]])], [[[1]], [[1]], [[1], [2]]]);
const once = rowsOf([1, 2, 3], union([link("L", 1, 3, 0, 5), link("L", 2, 3, 0, 9)]), down);
same("a row hangs below the block that leads to it for longest", once.map((row) => row.items.map((it) => it.below.map((one) => one.items[0].place))), [[[]], [[3]]]);

same(
  "ranked links come first, then those that last, then old ones",
  [[0, 9, 3], [0, 2, 1], [1, 1, 9], [0, 9, 1]].map(([rank, weight, since]) => ({rank, weight, since})).sort(byRank)
    .map((it) => Object.values(it)), [[1, 1, 9], [0, 9, 1], [0, 9, 3], [0, 2, 1]]
);

// ---- Packing

const GAPS = {side: 24, along: 36, below: 48, apart: 48, unit: 12};
const square = () => ({width: 48, height: 48});
const rowWith = (items, more = {}) => ({items, side: 0, isRing: false, ...more});
const leaf = (place, below = []) => ({place, below});
const placed = (rows, room) => Object.fromEntries(
  [...pack(rows, square, GAPS, room).places].map(([place, {x, y}]) => [place, [x, y]])
);
same("side by side along a row", placed([rowWith([leaf(1), leaf(2)])], 500), {1: [0, 0], 2: [84, 0]});
same("a row wraps", placed([rowWith([leaf(1), leaf(2), leaf(3)])], 140), {1: [0, 0], 2: [84, 0], 3: [0, 96]});
same(
  "a ring goes to and fro", placed([rowWith([leaf(1), leaf(2), leaf(3), leaf(4)], {isRing: true})], 500),
  {1: [0, 0], 2: [84, 0], 3: [84, 96], 4: [0, 96]}
);
same(
  "a tree has its root above the middle of its parts",
  placed([rowWith([leaf(1, [rowWith([leaf(2)], {side: -1}), rowWith([leaf(3)], {side: 1})])])], 500),
  {1: [36, 0], 2: [0, 96], 3: [72, 96]}
);
same(
  "one part alone hangs on its side", [-1, 1].map((side) => placed([rowWith([leaf(1, [rowWith([leaf(2)], {side})])])], 500)), [{1: [36, 0], 2: [0, 96]}, {1: [0, 0], 2: [36, 96]}]
);
same("rows that nothing joins stand apart", placed([rowWith([leaf(1)]), rowWith([leaf(2)])], 500), {1: [0, 0], 2: [96, 0]});
same("in lines that are no wider than there is room", placed([rowWith([leaf(1)]), rowWith([leaf(2)]), rowWith([leaf(3)])], 150), {1: [0, 0], 2: [96, 0], 3: [0, 96]});
same("a ring of six", placed([rowWith([1, 2, 3, 4, 5, 6].map((it) => leaf(it)), {isRing: true})], 500), {1: [0, 0], 2: [84, 0], 3: [168, 0], 4: [168, 96], 5: [84, 96], 6: [0, 96]});

// ---- Blocks that the plan does not know: beside what they belong to, where there is room; else below all

const plan = (places, more = {}) => ({
  width: 400, height: 300, extra: new Map(), sizes: () => ({width: 48, height: 48}), ...more, places: new Map(Object.entries(places).map(([place, [x, y]]) => [Number(place), {x, y}]))
});
const late = (own, places, others) => {
  const made = plan(places), block = {place: 9, width: 48, height: 48, links: own.map((target) => ({target}))};
  settle(made, block, [...others.map(([place, target]) => ({place, links: [{target}]})), block]);
  const {x, y} = made.places.get(9);
  return [x, y, made.width, made.height];
};
same("it stands to the right of the block that leads to it", late([], {1: [24, 48]}, [[1, 9]]), [96, 48, 400, 300]);
same("or of that to which it leads", late([1], {1: [24, 48]}, [[1, 5]]), [96, 48, 400, 300]);
same("below, where that is taken", late([], {1: [24, 48], 2: [96, 48]}, [[1, 9], [2, 5]]), [24, 144, 400, 300]);
same("without a link below all, and the drawing is higher then", late([], {1: [24, 48]}, [[1, 5]]), [24, 300, 400, 372]);
same("where it stands further right the drawing is wider", late([], {1: [360, 48]}, [[1, 9]]), [432, 48, 504, 300]);

// ---- Arrows: round the blocks, and their names where they cover nothing

for (const name of ["double", "double4", "twostacks", "sorted", "graph", "reverse.deck", "list.deck", "queue.deck"]) {
  const {deck, input = ""} = jobs.get(name);
  const session = await read(deck, input);
  const made = planFor(session, {detail: "boxes"});
  const covered = [];
  let names = 0;
  for (let index = 0; index <= 30; index++) {
    const view = await session.view(Math.round((session.last * index) / 30));
    const arrows = arrowsOf(drawnBy(made, session, view), made.plan);
    for (const arrow of arrows) {
      if (!arrow.tag) continue;
      names++;
      const box = {x: arrow.tag.x, y: arrow.tag.y - 9, width: 8, height: 9};
      const tip = arrows.find((it) => isOver(box, tipOf(it.points)));
      if (tip) covered.push(`${view.state.number}: ${arrow.name} by ${tip.name}`);
    }
  }
  same(`${name}: no name is under an arrowhead`, covered.slice(0, 3), []);
  right(`${name}: in each state there was one on average`, names > 30, () => String(names));
}
const tagged = [
  {points: [{x: 0, y: 20}, {x: 60, y: 20}], tag: {x: 0, y: 20}, link: {name: "N"}},
  {points: [{x: 60, y: 14}, {x: 0, y: 14}], tag: {x: 60, y: 14}, link: {name: "P"}}
];
tagsOf(tagged, [{x: 0, y: 0, width: 30, height: 40}]);
right("a name stands beside a box", tagged[0].tag.x >= 30, () => JSON.stringify(tagged[0].tag));
same("the head of an arrow to the left", tipOf(tagged[1].points), {x: 0, y: 8.5, width: 11, height: 11});

// ---- Gliding

same("points along a way", along([{x: 0, y: 0}, {x: 10, y: 0}, {x: 10, y: 10}], 5), [
  {x: 0, y: 0}, {x: 5, y: 0}, {x: 10, y: 0}, {x: 10, y: 5}, {x: 10, y: 10}
]);
same("half of the way", between([{x: 0, y: 0}], [{x: 10, y: 4}], 0.5), [{x: 5, y: 2}]);
same("a way of no length", along([{x: 3, y: 3}, {x: 3, y: 3}], 2), [{x: 3, y: 3}, {x: 3, y: 3}]);

tally.end();
