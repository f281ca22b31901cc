// Tests the chronicle of a run, what fields hold, where pointers come from, and calls.
//
// provenance.mjs prints what differs, and last 'N passed, M failed'.

import {branchesOf} from "../src/calls.js";
import {byCalls} from "../src/frames.js";
import {Kinds} from "../src/kinds.js";
import {danglingInWords, danglingOf, usesAfterFree} from "../src/provenance.js";
import {windowsOf} from "../src/shape.js";
import {nextShown, operationAt} from "../src/steps.js";
import {seenThrough} from "../src/word.js";

import {canary, Tally} from "./common.mjs";
import {DECKS, jobs, read} from "./runs.mjs";

await canary();
const tally = new Tally();
const same = (name, got, want) => tally.same(name, got, want);
const right = (name, isRight, tell = () => "it is not so") => tally.count(name, isRight, tell);

// ---- The chronicle has what the debugger answers

const STATES = 60; // of each deck that are compared

// The lives, bugs and fields of some states that are other than the debugger says, and how many were compared.
async function differing(session) {
  const {chronicle} = session;
  const last = Math.min(session.last, chronicle.last);
  const wrong = [];
  let compared = 0;
  const compare = (what, got, want) => {
    compared++;
    if (got !== want) wrong.push(`${what}: ${got}, and not ${want}`);
  };
  for (let index = 0; index <= STATES; index++) {
    const view = await session.view(Math.round((last * index) / STATES));
    const {number} = view.state;
    for (const [bug, value] of view.bugs) {
      const held = chronicle.heldAt(bug, number);
      if (held?.value !== null) compare(`${bug} in ${number}`, held?.value, value);
      if (held?.life && value) compare(`the pointer ${bug} in ${number}`, held.life.place, value);
    }
    for (const place of view.shown.places) {
      const words = view.words.get(place);
      const life = chronicle.lifeAt(place, number);
      compare(`block ${place} in ${number}`, life?.size, words.length);
      for (const window of windowsOf(view.fields)) {
        if (!life || window.word >= words.length) continue;
        const value = seenThrough(words[window.word], window);
        const held = chronicle.heldAt(`${life.id} ${window.key}`, number);
        compare(`${window.name} of ${place} in ${number}`, held?.value ?? 0, value);
        if (held?.life) compare(`the pointer ${window.name} of ${place} in ${number}`, held.life.place, value);
      }
    }
  }
  return {wrong, compared};
}

let compared = 0;
for (const [name, {deck, input = ""}] of jobs) {
  const session = await read(deck, input);
  const found = await differing(session);
  same(`the chronicle of ${name}`, found.wrong.slice(0, 3), []);
  compared += found.compared;
}
right("much was compared", compared > 40_000, () => String(compared));

// A chronicle that lacks something differs: it has no lives, nothing of bugs, or nothing of fields, whose keys have a life.
const run = await read(jobs.values().next().value.deck);
const lacking = {
  lives: {lifeAt: () => undefined},
  bugs: {heldAt: (key, number) => (key.includes(" ") ? run.chronicle.heldAt(key, number) : undefined)},
  fields: {heldAt: (key, number) => (key.includes(" ") ? undefined : run.chronicle.heldAt(key, number))}
};
for (const [what, parts] of Object.entries(lacking)) {
  const {last, lifeAt, heldAt} = run.chronicle;
  const chronicle = {last, lifeAt: lifeAt.bind(run.chronicle), heldAt: heldAt.bind(run.chronicle), ...parts};
  const found = await differing({chronicle, last: run.last, view: (number) => run.view(number)});
  right(`a chronicle without ${what} is seen`, found.wrong.length > 0);
}

// ---- What fields hold: by what they got, and not by what their numbers happen to be

const powers = await read(DECKS.powers.deck);
const kinds = new Kinds();
kinds.begin(powers.reading, powers.chronicle);
const windowOf = (session, name) => [...session.chronicle.windows.values()].find((it) => it.names.includes(name));
same(
  "a 1024 that was counted is a number, and the next block a link",
  ["V", "N"].map((name) => kinds.of(windowOf(powers, name), powers.last)), ["number", "link"]
);
const powersView = await powers.view(powers.last);
right("though a block is there", [...powersView.words.values()].some((it) => seenThrough(it[1], {first: 0, last: 35}) === 1024));
kinds.turn(windowOf(powers, "V"), 0);
kinds.turn(windowOf(powers, "V"), 0);
same("a click goes on to texts, and then to links", kinds.of(windowOf(powers, "V"), 0), "link");
const copy = new Kinds();
copy.code = kinds.code;
same("a link keeps what was chosen", [...copy.chosen], [...kinds.chosen]);
copy.code = "broken_0.0.5z";
same("and a damaged one has nothing", copy.chosen.size, 0);
const mixed = await read(" (0,DN,18,35)(A,GT,1)(B,GT,1)(AN,E,B)(BN,E,7)\n");
const later = new Kinds();
later.begin(mixed.reading, mixed.chronicle);
same(
  "by the run so far", [5, 6].map((number) => later.of(windowOf(mixed, "N"), number)), ["link", "number"]
);

// ---- Pointers that dangle

const dangling = await read(DECKS.dangling.deck);
const atEach = async (session, tell) => {
  const found = [];
  for (let number = 0; number <= session.last; number++) found.push(tell(await session.view(number)));
  return found;
};
const linkedOf = (session) => [...session.chronicle.windows.values()];
const told = await atEach(dangling, (view) =>
  danglingInWords(danglingOf(view, dangling.chronicle, view.shown.places, linkedOf(dangling)).pointers));
same("a bug and a field that dangle", told[14], [
  "C leads to 1025, which was freed at state 14", "N of 1024 leads to 1025, which was freed at state 14"
]);
same("and the place is given again", told[17][0], "C leads to 1025 from get 2; now the block of get 3 is there");
same("none before", told.slice(0, 14).flat(), []);
const ghosts = await atEach(dangling, (view) =>
  danglingOf(view, dangling.chronicle, view.shown.places, linkedOf(dangling)).ghosts.map((it) => it.place));
same("a ghost while nothing is there", [ghosts[13], ghosts[14], ghosts[17]], [[], [1025], []]);

const copied = await read(DECKS.copied.deck);
const atEnd = await copied.view(copied.last);
same(
  "copies, exchanges and what is saved keep whose pointers they are",
  danglingInWords(danglingOf(atEnd, copied.chronicle, atEnd.shown.places, linkedOf(copied)).pointers), [
    "D leads to 1025 from get 2; now the block of get 5 is there",
    "N of 1024 leads to 1025 from get 2; now the block of get 5 is there"
  ]
);
const madeFor = (key) => copied.chronicle.heldAt(key, copied.last)?.life?.id;
same("the others are of the blocks that are there", [madeFor("B"), madeFor("4 0.18.35"), madeFor("C"), madeFor("E")], [3, 3, 4, 5]);

const elsewhere = await atEach(copied, (view) => (view.fields.get("N")?.first === 0 ? view.state.number : null));
const during = elsewhere.find((it) => it !== null);
same(
  "no link is there while its field is defined elsewhere",
  copied.chronicle.links.filter((it) => it.key === "0.18.35" && it.since <= during && during < it.until), []
);
right("and they are there again", copied.chronicle.links.some((it) => it.key === "0.18.35" && it.since > during));

const trapped = await read(" (0,DN,18,35)(A,GT,1)(A,E,BN)\n");
same("a step that traps changes nothing", trapped.chronicle.heldAt("A", trapped.last)?.life?.id, 1);

// What the step from a state on uses after it was freed.
async function usesFrom(session, number) {
  const view = await session.view(number);
  const spot = nextShown(session.reading, view.state);
  const operation = operationAt(session.reading, spot);
  const tests = spot.action === 0 ? session.reading.statements[spot.statement]?.tests ?? [] : [];
  for (const place of [...view.store.places]) if (view.store.block(place)) await session.addBlock(view, place);
  return usesAfterFree((operation ? [operation] : tests).map((it) => it.elements), view, session.chronicle);
}
const uses = await read(" (0,DN,18,35)(A,GT,1)(B,E,A)(A,FR)(C,GT,1)(BN,E,7)(CN,E,8)\n IF (BN,E,8) THEN (B,FR)\n");
same("a store through it", await usesFrom(uses, 6), ["B leads to 1024, freed at state 5, and follows it to the block of get 2"]);
same("none through the new pointer", await usesFrom(uses, 7), []);
same("a test through it", await usesFrom(uses, 9), ["B leads to 1024, freed at state 5, and follows it to the block of get 2"]);
same("a free through it", await usesFrom(uses, 10), ["B leads to 1024, freed at state 5, and follows it to the block of get 2"]);

const copies = await read(" (A,GT,1)(B,E,A)(A,FR)(D,E,B)(B,A,1)\n");
same("to copy it, or to count with it, is no use", [await usesFrom(copies, 4), await usesFrom(copies, 5)], [[], []]);

const held = await read(" (A,GT,1)(B,E,A)(C,E,A)(B,E,0)(C,E,0)(B,GT,1)(A,E,0)\n");
same("three bugs lead to a block at once, at most", [...held.chronicle.mostBugs], [[1024, 3], [1025, 1]]);
same("the bug that leads there longest", held.chronicle.heldFor.get(1024), 6); // (A, in the states 2 to 7)

// ---- Calls

const calls = await read(jobs.get("tree.deck").deck, jobs.get("tree.deck").input);
const branches = branchesOf(calls.chronicle.calls);
same("the calls of the deck", branches.map((it) => it.call.label).slice(-2), ["WALK", "FREE"]);
right("those that they make are in them", branches.some((it) => it.inner.length > 0 && it.size > it.inner.length));
const deep = branchesOf([0, 1, 2, 1, 0].map((depth, number) => ({number, until: 9, statement: 0, label: "A", depth})));
same("a tree of calls", [deep.length, deep[0].size, deep[0].inner.length, deep[0].inner[0].size], [2, 3, 2, 1]);
const endless = await read("R (A,A,1)(R,DO)\n");
same("the call that traps is none", [endless.chronicle.calls.length, endless.chronicle.calls.at(-1).depth], [1024, 1023]);
const grouped = byCalls({
  returns: [{number: 20}, {number: 10}],
  contents: [{number: 25}, {number: 12}, {number: 11}, {number: 3}],
  definitions: [{number: 15}]
});
same("all calls are known", [calls.chronicle.callsUntil, endless.chronicle.callsUntil], [null, null]);
const many = await read("L (A,A,1)(R,DO)\n IF (A,L,6000) THEN L\n DONE\nR DONE\n");
same("of very many calls the first", [many.chronicle.calls.length, many.chronicle.callsUntil === many.chronicle.calls[4999].number], [5000, true]);

// ---- Long runs

const long = await read(" (0,DN,18,35)\nG (L,GT,1,LN)(C,A,1)\n IF (C,L,50000) THEN G\n", "", {store: 60});
right("a run of 50,000 gets is read whole", long.chronicle.isWhole && long.chronicle.lives.size === 50_000);
const longer = await read(" (0,DN,18,35)\nG (L,GT,1,LN)(C,A,1)\n IF (C,L,70000) THEN G\n", "", {store: 80});
right("a longer one up to 60,000 of its steps", !longer.chronicle.isWhole && longer.chronicle.lives.size === 59_999,
  () => String(longer.chronicle.lives.size));
same("and its calls up to there", longer.chronicle.callsUntil, longer.chronicle.last);

same("what is saved is with its call", grouped.map((it) => it.contents.map(({number}) => number)), [[25], [12, 11], [3]]);
same("and definitions", grouped.map((it) => it.definitions.length), [0, 1, 0]);

tally.end();
