// Tests the small functions of the page, by tables: each case is worked by hand.
//
// small.mjs prints what differs, and last 'N passed, M failed'.

import {answerOf} from "../src/answers.js";
import {branchesOf} from "../src/calls.js";
import {valueOf} from "../src/chain.js";
import {shortened} from "../src/changes.js";
import {choose, MOST_BLOCKS, MOST_LOST} from "../src/choice.js";
import {Chronicle} from "../src/chronicle.js";
import {columnsOf, linesOf, readDeck} from "../src/deck.js";
import {colourNumber} from "../src/figures.js";
import {byCalls} from "../src/frames.js";
import {linksOf} from "../src/graph.js";
import {chainBehind, chainsOf, isSuffix} from "../src/group.js";
import {job, partsOf} from "../src/job.js";
import {titleOf} from "../src/keep.js";
import {Kinds} from "../src/kinds.js";
import {byRank, union} from "../src/lasting.js";
import {boxAround, isIn, onTheWay, revealed, whole} from "../src/lens.js";
import {exercisePart, numbersOf, taskWith} from "../src/links.js";
import {actionAt, groupAt} from "../src/meaning.js";
import {areOptionsOf, DEFAULTS, RANGES} from "../src/options.js";
import {differenceOf} from "../src/printouts.js";
import {danglingInWords, isNumber, usesAfterFree} from "../src/provenance.js";
import {chipFor, chipText, lanesOf, shapeOf, textOfCell, windowsOf} from "../src/shape.js";
import {snapshotOf} from "../src/snapshot.js";
import {hasStacks, isSilent, nextShown, stackingAt} from "../src/steps.js";
import {KINDS, Store} from "../src/store.js";
import {tagsOf, tipOf} from "../src/tags.js";
import {inputsOf, taskOf} from "../src/tasks.js";
import {textNames} from "../src/texts.js";
import {stateOf} from "../src/transcript.js";
import {conditionsOf, testsOf} from "../src/verify.js";
import {View} from "../src/view.js";
import {changedThrough, characterOf, count, isLetter, likelyText, octal, seenThrough, withCommas} from "../src/word.js";

import {canary, Tally} from "./common.mjs";

await canary();
const tally = new Tally();
const same = (name, got, want) => tally.same(name, got, want);
// Each case is a list: what is given, and last what must come of it.
const table = (name, what, cases) => {
  for (const [index, one] of cases.entries()) same(`${name}, case ${index + 1}`, what(...one.slice(0, -1)), one.at(-1));
};

// ---- Words and numbers

table("commas", withCommas, [[0, "0"], [999, "999"], [1000, "1,000"], [261_120, "261,120"], [1_000_000_001, "1,000,000,001"]]);
table("a count", count, [[0, "step", "0 steps"], [1, "step", "1 step"], [2, "step", "2 steps"], [1000, "step", "1,000 steps"],
  [1, "call waits", "calls wait", "1 call waits"], [2, "call waits", "calls wait", "2 calls wait"]]);
table("octal digits", octal, [[0, "000000000000"], [8, "000000000010"], [2 ** 36 - 1, "777777777777"]]);
table("characters", characterOf, [[0, " "], [33, "A"], [63, "_"]]);
table("letters", isLetter, [[32, false], [33, true], [58, true], [59, false]]);
table("texts", likelyText, [[0, ""], [33, ""], [33 * 64 + 34, "AB"], [33 * 64, ""], [33 * 64 + 14, "A."], [16 * 64 + 33, ""],
  [(33 * 64 + 7) * 64 + 34, "A'B"], [(33 * 64 + 16) * 64 + 34, ""], [(33 * 64 + 34) * 64, "AB"]]);
table("what a window shows", seenThrough, [[2 ** 35, {first: 0, last: 0}, 1], [1, {first: 35, last: 35}, 1], [6, {first: 33, last: 34}, 3]]);
table("what a window is made to show", changedThrough, [
  [0, {first: 0, last: 0}, 1, 2 ** 35], [7, {first: 34, last: 34}, 0, 5], [0, {first: 18, last: 35}, 1024, 1024], [0, {first: 34, last: 35}, 5, 1]
]);
table("changes that are listed", (number) => shortened(Array.from({length: number}, (_, at) => String(at))).slice(-2), [
  [7, ["5", "6"]], [8, ["5", "and 2 more changes"]], [30, ["5", "and 24 more changes"]]
]);

// ---- Decks

table("lines", linesOf, [["", []], ["A", ["A"]], ["A\n", ["A"]], ["A\n\n", ["A", ""]], ["\nA", ["", "A"]]]);
table("columns", (line) => columnsOf(line).length, [["A\r", 1], ["A".repeat(73), 72], [`${"A".repeat(72)}\r`, 72], ["\r\r", 1]]);
table("suffixes", isSuffix, [["E", true], ["EO", true], ["EH", true], ["DO", true], ["GT", false], ["EOH", false], ["", false]]);
table("chains of tests", (text) => chainsOf(text.split(","), true), [["A,E,5", ["A"]], ["A,E,BN", ["A", "BN"]], ["AN,EH,X", ["AN"]], ["A,EO,7", ["A"]]]);
table("chains of operations", (text) => chainsOf(text.split(","), false), [
  ["A,E,B", ["A", "B"]], ["A,EO,7", ["A"]], ["A,EH,AB", ["A"]], ["0,DN,A,35", ["A"]], ["A,DN,B,CN", ["A", "B", "CN"]], ["S,FC,AN", ["AN"]],
  ["R,FC,A", ["A"]], ["S,FD,N", []], ["SORT,DO", []], ["SORT,DO,END", []], ["A,GT,4", ["A"]], ["A,GT,B,CN", ["A", "B"]], ["A,FR", ["A"]],
  ["A,FR,AN", ["A", "AN"]], ["A,IN,1,END", ["A"]], ["A,PR,B", ["A", "B"]], ["A,PD", ["A"]], ["TEXT,PH", []], ["PL", []], ["A,DP,B,,FULL", ["A", "B"]]
]);
table("the chain behind a get", (text) => chainBehind(text.split(",")), [
  ["A,GT,4,AN", "AN"], ["A,GT,4,,FULL", ""], ["A,GT,4,BN,FULL", "BN"], ["A,GT,4", ""], ["A,DP,B,,FULL", ""]
]);
const deck = readDeck("* NOTE\n (A,E,5)(B,E,1)\nLOOP IF (A,E,0) THEN LOOP\n+\n NOT (A,N,1) T HEN  FAIL\n DONE\n (PL)\n");
same("where exits are", [1, 2, 3].map((it) => [deck.statements[it].exit.text, deck.statements[it].exit.from, deck.statements[it].exit.to]), [
  ["LOOP", 21, 25], ["FAIL", 20, 24], ["DONE", 1, 5]
]);
table("the group at a column", (card, column) => groupAt(deck, card, column)?.text ?? "", [
  [1, 1, ""], [1, 2, "A,E,5"], [1, 8, "A,E,5"], [1, 9, "B,E,1"], [1, 15, "B,E,1"], [1, 16, ""], [0, 3, ""], [2, 9, ""]
]);
table("what comes next", (statement, action) => (({kind, text, card, from, to}) => [kind, text, card, from, to])(actionAt(deck, statement, action)), [
  [0, 0, ["condition", "statement 0", 1, 1, 1]], [0, 1, ["operation", "(A,E,5)", 1, 1, 8]], [0, 3, ["exit", "statement 0", 1, 15, 16]],
  [1, 0, ["condition", "IF (A,E,0)", 2, 5, 15]], [1, 1, ["exit", "LOOP", 2, 21, 25]], [4, 0, ["condition", "statement 4", 6, 1, 1]],
  [5, 0, ["exit", "DONE", -1, 0, 0]]
]);
table("steps that show nothing", (statement, action) => isSilent(deck, {statement, action}), [
  [0, 0, true], [0, 1, false], [0, 3, true], [1, 0, false], [1, 1, false], [4, 2, true], [5, 0, true], [5, 1, false]
]);
same("the next step that shows something", nextShown(deck, {statement: 4, action: 2}), {statement: 5, action: 1, silent: 2});
const stacks = readDeck(" (S,DO)(S,DO,F)(S,FC,A)(R,FC,A)(S,FD,N)(R,FD,N)(0,DN,0,5)\nS DONE\nF FAIL\nG L\nL (PL)\n");
table("what a step does to the stacks", (statement, action) => (({name, change} = {}) => [name, change])(stackingAt(stacks, {statement, action}) ?? {}), [
  [0, 1, ["returns", 1]], [0, 2, ["returns", 1]], [0, 3, ["contents", 1]], [0, 4, ["contents", -1]], [0, 5, ["definitions", 1]],
  [0, 6, ["definitions", -1]], [0, 7, [undefined, undefined]], [0, 8, [undefined, undefined]], [1, 0, [undefined, undefined]], [1, 1, ["returns", -1]],
  [2, 1, ["returns", -1]], [3, 1, [undefined, undefined]], [4, 2, [undefined, undefined]], [5, 1, ["returns", -1]]
]);
table("whether a deck has stacks", (text) => hasStacks(readDeck(text)), [
  [" (A,E,5)\n", false], ["S (S,DO)\n", true], ["S (S,DO,S)\n", true], [" (S,FC,A)\n", true], [" (R,FD,N)\n", true], [" (0,DO,1,5)\n", false]
]);
table("what holds texts", (text) => [...textNames(readDeck(text))].sort(), [
  [" (A,IN,1)\n", ["bug A"]], [" (AN,PR,1)\n", ["N"]], [" (A,EH,X)(B,E,A)\n", ["bug A", "bug B"]], [" (B,E,A)(CN,E,B)(A,IN,1)\n", ["N", "bug A", "bug B"]],
  [" (A,I,B)(B,PR,1)\n", ["bug A", "bug B"]], [" (A,A,B)(B,IN,1)\n", ["bug B"]], [" IF (A,EH,X) THEN\n", ["bug A"]], [" IF (A,L,BC) THEN\n (A,IN,1)\n", ["C", "bug A"]],
  [" (HELLO,PH)\n", []], [" (A,E,5)(A,PD)\n", []], [" IF (A,N,B) THEN (B,IN,1)\n", ["bug A", "bug B"]], [" IF (A,GH,Z) THEN\n", ["bug A"]]
]);

table("the parts of a job", (text) => Object.values(partsOf(text)), [
  ["$COMMANDS\nstep\n", ["", "step\n", ""]], ["$INPUT\nAB\n", ["", "", "AB\n"]], ["A\n$INPUT\n$COMMANDS\n", ["A\n", "", "$COMMANDS\n"]], ["A\n$COMMANDS\nB\n$INPUT\nC", ["A\n", "B\n", "C"]],
  ["A\n$COMMANDS", ["A\n", "", ""]], ["", ["", "", ""]], ["A\n $INPUT\nB", ["A\n $INPUT\nB", "", ""]]
]);
table("a job of its parts", job, [["", null, "", ""], ["A", null, "", "A\n"], ["A\n", null, "B", "A\n$INPUT\nB"], ["A", "", "", "A\n$COMMANDS\n"], ["A", "B", "C\n", "A\n$COMMANDS\nB\n$INPUT\nC\n"]]);

// ---- What is printed, and what is asked for

const DONE = "DONE", LIMIT = "LIMIT";
table("a printout beside the wanted one", differenceOf, [
  ["A\n", "A", DONE, 9, ""], ["A", "A\n", DONE, 9, ""], ["A\n\n", "A", DONE, 9, ""], ["", "A", DONE, 9, "line 1 is empty, and not “A”"],
  ["A\nC\n", "A\nB\n", DONE, 9, "line 2 is “C”, and not “B”"], ["A\n", "A\nB\n", DONE, 9, "line 2 is empty, and not “B”"],
  ["A\nB\n", "A\n", DONE, 9, "more is printed: line 2 is “B”"], ["A\n", "A", "FAIL", 9, "all is printed, but the run does not end by DONE"],
  ["A\n", "A", "TRAP", 9, "all is printed, but the run does not end by DONE"],
  ["A\n", "A\nB", LIMIT, 9, "the run does not end, and was stopped after 9 steps; up to there it is right"],
  ["A\nB", "A\nBC", LIMIT, 1, "the run does not end, and was stopped after 1 step; up to there it is right"],
  ["A\nX", "A\nBC", LIMIT, 2000, "the run does not end, and was stopped after 2,000 steps; line 2 is “X”, and not “BC”"],
  ["A\nB\nC", "A\nB", LIMIT, 9, "the run does not end, and was stopped after 9 steps; more is printed than is wanted"],
  ["A\nB", "A\nB", LIMIT, 9, "the run does not end, and was stopped after 9 steps; up to there it is right"],
  ["X\nB\nC", "A\nB", LIMIT, 9, "the run does not end, and was stopped after 9 steps; line 1 is “X”, and not “A”"],
  ["B", "AB\nC", LIMIT, 9, "the run does not end, and was stopped after 9 steps; line 1 is “B”, and not “AB”"],
  ["A".repeat(60), "B".repeat(61), DONE, 9, `line 1 is “${"A".repeat(60)}”, and not “${"B".repeat(58)}..”`]
]);
table("what a deck is called", (text) => titleOf({deck: text}), [
  ["* MINE\n (PL)\n", "MINE"], [" (PL)\n* NOTE\n", "NOTE"], ["\n (PL)\n", "(PL)"], ["", "an empty deck"], [" \n\n", "an empty deck"],
  [`* ${"X".repeat(38)}`, "X".repeat(38)], [`*${"X".repeat(40)}`, "X".repeat(40)], [`*${"X".repeat(41)}`, `${"X".repeat(38)}..`], ["*\n (PL)\n", ""]
]);
table("hidden inputs", inputsOf, [["", []], ["A", ["A"]], ["A\n---\nB\n", ["A\n", "B\n"]], ["---\nA", ["A"]], ["A\n--\nB", ["A\n--\nB"]], ["A\n ---\nB", ["A\n ---\nB"]],
  ["A\n---x\nB", ["A\n---x\nB"]], ["A\n---", ["A\n"]]]);
table("conditions", conditionsOf, [
  [undefined, {}], [{noLost: true}, {noLost: true}], [{noLost: 1}, {}], [{uses: "N"}, {uses: "N"}], [{uses: "7"}, {uses: "7"}], [{uses: "n"}, {}], [{uses: "NN"}, {}],
  [{list: {bug: "L", field: "N", length: 0}}, {list: {bug: "L", field: "N", length: 0}}], [{list: {bug: "L", field: "N", length: -1}}, {}],
  [{list: {bug: "L", field: "N", length: 1.5}}, {}], [{list: {bug: "5", field: "N", length: 1}}, {}], [{list: {bug: "L", field: "NN", length: 1}}, {}],
  [{list: {bug: "L", field: "7", length: 2}}, {list: {bug: "L", field: "7", length: 2}}]
]);
table("tests", testsOf, [[null, []], [[{input: "A", printout: "B", more: 1}], [{input: "A", printout: "B"}]], [[{input: "A"}, {printout: "B"}, null], []]]);
const task = {task: "T", printout: "P", deck: "D"};
table("tasks of files", (value) => taskOf(typeof value === "string" ? value : JSON.stringify(value)), [
  [task, {...task, input: "", options: {}, tests: [], conditions: {}}], [{...task, task: ""}, null], [{...task, printout: ""}, null], [{...task, deck: 5}, null],
  [{...task, input: 5}, null], ["(A,E,5)", null], ["{", null],
  [{...task, options: {store: 3, steps: -1, output: "7", other: 1}}, {...task, input: "", options: {store: 3, output: 7}, tests: [], conditions: {}}]
]);
table("options that are numbers", numbersOf, [[undefined, {}], [{store: 3, steps: 0, output: 1.5}, {store: 3, steps: 0}], [{store: "x"}, {}]]);
const answer = {what: "l6 answer", name: "N", task: "T", deck: "D"};
table("answers of files", (value) => answerOf(JSON.stringify(value)) !== null, [
  [answer, true], [{...answer, what: "l6"}, false], [{...answer, name: 1}, false], [{...answer, task: undefined}, false], [{...answer, deck: null}, false], [null, false]
]);
same("no answer at all", answerOf("{"), null);
same("the part of an exercise", exercisePart({key: "exercise-1", ...task}), {exercise: "exercise-1"});
same("and of none", exercisePart(null), {});
same("the part of a task", exercisePart({...task, tests: [], conditions: {}, input: "I", options: {store: 2}}), {
  task: "T", printout: "P", tests: [], conditions: {}, given: {input: "I", options: {store: 2}}
});
same("a task of a link of old", taskWith({...task, input: "I", options: {store: 2}}), {task: "T", printout: "P", tests: [], conditions: {}, input: "I", options: {store: 2}});
same("a link without a task", taskWith({deck: "D"}), null);
table("options of an example", areOptionsOf, [[{}, {...DEFAULTS}, true], [{options: {store: 1}}, {...DEFAULTS, store: 1}, true], [{options: {store: 1}}, {...DEFAULTS}, false]]);
same("the memory that a run may have", RANGES.memory, [1, 2048]);

// ---- The store

const store = (rows) => new Store({
  places: Int32Array.from(rows, (it) => it[0]), sizes: Int32Array.from(rows, (it) => it[1]),
  kinds: Uint8Array.from(rows, (it) => KINDS[it[2]]), used: rows.filter((it) => it[2] !== "free").reduce((sum, it) => sum + it[1], 0),
  free: rows.filter((it) => it[2] === "free").reduce((sum, it) => sum + it[1], 0)
});
const half = store([[1024, 4, "block"], [1028, 12, "free"], [1040, 16, "lost"], [1056, 2016, "free"]]);
same("blocks, lost ones, begin and end", [half.blocks, half.lost, half.begin, half.end], [2, 1, 1024, 3072]);
table("the piece with a word", (place) => half.pieceWith(place)?.place ?? null, [[1023, null], [1024, 1024], [1027, 1024], [1028, 1028], [1055, 1040], [1056, 1056], [3071, 1056], [3072, null]]);
table("the block at a place", (place) => half.block(place)?.size ?? null, [[1024, 4], [1025, null], [1028, null], [1040, 16], [0, null]]);
table("the free piece with a word", (place) => half.freePieceWith(place), [[1024, 0], [1028, 4], [1031, 4], [1032, 8], [1056, 32], [1100, 64], [2047, 512], [2048, 1024], [3072, 0]]);
same("the levels", half.levels().map(({blocks, free}) => `${blocks}.${free}`), ["0.0", "0.0", "1.1", "0.1", "1.0", "0.1", "0.1", "0.1", "0.1", "0.1", "0.1"]);
same("the largest free piece", [half.largestFree, store([[1024, 1024, "block"]]).largestFree], [1024, 0]);
table("the first change", (rows) => store(rows).firstChange(half), [
  [[[1024, 4, "block"], [1028, 12, "free"], [1040, 16, "block"], [1056, 2016, "free"]], 1040], [[[1024, 4, "block"], [1028, 12, "free"], [1040, 16, "lost"], [1056, 2016, "free"]], null],
  [[[1024, 2, "block"], [1026, 2046, "free"]], 1024], [[[1024, 4, "block"], [1028, 12, "free"], [1040, 16, "lost"]], 1040]
]);
same("the pieces of a unit", half.piecesBetween(1024, 1044).map(({place, size, isFree}) => [place, size, isFree]), [[1024, 4, false], [1028, 4, true], [1032, 8, true], [1040, 16, false]]);
same("those of the next one", half.piecesBetween(2048, 3072).map(({place, size}) => [place, size]), [[2048, 1024]]);

// ---- Which blocks are shown

const drawn = (count, size = 1) => ({
  bugs: new Map([["A", 1024]]), count, block: (place) => (place >= 1024 && place < 1024 + count ? {place, size, links: [{field: "N", target: place + 1}]} : null)
});
const lostStore = (count) => ({places: Array.from({length: count}, (_, at) => 5000 + at), sizes: Array(count).fill(1), kinds: Array(count).fill(KINDS.lost)});
table("how many are shown, and how many are not", (reached, lost) => (({places, hidden, hiddenLost}) => [places.length, hidden, hiddenLost])(choose(drawn(reached), lostStore(lost)).shown), [
  [1, 0, [1, 0, 0]], [MOST_BLOCKS, 0, [300, 0, 0]], [MOST_BLOCKS + 1, 0, [300, 1, 0]], [2, MOST_LOST, [42, 0, 0]], [2, MOST_LOST + 3, [42, 0, 3]]
]);
same("a large block alone is shown", choose(drawn(2, 30_000), lostStore(0)).shown, {places: [1024], hidden: 1, hiddenLost: 0});
same("of 20,000 words so many blocks", choose(drawn(30, 1000), lostStore(0)).shown.places.length, 20);
same("a hidden bug leads nowhere", choose(drawn(5), lostStore(0), ["A"]).shown, {places: [], hidden: 5, hiddenLost: 0});

// ---- The chronicle: two lives at one place, bugs and a field

const [first, second] = [{id: 1, place: 1024, size: 1, born: 2, dead: 6, words: [0]}, {id: 2, place: 1024, size: 1, born: 8, dead: Infinity, words: [0]}];
const third = {id: 3, place: 1030, size: 1, born: 3, dead: 7, words: [0]};
const chronicle = new Chronicle({
  last: 12, isWhole: true, calls: [], lives: new Map([[1024, [first, second]], [1030, [third]]]), links: [], windows: new Map(),
  held: new Map([["A", [{number: 2, value: 1024, life: first}, {number: 9, value: 0, life: null}]], ["B", [{number: 4, value: 1024, life: first}, {number: 7, value: 3, life: null}]],
    ["C", [{number: 8, value: 1024, life: second}]], ["2 0.18.35", [{number: 9, value: 1030, life: third}]], ["Z", [{number: 3, value: 1030, life: third}]], ["E", [{number: 9, value: 1024, life: second}]], ["F", [{number: 10, value: 1024, life: second}]], ["1 0.18.35", [{number: 3, value: 1024, life: first}]]]),
  evidence: new Map([["0.18.35", [{number: 3, isPointer: true}, {number: 9, isPointer: false}]]])
});
table("which life is at a place", (number) => chronicle.lifeAt(1024, number)?.id ?? 0, [[1, 0], [2, 1], [5, 1], [6, 0], [7, 0], [8, 2], [99, 2]]);
table("what A holds", (number) => chronicle.heldAt("A", number)?.value ?? null, [[1, null], [2, 1024], [8, 1024], [9, 0], [99, 0]]);
table("of which kind a window is", (number) => chronicle.kindOf("0.18.35", number), [[2, null], [3, "link"], [8, "link"], [9, "number"]]);
same("a state that was read, and one that was not", [chronicle.knows(12), chronicle.knows(13)], [true, false]);
same("for how long bugs held them", [...chronicle.heldFor], [[1024, 5], [1030, 4]]);
same("how many at the same time", [...chronicle.mostBugs], [[1024, 3], [1030, 1]]);
table("whether B holds a number", (number) => isNumber("B", number, chronicle), [[3, false], [4, false], [7, true], [13, false]]);
const at = (number, bugs) => ({state: {number}, bugs: new Map(Object.entries(bugs)), fields: new Map([["N", {word: 0, first: 18, last: 35}]]), wordsAt: (place) => (place === 1024 ? [1030] : null)});
table("uses after free", (groups, number, bugs) => usesAfterFree(groups, at(number, bugs), chronicle), [
  [[["AN", "E", "5"]], 5, {A: 1024}, []], [[["AN", "E", "5"]], 7, {A: 1024}, ["A leads to 1024, freed at state 6"]],
  [[["B", "E", "A"]], 7, {A: 1024}, []], [[["A", "FR"]], 7, {A: 1024}, ["A leads to 1024, freed at state 6"]],
  [[["B", "E", "AN"]], 8, {A: 1024}, ["A leads to 1024, freed at state 6, and follows it to the block of get 2"]],
  [[["AN", "E", "5"]], 6, {A: 1024}, ["A leads to 1024, freed at state 6"]], [[["CNN", "E", "5"]], 10, {C: 1024}, ["CN leads to 1030, freed at state 7"]],
  [[["ZN", "E", "5"]], 12, {Z: 1030}, ["Z leads to 1030, freed at state 7"]], [[["ZN", "E", "5"]], 13, {Z: 1030}, []], [[["CN", "E", "5"]], 9, {C: 1024}, []]
]);
same("what is said of pointers", danglingInWords([
  {bug: "A", target: 1024, life: first, now: null}, {from: 1030, window: {name: "N"}, target: 1024, life: first, now: second}
]), ["A leads to 1024, which was freed at state 6", "N of 1030 leads to 1024 from get 1; now the block of get 2 is there"]);
const calls = (number, isWhole) => new Chronicle({last: 12, isWhole, calls: Array(number).fill({number: 7}), lives: new Map(), held: new Map(), links: [], windows: new Map(), evidence: new Map()});
same("up to where calls are known", [calls(2, true).callsUntil, calls(2, false).callsUntil, calls(4999, true).callsUntil, calls(5000, true).callsUntil], [null, 12, null, 7]);

// ---- What fields hold

const kinds = new Kinds();
const window = {key: "0.18.35", names: ["N"]}, other = {key: "1.0.5", names: ["C"]};
same("where the run is not known all may be links", [kinds.of(window, 1), kinds.mayLink("0.18.35")], ["link", true]);
kinds.begin(readDeck(" (BC,IN,1)\n"), chronicle);
table("the kind of a window", (it, number) => kinds.of(it, number), [
  [window, 1, "number"], [window, 3, "link"], [window, 9, "number"], [window, 13, "number"], [other, 3, "text"], [{key: "1.0.5", names: ["D"]}, 3, "number"]
]);
same("a window that ever had links has room for them", [kinds.mayLink("0.18.35"), kinds.mayLink("1.0.5")], [true, false]);
for (const want of ["number", "text", "link"]) {
  kinds.turn(window, 3);
  same(`a turn to ${want}`, [kinds.of(window, 3), kinds.code, kinds.mayLink("0.18.35")], [want, `0.18.35${want[0]}`, want === "link"]);
}
kinds.code = "0.18.35t_1.0.5l_x_2.0.5z";
same("by a code", [kinds.of(window, 3), kinds.of(other, 3), kinds.code], ["text", "link", "0.18.35t_1.0.5l"]);
kinds.code = "";
same("by a code of none", [kinds.of(window, 3), kinds.code], ["link", ""]);
kinds.turn(window, 3);
kinds.forget();
same("forgotten", [kinds.code, kinds.chronicle], ["", null]);

// ---- Shapes

same("names that share a window", windowsOf(new Map([["B", {word: 1, first: 0, last: 5}], ["N", {word: 0, first: 18, last: 35}], ["A", {word: 0, first: 0, last: 17}], ["M", {word: 0, first: 18, last: 35}]]))
  .map(({key, name}) => [key, name]), [["0.0.17", "A"], ["0.18.35", "N M"], ["1.0.5", "B"]]);
same("lanes", lanesOf([[0, 17], [0, 35], [18, 35], [17, 20]].map(([from, last]) => ({first: from, last}))).map((lane) => lane.map((it) => [it.first, it.last])), [[[0, 35]], [[0, 17], [18, 35]], [[17, 20]]]);
const field = (from, last, more = {}) => ({first: from, last, name: "N", ...more});
table("what a cell says", textOfCell, [
  [field(0, 35), 33, null, "33 A"], [field(0, 35), 5, null, "5"], [field(0, 35), 33, {}, "33"], [field(0, 35, {isText: true}), 33, null, "A"], [field(0, 35, {isText: true}), 0, null, "0"],
  [field(0, 11), 999, null, "999"], [field(0, 11), 4095, null, ""], [field(0, 5, {isText: true}), 1, null, "!"], [field(0, 5), 33, null, "33"], [field(0, 0), 1, null, ""], [field(0, 5, {isText: true}), 63, null, "_"], [field(0, 17), 123_456, null, "123456"], [field(0, 8), 511, null, "511"]
]);
table("what a chip says", chipText, [
  [{place: 1024, size: 1}, [33], [{key: "a", word: 0, first: 0, last: 35}], new Set(), "33"], [{place: 1024, size: 1}, [33], [{key: "a", word: 0, first: 0, last: 35}], new Set(["a"]), "1024"],
  [{place: 1024, size: 1}, [33], [{key: "a", word: 0, first: 0, last: 35, isText: true}], new Set(), "A"], [{place: 1024, size: 1}, [33], [{key: "a", word: 1, first: 0, last: 35}], new Set(), "1024"],
  [{place: 1024, size: 1}, [123_456], [{key: "a", word: 0, first: 0, last: 35}], new Set(), "123456"], [{place: 1024, size: 1}, [1_234_567], [{key: "a", word: 0, first: 0, last: 35}], new Set(), "12345…"]
]);
const windowAt = (name, word, from, last) => ({key: `${word}.${from}.${last}`, word, first: from, last, name, names: [name]});
const [n, v, w] = [windowAt("N", 0, 18, 35), windowAt("V", 0, 0, 17), windowAt("W", 1, 0, 35)];
const [linkN, linkV] = [{key: n.key, name: "N", target: 1030}, {key: v.key, name: "V", target: 1040}];
table("what a small block says", (size, words, windows, links) => (({text, height, width, rows}) => [text, width, height, rows.length])(shapeOf({place: 1024, size}, words, windows, links, "boxes")), [
  [1, [5 * 2 ** 18], [v, n], [], ["V 5", 72, 48, 1]], [1, [5 * 2 ** 18 + 1030], [v, n], [linkN], ["V 5", 72, 48, 1]], [1, [1030], [v, n], [linkN], ["1030", 72, 48, 1]],
  [1, [0], [v, n], [], ["", 72, 24, 0]], [2, [5 * 2 ** 18, 60], [v, n, w], [], ["V 5 W 60", 72, 48, 1]], [2, [5 * 2 ** 18, 600], [v, n, w], [], ["5", 72, 48, 1]],
  [2, [0, 33], [v, n, w], [], ["W 33 A", 72, 48, 1]], [2, [0, 123_456_789], [v, n, w], [], ["123456", 72, 48, 1]],
  [1, [1040 * 2 ** 18 + 1030], [v, n], [linkV, linkN], ["", 72, 48, 1]], [1, [7], [windowAt("A", 0, 0, 35), n], [], ["N 7", 72, 48, 1]]
]);
same("what a small block says whose words are not known", shapeOf({place: 1024, size: 1}, null, [v, n], [], "boxes").text, "");
same("how wide chips are", [chipFor(["1024", "5"], new Set()).width, chipFor(["5"], new Set()).width], [40, 20]);
const rowsOf = (size, windows) => shapeOf({place: 1024, size}, Array(size).fill(8), windows, [], "cards").rows.map(({y, height, cells}) => [y, height, cells[0].text]);
same("rows of a card", rowsOf(2, [v, n, w]), [[24, 24, "0"], [48, 24, "8"]]);
same("rows of one with many", rowsOf(7, []).slice(-2), [[114, 18, "000000000010"], [132, 18, "000000000010"]]);
table("how high a card is", (size, windows, words = Array(size).fill(0)) => (({height, rows}) => [height, rows.length, rows.at(-1)?.note ?? ""])(shapeOf({place: 1024, size}, words, windows, [], "cards")), [
  [1, [v, n], [48, 1, ""]], [2, [v, n, w], [72, 2, ""]], [1, [n, windowAt("A", 0, 0, 35)], [72, 2, ""]], [8, [], [168, 8, ""]], [6, [], [168, 6, ""]], [7, [], [156, 7, ""]],
  [16, [], [48, 1, "16 words"]], [16, [v], [72, 2, "15 more words"]], [2, [v, n], [72, 2, ""]], [16, [w], [72, 2, "15 more words"]], [9, [...Array(8).keys()].map((at) => windowAt("F", at, 0, 35)), [192, 9, "1 more word"]]
]);
const [cell] = shapeOf({place: 1024, size: 1}, [5 * 2 ** 18 + 1030], [v, n], [linkN], "cards").rows[0].cells;
same("a cell of a card", [cell.name, cell.x, cell.width, cell.text, cell.value], ["V", 0, 72, "5", 5]);
table("colours", colourNumber, [[0, 0], [7, 7], [8, 0]]);

// ---- Calls

const entry = (number) => ({number});
same("what was saved in which call", byCalls({returns: [entry(9), entry(4)], contents: [entry(12), entry(6), entry(2)], definitions: [entry(5)]})
  .map(({call, contents, definitions}) => [call?.number ?? 0, contents.map((it) => it.number), definitions.map((it) => it.number)]), [[9, [12], []], [4, [6], [5]], [0, [2], []]]);
same("only where something is", byCalls({returns: [], contents: [], definitions: []}), []);
const call = (number, depth) => ({number, depth, until: 99, label: "L", statement: 0});
const told = (all) => all.map(({call: {number}, inner, size}) => [number, size, told(inner)]);
same("the tree of calls", told(branchesOf([call(1, 0), call(2, 1), call(3, 2), call(4, 1), call(5, 0), call(6, 3)])), [[1, 3, [[2, 1, [[3, 0, []]]], [4, 0, []]]], [5, 1, [[6, 0, []]]]]);

// ---- States, views, links of lost blocks

table("the line of a state", (line) => (({number, steps, ending, statement = -1, action = -1}) => [number, steps, ending, statement, action])(stateOf(line)), [
  ["AT 3.1 AFTER 14 STEPS", [14, 14, "", 3, 1]], ["== DONE AFTER 6 STEPS", [6, 6, "DONE", -1, -1]], ["== FAIL AFTER 6 STEPS", [6, 6, "FAIL", -1, -1]], ["== LIMIT AFTER 6 STEPS", [6, 6, "LIMIT", -1, -1]],
  ["== TRAP 2 NOT A BLOCK AT 4.12 AFTER 20 STEPS", [21, 20, "TRAP", 4, 12]]
]);
const viewWith = (more) => new View({state: stateOf("AT 0.0 AFTER 0 STEPS"), bugs: new Map(), amounts: {output: 5}, fields: new Map(), draw: {blocks: new Map(), bugs: new Map(), hiddenBugs: []},
  shown: {places: []}, store: {places: [1024, 1025], sizes: [1, 1023], kinds: [KINDS.lost, KINDS.free], used: 1, free: 1023}, output: {from: 0, text: "ABCDEFG"}, cost: 1, ...more});
same("what was printed", [viewWith({}).output, viewWith({output: {from: 2, text: "CDEFG"}}).output, viewWith({}).printedSince(3), viewWith({output: {from: 2, text: "CDEFG"}}).printedSince(0)], ["ABCDE", ".. CDE", "DE", "CDE"]);
const lostView = viewWith({fields: new Map([["N", {word: 0, first: 18, last: 35}]]), shown: {places: [1024]}});
lostView.words.set(1024, [1024]);
const [own] = windowsOf(lostView.fields);
same("a lost block that leads to itself", linksOf(lostView, 1024, [own]), [{key: "0.18.35", name: "N", names: ["N"], from: 1024, target: 1024}]);
lostView.words.set(1024, [1025]);
same("and one that leads to free words", linksOf(lostView, 1024, [own]), []);
same("its words, and those of no block", [lostView.wordsAt(1024), lostView.wordsAt(1025)], [[1025], null]);
same("a snapshot of it", (({lives, links}) => [[...lives.keys()], links])(snapshotOf(lostView, () => true)), [[1024], []]);
table("the value of a chain or a number", (text, bugs) => valueOf(text, {bugs: new Map(Object.entries(bugs)), fields: new Map(), wordsAt: () => null}), [["5", {}, 5], ["A", {A: 7}, 7], ["A", {}, 0], ["AN", {A: 7}, null]]);

// ---- The camera, links and names

const frame = {width: 110, height: 60};
same("all of a wide drawing", whole({width: 200, height: 10}, frame), {x: 5, y: 27.5, scale: 0.5});
same("all of a high one", whole({width: 10, height: 100}, frame), {x: 52.5, y: 5, scale: 0.5});
table("what comes into sight", (box) => (({x, y}) => [x, y])(revealed({x: 0, y: 0, scale: 1}, box, frame)), [
  [{x: 0, y: 0, width: 10, height: 10}, [0, 0]], [{x: 100, y: 0, width: 10, height: 10}, [0, 0]], [{x: 101, y: 0, width: 10, height: 10}, [-41, 0]], [{x: -1, y: 0, width: 10, height: 10}, [41, 0]],
  [{x: 0, y: 51, width: 10, height: 10}, [0, -26]], [{x: 0, y: -1, width: 10, height: 10}, [0, 26]], [{x: -300, y: 0, width: 200, height: 10}, [300, 0]]
]);
table("whether a box is in another", (x, y, width, height) => isIn({x, y, width, height}, {x: 0, y: 0, width: 10, height: 10}), [
  [0, 0, 10, 10, true], [-1, 0, 5, 5, true], [-2, 0, 5, 5, false], [0, -2, 5, 5, false], [6, 0, 5, 5, true], [7, 0, 5, 5, false], [0, 6, 5, 5, true], [0, 7, 5, 5, false]
]);
table("whether a box is in another that is elsewhere", (x, y, width, height) => isIn({x, y, width, height}, {x: 5, y: 40, width: 10, height: 30}), [
  [5, 40, 10, 30, true], [5, 40, 13, 30, false], [5, 40, 10, 33, false], [3, 40, 5, 5, false], [5, 38, 5, 5, false]
]);
same("what comes into sight of a small drawing", revealed({x: 10, y: 20, scale: 0.5}, {x: 300, y: 0, width: 40, height: 40}, frame), {x: -100, y: 20, scale: 0.5});
same("what is seen there stays", revealed({x: 10, y: 20, scale: 0.5}, {x: 0, y: 0, width: 40, height: 40}, frame), {x: 10, y: 20, scale: 0.5});
same("half of the way from a small one to a large one", onTheWay({x: 0, y: 0, scale: 0.5}, {x: 0, y: 0, scale: 2}, 0.5).scale, 1);
same("the box around one", boxAround([{x: 0, y: 0, width: 10, height: 10}]), {x: -14, y: -28, width: 38, height: 52});
same("the order of links", [{rank: 0, weight: 1, since: 1}, {rank: 1, weight: 1, since: 9}, {rank: 0, weight: 5, since: 9}, {rank: 0, weight: 1, since: 0}].sort(byRank).map((it) => Object.values(it).join()), ["1,1,9", "0,5,9", "0,1,0", "0,1,1"]);
same("a link that comes twice", union([{key: "N", from: 1, to: 2, since: 5, until: 7}, {key: "N", from: 1, to: 2, since: 2, until: 3}]), [{key: "N", from: 1, to: 2, since: 2, weight: 3, rank: 0}]);
table("the heads of arrows", (...points) => (({x, y}) => [x, y])(tipOf(points.map(([x, y]) => ({x, y})))), [
  [[0, 0], [20, 0], [9, -5.5]], [[20, 0], [0, 0], [0, -5.5]], [[0, 0], [0, 20], [-5.5, 9]], [[0, 20], [0, 0], [-5.5, 0]]
]);
const alone = [{points: [{x: 0, y: 20}, {x: 60, y: 20}], tag: {x: 0, y: 20}, link: {name: "N"}}];
tagsOf(alone, []);
same("a name where nothing else is stands above the begin of its arrow", alone[0].tag, {x: 2, y: 17});

tally.end();
