// What the sources of the page do, for page_sentences.py: it prints one object of JSON, whose names are what was observed.

import {readFileSync} from "node:fs";
import {gunzipSync} from "node:zlib";

import {Answers} from "../../web/src/answers.js";
import {Camera} from "../../web/src/camera.js";
import {readDeck} from "../../web/src/deck.js";
import {make} from "../../web/src/dom.js";
import {Drawing} from "../../web/src/drawing.js";
import {Keeper} from "../../web/src/keep.js";
import {press} from "../../web/src/keys.js";
import {Kinds} from "../../web/src/kinds.js";
import {Library} from "../../web/src/library.js";
import {linkOf, readLink} from "../../web/src/links.js";
import {danglingOf, isNumber} from "../../web/src/provenance.js";
import {Session} from "../../web/src/session.js";
import {Solved} from "../../web/src/solved.js";
import {isSilent} from "../../web/src/steps.js";
import {TaskMaker} from "../../web/src/tasks.js";
import {Travel} from "../../web/src/travel.js";
import {unpacked} from "../../web/src/unpack.js";
import {isUsed, verdictOf} from "../../web/src/verify.js";
import {compiled, MEMORY, serveText, TOP} from "../../web/tests/common.mjs";
import {DECKS, read} from "../../web/tests/runs.mjs";

// What of a browser is looked at: elements by their ids, and a store with so much room.
const elements = new Map();
const made = () => ({open: false, checked: true, value: "", textContent: "", contains: () => false, addEventListener() {}, focus() {}});
globalThis.document = {
  querySelector: () => null, body: {classList: {contains: () => false, toggle() {}, remove() {}}},
  getElementById(id) {
    if (!elements.has(id)) elements.set(id, made());
    return elements.get(id);
  }
};
globalThis.HTMLInputElement = class {};
globalThis.HTMLButtonElement = class {};
const kept = new Map();
let room = Infinity;
globalThis.window = {
  localStorage: {
    getItem: (name) => kept.get(name) ?? null, removeItem: (name) => kept.delete(name),
    setItem(name, value) {
      if (value.length > room) throw new Error("no room");
      kept.set(name, value);
    }
  }
};
const module = await compiled();
const options = {store: 8, steps: 1_000_000, output: 1_048_576};
const ask = async (words, input, digest) => serveText(module, words, Buffer.from(input).toString("latin1"), MEMORY, digest);
// The module of the page, and those of programs for Node.
const moduleOf = (name) => gunzipSync(Buffer.from(/MODULE = `([^`]*)`/.exec(readFileSync(`${TOP}/dist/${name}.mjs`, "utf8"))[1], "base64"));
const packed = /<script type="text\/plain" id="module">([^<]*)</.exec(readFileSync(`${TOP}/dist/l6.html`, "utf8"))[1];
const importsOf = (code) => WebAssembly.Module.imports(code).map((it) => it.name).sort();
const observed = {
  imports: importsOf(module).length, same: Buffer.from(await unpacked(packed)).equals(moduleOf("l6")),
  imported: ["l6db", "l6ed"].map((name) => importsOf(new WebAssembly.Module(moduleOf(name))))
};

// ---- Links

const own = {deck: " (A,E,5)\n", input: "X", options, breakpoints: [1], number: 3};
const link = await linkOf({...own, kinds: "0.18.35n"});
const {deck, input, breakpoints, number, kinds} = await readLink(link);
Object.assign(observed, {
  again: [deck, input, breakpoints.join(), number, kinds],
  damaged: Boolean((await readLink(link.replace(/.(?=.{9}$)/, (it) => (it === "A" ? "B" : "A")))).damaged),
  lecture: (await readLink("#tree@137;lecture")).lecture, embed: (await readLink("#tree@137;embed")).embed
});
const asked = {example: [], own: []};
for (const [which, hash] of [["own", link], ["example", "#tree@137"]]) {
  globalThis.location = {hash};
  const desk = {state: (at) => asked[which].push(`state ${at}`), tell() {}, setBreakpoints() {}};
  const it = {desk, find: () => ({}), mayLeave: () => true, openExample() {}, put() {}, exerciseWith: () => null, offerState: (at) => asked[which].push(`offer ${at}`)};
  await Library.prototype.openLink.call({...it, openOwn: Library.prototype.openOwn});
}
observed.asked = asked;

// ---- Keys

// What a key does outside of boxes: calls of the page, by their names.
function pressed(key, {letters = true, isLecture = true, isTyping = false} = {}) {
  const done = [];
  const page = new Proxy({panes: {isLecture, lecture: (isOn) => done.push(`lecture ${isOn}`)}, editor: {statementAtCursor: () => 0}, isRunning: false, viewer: {drawing: {}}},
    {get: (it, name) => it[name] ?? (() => done.push(name))});
  document.getElementById("letter-keys").checked = letters;
  press(page, {key, target: {tagName: isTyping ? "TEXTAREA" : "DIV", blur: () => done.push("blur")}, preventDefault() {}});
  return done.join();
}
observed.keys = Object.fromEntries(["l", "Escape", "n", "ArrowRight", " "].map((key) => [key, [pressed(key), pressed(key, {letters: false})]]));
const box = Object.assign(new HTMLInputElement(), {type: "checkbox", tagName: "INPUT"});
const played = [];
press({play: () => played.push("play"), panes: {}}, {key: " ", target: box, preventDefault: () => played.push("prevented")});
observed.box = played.length;
const drawn = (key) => {
  const done = [];
  const camera = {zoom: (by) => done.push(by === undefined ? "nearer" : "away"), fitInTurn: () => done.push("fit")};
  Drawing.prototype.key.call({camera, focused: 1, figures: {blocks: new Map([[1, {}]])}, fold: () => done.push("fold"), pick() {}, hideBugAt() {}},
    {key, target: {}, preventDefault() {}, stopPropagation() {}});
  return done.join();
};
observed.drawn = Object.fromEntries(["0", "F", "+", "-"].map((key) => [key, drawn(key)]));

// ---- What is kept

const said = [];
let typed = "";
const keeper = new Keeper({work: () => ({deck: typed, input: ""}), refused: (why) => said.push(why)});
const left = (count) => {
  kept.clear();
  for (let at = 0; at < count; at++) {
    typed = `* ${at}\n${" (PL)\n".repeat(9)}`;
    keeper.save();
    keeper.leave();
  }
  return keeper.decks().map((it) => it.deck.split("\n")[0]);
};
observed.kept = left(12);
room = 400;
observed.little = left(12).length;
room = Infinity;
typed = "* TYPED\n";
keeper.save();
keeper.list();
observed.before = keeper.decks()[0].deck;
observed.restored = keeper.work().deck;
observed.right = said.length;
typed = "X".repeat(400_001);
keeper.save();
room = 0;
typed = "Y";
keeper.save();
observed.refused = said.length;

// ---- Playing, and what the reader does by hand

const byHand = ["run", "step", "back", "state", "end", "statement", "over", "out", "change", "nextBreakpoint", "breakpointBefore", "runTo"];
observed.playsOn = byHand.filter((name) => {
  let pauses = 0;
  const page = Object.assign(Object.create(Travel.prototype), {
    pause: () => pauses++, act() {}, tell() {}, viewer: {watched: {}}, editor: {breakpoints: new Set([1]), deck: {statements: [1]}}
  });
  page[name](1);
  return pauses === 0;
});

// ---- Steps

const calls = await read(" (A,E,5)(S,DO)(C,E,1)\n (A,PD) DONE\nS      (A,FR,B)\n", "");
const way = await read(" (A,E,5)(S,DO)(C,E,1)\n (A,PD) DONE\nS (S,FC,A)(T,DO)(R,FC,A) DONE\nT (B,E,2) DONE\n", "");
const spotAt = async (at) => (({state: {statement, action}}) => `${statement}.${action}`)(await way.view(at));
const call = 2; // the state before the call of S
Object.assign(observed, {
  silent: [[0, 0], [0, 4], [1, 3]].map(([statement, action]) => isSilent(way.reading, {statement, action})),
  statement: await spotAt(await way.steps.statement(call)), over: await spotAt(await way.steps.over(call)), into: await spotAt(await way.steps.on(call)),
  out: await spotAt(await way.steps.out(await way.steps.on(call)))
});
const changed = await way.values.change({chain: "B"}, 0, true);
const held = async (at) => (await way.view(at)).bugs.get("B") ?? 0;
observed.change = [await held(changed - 1), await held(changed), await way.values.change({chain: "B"}, way.last + 1, false) === changed];
let deepest = null;
for (let at = 0; at < way.last; at++) {
  const view = await way.view(at);
  if (view.amounts.returns === 2 && !deepest) deepest = await way.frames.of(view);
}
observed.frames = deepest.returns.map((it) => it.operation.text);
observed.trap = (({state}) => state.number - state.steps)(await calls.view(calls.last));

// ---- What fields hold

const powers = await read(DECKS.powers.deck);
const its = new Kinds();
its.begin(powers.reading, powers.chronicle);
const windowOf = (name) => [...powers.chronicle.windows.values()].find((it) => it.names.includes(name));
observed.kinds = ["V", "N"].map((name) => its.of(windowOf(name), powers.last));
its.turn(windowOf("V"), 0);
observed.turned = [its.of(windowOf("V"), 0), its.code !== ""];
const counted = await read(" (A,GT,1)(B,E,1024)\n", "");
observed.counts = isNumber("B", counted.last, counted.chronicle) && !isNumber("A", counted.last, counted.chronicle);
const ghosts = [];
for (const more of ["", "(C,GT,1)"]) {
  const session = await read(` (A,GT,1)(B,E,A)(A,FR)${more}\n`, "");
  const {pointers, ghosts: gone} = danglingOf(await session.view(session.last), session.chronicle, [], []);
  ghosts.push([pointers.map((it) => it.bug).sort().join(""), gone.length, pointers.every((it) => it.now)]);
}
observed.ghosts = ghosts;

// ---- Tasks

const uses = (text) => isUsed(readDeck(text), "N");
observed.uses = [uses("N (A,E,5) N\n"), uses(" (N,PH)(A,EH,N)\n"), uses(" (N,E,5)\n"), uses(" (A,E,BN)\n")];
const first = " (A,IN,1)(A,PR,1)(PL)\n", constant = " (X,PH)(PL)\n", second = " (A,IN,2)(A,PR,1)(PL)\n";
const verdict = (task, text, given = "XY") => verdictOf(task, {deck: text, input: given, options}, ask);
const seen = {printout: "X", input: "XY"}, hidden = {...seen, tests: [{input: "QR", printout: "Q"}]};
const lost = " (X,PH)(PL)(A,GT,1)(A,E,0)\n";
observed.verdicts = {
  printed: await verdict(seen, constant), hidden: await verdict(hidden, constant), right: await verdict(hidden, first),
  other: await verdict(seen, second, "QX"), lost: await verdict({...seen, conditions: {noLost: true}}, lost),
  freed: await verdict({...seen, conditions: {noLost: true}}, constant)
};
const maker = new TaskMaker({job: () => ({deck: constant, input: "", options}), printed: () => "X", ask, printoutOf: async () => "X"});
maker.solution = constant;
const task = async (listed) => {
  for (const [id, value] of [["task-text", "T"], ["task-printout", "X\n"], ["task-deck", ""], ["task-tests", ""], ["task-list", listed], ["task-uses", ""]])
    document.getElementById(id).value = value;
  document.getElementById("task-lost").checked = false;
  return [(await maker.task()) !== null, document.getElementById("task-note").textContent !== ""];
};
observed.tasks = [await task("L N"), await task("")];
const answers = Object.assign(Object.create(Answers.prototype), {source: {ask, job: () => ({input: "QR", options: {...options, store: 1}})}});
observed.answers = [await answers.verdict({...seen, options: {}}, first), await answers.verdict({...seen, input: "QR", options: {}}, first)];

// ---- Jobs, and the states that are asked for

let instances = 0;
WebAssembly.Instance = new Proxy(WebAssembly.Instance, {
  construct(target, given) {
    instances++;
    return new target(...given);
  }
});
const small = serveText(module, ["run"], " (A,E,5)\n", 1 << 20);
observed.jobs = [instances, small.status, small.errors.includes("out of memory")];
const asks = [];
const session = new Session(async (words, given, digest) => {
  asks.push(Buffer.from(given).toString("latin1"));
  return ask(words, given, digest);
}, {deck: " (0,DN,18,35)(K,E,9)\nL (A,GT,1,AN)(K,S,1)\n IF (K,G,0) THEN L\n", input: "", options});
await session.view(20);
const [one, two] = asks.map((it) => it.split("$COMMANDS")[1] ?? "");
observed.asks = [asks.length, /\bdraw\b|\bstore\b/.test(one), /\bblock\b/.test(two), [...session.views.keys()].sort((a, b) => a - b)];
await session.view(21);
observed.neighbours = asks.length === observed.asks[0];
observed.exchanges = session.exchanges.at(-1).asked.startsWith(two.trim().slice(0, 9));

// ---- What makes a pointer, and what a number

const moved = await read(" (A,GT,1)(B,DP,A)(C,E,A)(D,E,A)(D,I,E)(S,FC,A)(R,FC,F)\n+(G,E,A)(G,A,1)(G,S,1)(H,E,1024)(I,IN,2) DONE\n", "0 \n");
const holds = (names) => [...names].map((name) => (isNumber(name, moved.last, moved.chronicle) ? "number" : "pointer"));
observed.made = {got: holds("AB"), carried: holds("CEF"), numbers: holds("GHI")};

// ---- How what a deck says goes into the page

const texts = [];
document.createElement = () => ({append: (...more) => texts.push(...more), setAttribute() {}, set innerHTML(markup) { texts.push({markup}); }});
make("p", {}, "<b>A</b>");
observed.texts = texts;

// ---- What is solved, and what fits

kept.clear();
room = Infinity;
const solved = new Solved();
solved.add("one", "D");
const again = new Solved().has("one");
room = 0;
solved.add("two", "D");
observed.solved = [again, solved.isKept];
const fitted = [];
for (const isFitted of [false, true]) {
  Camera.prototype.fitInTurn.call({
    isFitted, overview: {blocks: [{x: 0, y: 0, width: 9, height: 9}]}, room: {width: 90, height: 90}, most: 1,
    fit: () => fitted.push("all"), byHand() {}, go: () => fitted.push("blocks")
  });
}
observed.fitted = fitted;

console.log(JSON.stringify(observed));
process.exit(0);
