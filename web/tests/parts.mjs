// Tests the parts of the page that need no browser: reading decks and transcripts, a session on the module,
// the store's pieces, links, changes and chains.
//
// parts.mjs prints what differs, and last 'N passed, M failed'.

import {execFileSync} from "node:child_process";
import {readdirSync, readFileSync} from "node:fs";

import {bytesOf, textOfBytes} from "../src/bytes.js";
import {follow} from "../src/chain.js";
import {changesOf, endingOf} from "../src/changes.js";
import {findingsOf} from "../src/checker.js";
import {linesOf, readDeck} from "../src/deck.js";
import {waysOf} from "../src/graph.js";
import {job, partsOf} from "../src/job.js";
import {linkOf, readLink, sumOf} from "../src/links.js";
import {actionAt, meaningOf, testMeaning} from "../src/meaning.js";
import {DEFAULTS, RANGES} from "../src/options.js";
import {Router} from "../src/route.js";
import {Session} from "../src/session.js";
import {textNames} from "../src/texts.js";
import {stateOf, Transcript} from "../src/transcript.js";
import {unpacked} from "../src/unpack.js";
import {isUsed} from "../src/verify.js";
import {likelyText, octal, seenThrough, textOf} from "../src/word.js";

import {canary, compiled, MEMORY, serveText, Tally, TOP, WEB} from "./common.mjs";

await canary();
const tally = new Tally();
const module = await compiled();
const same = (name, got, want) => tally.same(name, got, want);

// ---- Words

same("octal", octal(1024), "000000002000");
same("the right half", seenThrough(1026 + 2 ** 18 * 5, {word: 0, first: 18, last: 35}), 1026);
same("the left half", seenThrough(1026 + 2 ** 18 * 5, {word: 0, first: 0, last: 17}), 5);
same("all of a word", seenThrough(2 ** 36 - 1, {word: 0, first: 0, last: 35}), 2 ** 36 - 1);
same("AB is 2146", [textOf(2146), likelyText(2146), likelyText(5)], ["AB", "AB", ""]);

// ---- Bytes: a character that is none is no other character

same("characters as bytes", [...bytesOf("A\u0080\u00ff\u0100\u0129\u0141\uff41")], [65, 128, 255, 255, 255, 255, 255]);
same("bytes as characters", textOfBytes(Uint8Array.of(65, 128, 255)), "A\u0080\u00ff");

// ---- Decks: the reading of the page has the program's statements, and each finding has its sentence

function textOfCase(value) {
  if (typeof value === "string") return value;
  return value
    .map(
      (part) =>
        (typeof part === "string" ? part :
           part.length === 2      ? textOfCase(part[0]).repeat(part[1]) :
                                    "")
    )
    .join("");
}

const rowsOf = (name) =>
  readFileSync(`${TOP}/tests/program/${name}.jsonl`, "utf8").trim().split("\n").map((line) => JSON.parse(line));

// The lines that findings come from.
const saidBy = (findings) => findings
  .map(({card, from, isError, says, advice}) =>
    `${card + 1}:${from + 1}: ${isError ? "error" : "warning"}: ${says}\n${advice ? `    ${advice}\n` : ""}`)
  .join("");

for (const one of rowsOf("cases")) {
  const text = textOfCase(one.stdin ?? "");
  if ((one.args ?? ["run"])[0] !== "run" || text.length > 200_000 || text.includes("\u0000")) continue;
  const {deck} = partsOf(text);
  const {status, output} = serveText(module, ["asm"], deck);
  if (status === 0) {
    const [, statements] = output.split("\n").map((line) => parseInt(line, 8));
    same(`the statements of "${one.name}"`, readDeck(deck).statements.length + 1, statements);
  }
}
const signed = {findings: 0, cards: 0};
for (const {name, deck, said} of rowsOf("checks")) {
  const found = findingsOf(said, linesOf(deck));
  const counts = said.trimEnd().split("\n").at(-1);
  same(`what is found in ${name}`, saidBy(found), said.slice(0, -counts.length - 1));
  const areThere = found.every(({from, to, says}) => from < to && says);
  tally.count(`the columns of what is found in ${name}`, areThere, () => JSON.stringify(found));
  const bytes = Buffer.from(deck).toString("latin1"); // (a column is a byte)
  const shown = findingsOf(serveText(module, ["check", "--long"], bytes).output, linesOf(bytes));
  same(`the same with its cards in ${name}`, Buffer.from(saidBy(shown), "latin1").toString(), saidBy(found));
  const isUnder = ({from, to, shown: card}) => card === "" || card.endsWith(`\n${" ".repeat(from)}${"^".repeat(to - from)}`);
  signed.findings += found.length;
  signed.cards += shown.filter((it) => it.shown).length;
  same(`signs elsewhere than under the columns in ${name}`, shown.filter((it) => !isUnder(it)), []);
  const aside = shown.filter((it) => it.shown).map((it) => ({...it, from: it.from + 1, to: it.to + 1}));
  same(`and they are not under the columns beside those in ${name}`, aside.filter(isUnder), []);
}
const rows = rowsOf("checks").length;
tally.count("there was something to be found in most, and cards with signs", signed.findings > rows && signed.cards > rows / 2, () => JSON.stringify(signed));
const [, , third] = findingsOf(
  "1:9: error: no card gives the label `LOPP`\n    is it `LOOP`?\n2:1: warning: an element\n" +
    "3:2: error: the statement `IF (A)` ends\n3 errors, 1 warning\n",
  [" (A,PD) LOPP", "X", " IF (A)  "]
);
same("a finding without advice", third, {
  card: 2, from: 1, isError: true, to: 7, says: "the statement `IF (A)` ends", advice: "", shown: ""
});
same("a deck that is being typed", readDeck(" (A,E,5\nB (PL)) X\n?\n+(PL) C\n").cards, [0, 1, -1, 1]);

const lost = readFileSync(`${TOP}/examples/lost.session`, "latin1");
const lostParts = partsOf(lost);
const lostDeck = readDeck(lostParts.deck);
same("cards and statements", lostDeck.cards, [-1, 0, 1, 2, 3, 4]);
const second = actionAt(lostDeck, 2, 2);
same("an operation's place", [second.card, second.from, second.to, second.text, second.says], [
  3, 9, 16, "(B,E,0)", "B becomes 0"
]);
same("the added DONE", actionAt(lostDeck, 5, 1).says, "the DONE that every deck gets");
same("an exit", actionAt(readDeck("L (PL) L\n"), 0, 2).text, "L");
const conditions = {
  " IF (A,E,0)\n+THEN DONE\n": ["IF (A,E,0)", "asks whether A is 0"],
  " NOT (N,G,5) THEN DONE\n": ["NOT (N,G,5)", "asks whether it is false that N is greater than 5"],
  " IFANY (A,LH,0)(A,ZO,7) THEN DONE\n": [
    "IFANY (A,LH,0)(A,ZO,7)",
    "asks whether one of these is true: A is less than the text “0”; A has no bit of octal 7"
  ],
  "L (PL)\n": ["statement 0", "begins; it has no condition"],
};
for (const [deck, want] of Object.entries(conditions)) {
  const {text, says} = actionAt(readDeck(deck), 0, 0);
  same(`what is asked by ${deck.trim()}`, [text, says], want);
}
same(
  "a statement without an exit", actionAt(readDeck(" (PL)\n"), 0, 2).says,
  "ends without an exit: on to the next one"
);

// ---- What tests, conditions, operations, exits and traps are in words

const language = readFileSync(`${TOP}/docs/language.md`, "utf8");
const traps = Object.fromEntries(Array.from(language.matchAll(/^\| (\d+) \| [A-Z ]+ \| (.*) \|$/gm), ([, number, when]) => [number, when]));
same("how many traps there are", Object.keys(traps).length, 14);
for (const [number, when] of Object.entries(traps))
  same(`trap ${number}`, endingOf({state: stateOf(`== TRAP ${number} SOME NAME AT 1.1 AFTER 9 STEPS`)}, traps), `trap ${number}: ${when}`);
for (const [line, told] of Object.entries({
       "== DONE AFTER 1 STEPS": "the run is done",
       "== FAIL AFTER 1 STEPS": "the run has failed",
       "== LIMIT AFTER 1 STEPS": "the run has made all the steps it may",
       "AT 1.1 AFTER 1 STEPS": ""
     }))
  same(`how it ended: ${line}`, endingOf({state: stateOf(line)}, traps), told);

const testsInWords = {
  "A,E,5": "A is 5",
  "A,N,B": "A is not B",
  "A,G,5": "A is greater than 5",
  "A,L,5": "A is less than 5",
  "A,O,5": "A has all bits of 5",
  "A,Z,5": "A has no bit of 5",
  "A,EO,17": "A is octal 17",
  "A,EH,Y": "A is the text “Y”",
};
for (const [text, told] of Object.entries(testsInWords))
  same(`the test ${text}`, testMeaning(text.split(","), text), told);
const wordsOfConditions = {
  IF: "whether A is 1",
  NOT: "whether it is false that A is 1",
  IFALL: "whether all of these are true: A is 1",
  IFANY: "whether one of these is true: A is 1",
  IFNONE: "whether none of these is true: A is 1",
  IFNALL: "whether one of these is false: A is 1",
};
for (const [word, told] of Object.entries(wordsOfConditions))
  same(
    `the condition ${word}`, actionAt(readDeck(` ${word} (A,E,1) THEN DONE\n`), 0, 0).says, `asks ${told}`
  );
const operationsInWords = {
  "A,E,5": "A becomes 5",
  "A,EO,17": "A becomes octal 17",
  "A,EH,AB": "A becomes the text “AB”",
  "A,A,B": "adds B to A",
  "A,S,1": "takes 1 from A",
  "A,M,10": "multiplies A by 10",
  "A,V,10": "A becomes the quotient of A by 10",
  "A,Y,10": "A becomes the remainder of A by 10",
  "A,N,B": "A keeps the bits that are one in B, too",
  "A,O,B": "A gets the bits of B beside its own",
  "A,X,B": "turns the bits of A that are one in B",
  "A,C,B": "A becomes B with each bit turned",
  "A,L,6": "shifts A left by 6",
  "A,R,6": "shifts A right by 6",
  "A,I,B": "exchanges A and B",
  "0,DN,18,35": "defines field N: word 0, bits 18 to 35",
  "S,FC,A": "saves the content of A",
  "R,FC,A": "A becomes the content saved last",
  "S,FD,N": "saves the definition of field N",
  "R,FD,N": "field N gets the definition saved last",
  "A,GT,1": "gets a block for 1 word; A becomes its place",
  "A,GT,4,AN": "gets a block for 4 words; A becomes its place, then AN what A was",
  "A,GT,4,,FULL": "gets a block for 4 words; A becomes its place; goes to FULL if there is none",
  "A,DP,B": "copies the block at B; A becomes the copy's place",
  "A,DP,B,,FULL": "copies the block at B; A becomes the copy's place; goes to FULL if there is no room",
  "A,FR": "frees the block at A; A becomes 0",
  "A,FR,AN": "frees the block at A; A becomes what AN was",
  "SORT,DO": "calls SORT",
  "SORT,DO,ERROR": "calls SORT; if that fails, goes to ERROR",
  "A,IN,1": "takes 1 of the input into A",
  "A,IN,1,END": "takes 1 of the input into A; goes to END if it has ended",
  "A,PR,1": "prints the last character of A",
  "A,PR,6": "prints the last 6 characters of A",
  "A,PD": "prints A in decimal",
  "A,PO": "prints A in octal",
  "HELLO,PH": "prints “HELLO”",
  PL: "ends the line",
};
for (const [text, told] of Object.entries(operationsInWords))
  same(`the operation ${text}`, meaningOf(text.split(","), text), told);
const exits = {
  DONE: "returns from the latest call, or ends the run",
  FAIL: "returns to the fail label of the latest call, or ends the run",
  L: "goes to L",
};
for (const [exit, told] of Object.entries(exits))
  same(`the exit ${exit}`, actionAt(readDeck(`L (PL) ${exit}\n`), 0, 2).says, told);

// ---- Limits and options against the program

const help = serveText(module, ["run", "--help"], "").errors;
for (const [name, value] of Object.entries(DEFAULTS)) {
  const line = help.split("\n").find((it) => it.includes(`--${name} `)) ?? "";
  const numbers = line.replaceAll(",", "").match(/\d+/g)?.map(Number) ?? [];
  same(`--${name}: range and default`, numbers.slice(-3), [...RANGES[name], value]);
}
const texts = textNames(readDeck(" (A,IN,1)(LC,E,A)(LN,E,B)(D,EH,X)(LK,E,5)\n"));
same("what holds texts", [...texts].sort(), ["C", "bug A", "bug D"]);

// ---- Bytes in the page

const PACK = `
import runpy, sys
sys.stdout.write(runpy.run_path(sys.argv[1])["packed"](sys.stdin.buffer.read()))`;
let packed = "";
for (const length of [1000, 1001, 1002, 1003]) { // (the last digits stand for one to four bytes)
  const bytes = Uint8Array.from({length}, (_, index) => (index * 89) % 256);
  packed = execFileSync("python3", ["-c", PACK, `${WEB}/bundle`], {input: bytes}).toString();
  same(`${length} bytes are unpacked as they were`, [...(await unpacked(packed))], [...bytes]);
}
tally.count("no digit begins a tag", !packed.includes("<"), () => "one does");

// ---- Jobs

same(
  "the parts of a job", partsOf("a\n$commands \nb\n$INPUT\nc"), {deck: "a\n", commands: "b\n", input: "c"}
);
same("a deck alone", partsOf("a\nb"), {deck: "a\nb", commands: "", input: ""});
same("a job", job("a", "b", "c"), "a\n$COMMANDS\nb\n$INPUT\nc");

// ---- Transcripts: each answer of the recorded sessions is read to its end

const readers = {
  step: (it) => it.state(),
  go: (it) => it.state(),
  back: (it) => it.state(),
  break: (it) => it.line(),
  clear: (it) => it.line(),
  show: (it) => it.show(),
  fields: (it) => it.fields(),
  block: (it) => it.block(),
  draw: (it) => it.draw(),
  store: (it) => it.store(),
  out: (it) => it.out(),
};
for (const file of readdirSync(`${TOP}/examples`).filter((it) => it.endsWith(".transcript"))) {
  const read = (ending) => readFileSync(`${TOP}/examples/${file.replace(".transcript", ending)}`, "latin1");
  const transcript = new Transcript(read(".transcript"));
  const answers = [];
  for (const command of partsOf(read(".session")).commands.trim().split("\n")) {
    const reader = readers[command.split(" ")[0]];
    if (reader)
      answers.push(reader(transcript));
    else if (command !== "quit")
      transcript.line();
  }
  tally.count(
    `${file} is read to its end`, transcript.isAtEnd && answers.length > 3,
    () => transcript.text.slice(transcript.place)
  );
}
same("a trap's state has the next number", stateOf("== TRAP 2 NOT A BLOCK AT 4.1 AFTER 20 STEPS"), {
  line: "== TRAP 2 NOT A BLOCK AT 4.1 AFTER 20 STEPS",
  steps: 20,
  ending: "TRAP",
  number: 21,
  statement: 4,
  action: 1
});

// ---- Sessions, on the module

const ask = async (words, input, digest) =>
  serveText(module, words, Buffer.from(input).toString("latin1"), MEMORY, digest);
const options = {
  store: 8,
  steps: 1_000_000,
  output: 1_048_576
};
const session = (deck, input = "", more = {}) =>
  new Session(ask, {deck, input, options: {...options, ...more}});

const run = session(lostParts.deck);
const at14 = await run.view(14);
same("the line of a state", at14.state.line, "AT 3.0 AFTER 14 STEPS");
same("its bugs", [...at14.bugs], [["A", 1024]]);
same("its fields", [...at14.fields], [
  ["N", {word: 0, first: 18, last: 35}], ["V", {word: 1, first: 0, last: 35}]
]);
same("its blocks", [...at14.draw.blocks.keys()], [1024, 1026]);
same("its lost block", [at14.store.lost, at14.store.block(1028).isLost], [1, true]);
same("its words", at14.words.get(1024), [1026, 5]);
const trap = await run.view(21);
same("the state of the trap", trap.state.line, "== TRAP 2 NOT A BLOCK AT 4.1 AFTER 20 STEPS");
same("past the last state", (await run.view(99)).state.number, 21);
same("what was printed there", trap.output, "12\n");
same("and before", [(await run.view(17)).output, (await run.view(16)).output], ["12", ""]);
same("what run prints", (await run.run()).text, "12\n== TRAP 2 NOT A BLOCK AT 4.1 AFTER 20 STEPS\n");
same("on to a breakpoint", (await run.go(0, [3])).state.number, 14);
same("back to a breakpoint", (await run.goBack(20, [1, 3])).state.number, 14);
same("back to the breakpoint before that", (await run.goBack(14, [1, 3])).state.number, 4);
same("back to the start", (await run.goBack(3, [3])).state.number, 0);
same("the first state may be at a breakpoint", (await run.goBack(3, [0])).state.number, 0);

const loop = session("L (A,A,1) L\n", "", {steps: 300_000});
same("back to a breakpoint far away", (await loop.goBack(200_000, [1, 0])).state.number, 199_998);
const far = session(" (A,E,1)\nM (A,E,2)\nL (A,A,1) L\n", "", {steps: 300_000});
same("back to a breakpoint very far away", (await far.goBack(200_000, [1])).state.number, 3);
same("a limit", (await loop.view(400_000)).state.line, "== LIMIT AFTER 300000 STEPS");
await session(" (A,E,5\n")
  .run()
  .then(
    () => tally.same("a deck with a fault", 1, 0),
    (it) => same("a deck with a fault", it.message, "l6: card 1: no reading")
  );

// ---- The trail of a run, and steps that show something

const shown = [0, 2, 3, 6, 7, 8, 9, 12, 13, 16, 17, 18, 21]; // of the deck `lost`, by its cards
const forth = [0];
while (forth.length < shown.length) forth.push(await run.steps.on(forth.at(-1)));
same("steps on", forth, shown);
const backwards = [21];
while (backwards.at(-1) > 0) backwards.push(await run.steps.back(backwards.at(-1)));
same("steps back", backwards, [...shown].reverse());
same("back from between", [await run.steps.back(15), await run.steps.back(14)], [13, 13]);
same("the last state of the trail", [run.trail.last, await run.trail.at(22)], [21, null]);
same("a spot", await run.trail.at(15), {statement: 3, action: 1});
const trails = [];
for (let number = 0; number <= 21; number++) {
  const [spot, {state}] = [await run.trail.at(number), await run.view(number)];
  if (spot.statement !== state.statement || spot.action !== state.action) trails.push(number);
}
same("the trail is that of the states", trails, []);
const long_ = session("L (A,A,1)(S,FC,A)(R,FC,A) L\n", "", {steps: 20_000});
same("a spot far away", await long_.trail.at(12_345), {statement: 0, action: 12_345 % 5});
same(
  "what is saved far away", (await long_.frames.of(await long_.view(12_343))).contents.map((it) => it.content),
  [2469]
);
same("the next statement", [await run.steps.statement(5), await run.steps.statement(19)], [10, 21]);
same(
  "the changes of a bug",
  [await run.values.change({chain: "B"}, 20, false), await run.values.change({chain: "B"}, 13, false)],
  [13, 12]
);
same("no change before", await run.values.change({chain: "B"}, 12, false), null);
same("nor after", await run.values.change({chain: "B"}, 13, true), null);
same("the next change", await run.values.change({chain: "A"}, 0, true), 6);
same("a change by the very next step", await run.values.change({chain: "B"}, 11, true), 12);
same("the change of a definition", await run.values.change({definition: "V"}, 20, false), 3);
same("the change of a field", await run.values.change({place: 1024, field: "N"}, 20, false), 8);
same("a field comes with its block", await run.values.change({place: 1026, field: "V"}, 0, true), 8);
const fails = session(" (A,DO,B) DONE\nA (PL) FAIL\nB (X,PH)\n");
same("out of a call that fails", [await fails.steps.over(1), await fails.steps.out(3)], [5, 5]);

const stacked = session(
  " (A,E,1)(S,FC,A)(A,E,2)(S,FC,A)(R,FC,B)\n+(S,FD,N)(S,FD,V)(R,FD,W)(X,DO)(Y,DO) DONE\nX DONE\nY (PL)\n"
);
const frames = await stacked.frames.of(await stacked.view(13));
same(
  "what was taken back is not there",
  ["returns", "contents", "definitions"].map((name) => frames[name].map((it) => [it.number, it.content ?? it.definition ?? null])),
  [[[12, undefined]], [[2, 1]], [[6, null]]]
);

// ---- Changes, pieces and chains

const at12 = await run.view(12);
const at13 = await run.view(13);
same("what changed in a step", changesOf(at12, at13, "", {}), [
  "block 1028 is lost: nothing leads to it", "B was 1028, is 0"
]);
const found = session(" (A,GT,1)(A,E,0)(A,E,1024)\n");
same("a block that is found again", changesOf(await found.view(3), await found.view(4), "", {}), [
  "block 1024 is lost no more", "A was 0, is 1024"
]);
same(
  "a block is got, of a piece of its size", changesOf(await run.view(11), await run.view(12), "", {})[0],
  "got 4 words at 1028 (a free piece of this size was there: none was halved)"
);
same(
  "the first block", changesOf(await run.view(5), await run.view(6), "", {})[0],
  "got 2 words at 1024 (a free piece of 1,024 was halved 9 times)"
);
same("a longer way", changesOf(await run.view(4), await run.view(6), "")[0], "got 2 words at 1024");
const firstGet = session(" (A,GT,1)(A,FR)\n");
same(
  "ten halvings", changesOf(await firstGet.view(1), await firstGet.view(2), "", {})[0],
  "got 1 word at 1024 (a free piece of 1,024 was halved 10 times)"
);
same(
  "ten joinings", changesOf(await firstGet.view(2), await firstGet.view(3), "", {})[0],
  "freed 1 word at 1024 (it was joined 10 times, to a free piece of 1,024, which is a whole unit)"
);
same("the free pieces", (await firstGet.view(2)).store.piecesBetween(1024, 2048).map((it) => it.size), [
  1, 1, 2, 4, 8, 16, 32, 64, 128, 256, 512
]);
same("the piece with a word", (await firstGet.view(2)).store.freePieceWith(1100), 64);

// The allocator's page tells which pieces are free after each of eight calls; the first six are held to it
// here.
const eight = session(" (A,GT,1)(B,GT,1)(C,GT,1)(D,GT,1)(A,FR)(C,FR)(E,GT,1)(D,FR)\n", "", {store: 1});
const freeAt = async (number) =>
  (await eight.view(number)).store.piecesBetween(1024, 2048).filter((it) => it.isFree).map((it) => it.place);
same("after the first get", (await freeAt(2)).slice(0, 4), [1025, 1026, 1028, 1032]);
same("after the fourth", (await freeAt(5)).slice(0, 2), [1028, 1032]);
same("after the second free", (await freeAt(7)).slice(0, 3), [1024, 1026, 1028]);
const changedBy = async (number) =>
  changesOf(await eight.view(number - 1), await eight.view(number), "", {})[0];
same(
  "why a piece is not joined", await changedBy(6),
  "freed 1 word at 1024 (it was not joined, since its buddy at 1025 is a block)"
);
const pair = session(" (A,GT,1)(B,GT,1)(C,GT,1)(A,FR)(B,FR)\n", "", {store: 1});
same(
  "how far one is joined", changesOf(await pair.view(5), await pair.view(6), "", {})[0],
  "freed 1 word at 1025 (it was joined 1 time, to a free piece of 2, and no more, since the buddy of that piece at " +
    "1026 is not free as a whole)"
);

same("a chain", follow("ANV", at14).steps.map((it) => it.value), [1024, 1026, 7]);
same("a chain's trap", [follow("ANNV", at14).trap.text, follow("AX", at14).trap.text], [
  "no block begins at 0", "X is not defined"
]);
same(
  "a field past the block",
  follow("AX", {...glimpse(at14), fields: new Map([["X", {word: 2, first: 0, last: 5}]])}).trap,
  {number: 3, name: "X", value: 1024, text: "X is in word 2, and block 1024 has 2"}
);
same("no chain", follow("1A", at14).wrong, "a chain is 1 to 6 names, the first a letter");

function glimpse(view) {
  return {bugs: view.bugs, fields: view.fields, wordsAt: (place) => view.wordsAt(place)};
}

// ---- Where links lead: those of a tree down, those of a list to the right

const fieldAt = (name, first, last) =>
  ({key: `0.${first}.${last}`, word: 0, first, last, names: [name], name});
const leads = (names, links) => {
  const windows = names.map((name, index) => fieldAt(name, index * 9, index * 9 + 8));
  const keyOf = (name) => windows.find((it) => it.name === name).key;
  const all = links.map(([name, from, target]) => ({key: keyOf(name), name, names: [name], from, target}));
  return windows.map((it) => waysOf(windows, all, new Map()).get(it.key)?.down);
};
same("L and R are a tree", leads(["L", "R"], [["L", 1, 2], ["R", 1, 3]]), [true, true]);
same("L alone is a list", leads(["L"], [["L", 1, 2], ["L", 2, 3]]), [false]);
same("N leads to the right beside others", leads(["N", "F"], [["N", 1, 2], ["F", 1, 3], ["F", 2, 4]]), [
  false, true
]);

// ---- Large states, and the ways of arrows

function overlaps(one, other) {
  return one.x < other.x + other.width && other.x < one.x + one.width && one.y < other.y + other.height &&
    other.y < one.y + one.height;
}

const big = session(" (0,DN,18,35)\nG (L,GT,1,LN,F) G\nF DONE\n", "", {store: 40});
await big.run();
const chosen = (await big.view(big.last)).shown;
for (let number = big.last - 100; number <= big.last; number++) await big.view(number);
tally.count(
  "large states are dropped, the oldest first",
  big.views.size < 80 && !big.has(big.last - 100) && big.has(big.last), () => `${big.views.size} are kept`
);
same(
  "of 40,960 blocks 300 are shown", [chosen.places.length, chosen.hidden, chosen.places[0]], [300, 40_660, 41_983]
);

const boxes = [
  {x: 24, y: 24, width: 48, height: 48}, {x: 120, y: 24, width: 48, height: 48},
  {x: 216, y: 24, width: 48, height: 48}
];
const way = new Router(300, 150, boxes).way([{x: 72, y: 48, direction: 0}], [{x: 216, y: 48, direction: 0}]);
const crosses = way.slice(1).some((to, index) => {
  const from = way[index];
  const [x, y] = [Math.min(from.x, to.x), Math.min(from.y, to.y)];
  return overlaps(
    {x, y, width: Math.abs(from.x - to.x) + 0.1, height: Math.abs(from.y - to.y) + 0.1}, boxes[1]
  );
});
tally.count("an arrow goes round a block", !crosses, () => JSON.stringify(way));
const low = [{x: 24, y: 24, width: 48, height: 48}, {x: 108, y: 24, width: 48, height: 48}];
same(
  "an arrow turns early, and runs straight into its block",
  new Router(200, 100, low).way([{x: 72, y: 60, direction: 0}], [{x: 108, y: 36, direction: 0}]),
  [{x: 72, y: 60}, {x: 84, y: 60}, {x: 84, y: 36}, {x: 108, y: 36}]
);

// ---- Links

const own =
  await readLink(await linkOf({deck: " (<b>,PH)\n", input: "x", options, breakpoints: [1, 4], number: 7}));
same(
  "a link keeps all", own,
  {deck: " (<b>,PH)\n", input: "x", options, number: 7, breakpoints: [1, 4], lecture: false, embed: false}
);
same(
  "an example's link", await readLink(await linkOf({example: "tree", breakpoints: [5], number: 137})),
  {example: "tree", number: 137, breakpoints: [5], lecture: false, embed: false}
);
same(
  "for a frame", await readLink(await linkOf({example: "tree", breakpoints: [], number: 137, embed: true})),
  {example: "tree", number: 137, breakpoints: [], lecture: false, embed: true}
);
// (the sum of "123456789" is the check value of CRC-32, cbf43926)
same("a checksum", sumOf("123456789"), 0xcbf43926.toString(36));
const wholeLink = await linkOf({deck: " (A,E,5)(A,PD)\n", input: "ABC", options, breakpoints: [2], number: 3});
let opened = 0;
for (let place = 1; place < wholeLink.length; place++)
  for (const other of ["A", "7", "-"]) {
    const damaged = wholeLink.slice(0, place) + other + wholeLink.slice(place + 1);
    if (damaged === wholeLink) continue;
    const found = await readLink(damaged);
    if (found && !found.damaged) opened++;
  }
for (let length = 2; length < wholeLink.length; length++)
  if (!(await readLink(wholeLink.slice(0, length)))?.damaged && length > 5) opened++;
same("of many damaged links none is opened", opened, 0);
for (const bad of
       ["", "#", "#deck=%%", "#deck=AAAA", "#a b",
        "#deck=" +
          "A".repeat(50)])
  tally.count(
    `no link: ${bad.slice(0, 12)}`,
    (await readLink(bad)) === null || bad.length > 1 && (await readLink(bad)).damaged, () => "it is read"
  );

// ---- Exercises: the tutorial's answers print what is asked for, and the decks to begin with don't

const answers = readFileSync(`${TOP}/docs/answers.md`, "utf8");
const printed = (deck, input) => serveText(module, ["run"], job(deck, null, input)).output.split("\n== ")[0];
for (const {key, deck, input, printout, tests = [], conditions = {}} of JSON.parse(readFileSync(`${WEB}/exercises.json`, "utf8"))) {
  const answer = answers.split(`**${key.slice("exercise-".length)}.**`)[1];
  const parts = partsOf(/```text\n([^]*?)```/.exec(answer)[1]);
  same(`${key}: the answer`, printed(parts.deck, parts.input).trimEnd(), printout);
  for (const test of tests)
    same(`${key}: the answer, with ${test.input.trim()}`, printed(parts.deck, test.input).trimEnd(), test.printout);
  if (conditions.uses) tally.count(`${key}: it uses ${conditions.uses}`, isUsed(readDeck(parts.deck), conditions.uses), () => "no");
  same(`${key}: the deck to begin with has no error`, serveText(module, ["check"], deck).status, 0);
  tally.count(
    `${key}: it is not the answer`, printed(deck, input ?? "").trimEnd() !== printout, () => "it is"
  );
}

tally.end();
