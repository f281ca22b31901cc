// Runs the cases of tests/program/cases.jsonl, and the decks and sessions of examples/, through the module.
//
// cases.mjs prints each difference, and last 'N passed, M failed'. The answers are those that the built
// program is held to (tests/program/program.py); none is taken from the module.

import {readdirSync, readFileSync} from "node:fs";

import {bytesOfText, canary, compiled, serveText, Tally, TOP} from "./common.mjs";

const tally = new Tally();
const module = await compiled();

// The bytes of a text of a case: [text, n] is n times the text, [text, m, n] for one of each number.
function textOf(value) {
  if (typeof value === "string") return value;
  return value.map((part) => (typeof part === "string" ? part : repeated(...part))).join("");
}

function repeated(text, first, last) {
  if (last === undefined) return textOf(text).repeat(first);
  let all = "";
  for (let number = first; number <= last; number++)
    all += textOf(text).replaceAll("#", String(number).padStart(5, "0"));
  return all;
}

function check(name, answer, want, hasFreeText = false, counts = tally) {
  const right = answer.status === want.status && answer.output === want.output &&
    (hasFreeText ? answer.errors !== "" : answer.errors === want.errors);
  counts.count(name, right, () => `got ${show(answer)}, want ${show(want)}`);
}

function show({status, output, errors}) {
  return JSON.stringify([status, output.slice(0, 300), errors.slice(0, 300)]);
}

const right = {
  status: 0,
  output: "5\n",
  errors: ""
};
for (const wrong of [{status: 1}, {output: "6\n"}, {errors: "x"}])
  await canary((counts) => check("a canary", {...right, ...wrong}, right, false, counts));
await canary((counts) => check("a canary with a free text that is none", right, right, true, counts));

for (const line of readFileSync(`${TOP}/tests/program/cases.jsonl`, "utf8").trim().split("\n")) {
  const one = JSON.parse(line);
  const answer = serveText(module, one.args ?? ["run"], textOf(one.stdin ?? ""));
  const want = {status: one.status, output: textOf(one.stdout ?? ""), errors: textOf(one.stderr ?? "")};
  check(one.name, answer, want, one.stderr === null);
}

const examples = `${TOP}/examples`;
for (const file of readdirSync(examples).sort()) {
  const read = (ending) => readFileSync(`${examples}/${file.replace(/\.\w+$/, ending)}`, "latin1");
  if (file.endsWith(".printout")) {
    const answer = serveText(module, ["run"], read(".deck"));
    tally.count(file, answer.output === read(".printout") && answer.errors === "", () => show(answer));
  }
  if (file.endsWith(".transcript")) {
    check(
      file, serveText(module, ["debug"], read(".session")),
      {status: 0, output: read(".transcript"), errors: ""}
    );
  }
}

// A limit of memory is real: the job is refused, and says so.
const first = " (A,E,5)(A,PD)\n";
const refused = serveText(module, ["run"], first, 20_000);
check("a limit of 20,000 bytes", refused, {status: 5, output: "", errors: "l6: out of memory\n"});
const enough = serveText(module, ["run"], first, 4 << 20);
check("a limit of 4 MiB", enough, {status: 0, output: "5\n== DONE AFTER 6 STEPS\n", errors: ""});
tally.count(
  "the module imports nothing", WebAssembly.Module.imports(module).length === 0, () => "it imports"
);
tally.count("bytes are kept", bytesOfText("\u00ff")[0] === 255, () => "a byte is another");

tally.end();
