// What the tests in node share: the module, how a job is given to it, and the count.

import {readFileSync} from "node:fs";
import {dirname, resolve} from "node:path";
import {fileURLToPath} from "node:url";

import {answered} from "../src/serve.js";
import {unpacked} from "../src/unpack.js";

export const WEB = resolve(dirname(fileURLToPath(import.meta.url)), "..");
export const TOP = resolve(WEB, "..");
export const MEMORY = 1 << 30;

// The module of the page that is handed out, dist/l6.html, or of the one that L6_PAGE names.
export async function compiled() {
  const page = readFileSync(process.env.L6_PAGE ?? `${TOP}/dist/l6.html`, "utf8");
  const packed = /<script type="text\/plain" id="module">([^<]*)</.exec(page)[1];
  return WebAssembly.compile(await unpacked(packed));
}

// Each character of a text is one byte.
export function bytesOfText(text) {
  return Uint8Array.from(Buffer.from(text, "latin1"));
}

export function serveText(module, words, stdin, limit = MEMORY, digest = null) {
  const answer = answered(module, {words, input: bytesOfText(stdin), limit, digest});
  const text = (bytes) => Buffer.from(bytes).toString("latin1");
  return {...answer, output: text(answer.output), errors: text(answer.errors)};
}

// Counts what passes and what fails.
export class Tally {
  passed = 0;
  failed = 0;

  count(name, isRight, tell) {
    if (isRight)
      this.passed++;
    else {
      this.failed++;
      console.log(`${name}: ${tell()}`);
    }
  }

  same(name, got, want) {
    const [one, other] = [JSON.stringify(got), JSON.stringify(want)];
    this.count(name, one === other, () => `got ${one}, want ${other}`);
  }

  end() {
    console.log(`${this.passed} passed, ${this.failed} failed`);
    process.exit(this.failed ? 1 : 0);
  }
}

// What is wrong must be counted as wrong: if it is not, no test says anything.
export async function canary(check = (tally) => tally.same("a canary", 1, 2)) {
  const say = console.log;
  console.log = () => {};
  const tally = new Tally();
  await check(tally);
  console.log = say;
  if (tally.failed > 0 && tally.passed === 0) return;
  console.log("what is wrong is not counted");
  process.exit(1);
}
