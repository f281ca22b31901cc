// What the tests of the drawing in node share: decks, and sessions whose run was read.

import {readdirSync, readFileSync} from "node:fs";

import {Chronicle} from "../src/chronicle.js";
import {partsOf} from "../src/job.js";
import {Session} from "../src/session.js";
import {surveyed} from "../src/survey.js";

import {compiled, MEMORY, serveText, TOP} from "./common.mjs";

const module = await compiled();
const ask = async (words, input, digest) =>
  serveText(module, words, Buffer.from(input).toString("latin1"), MEMORY, digest);

// A session whose run was read.
export async function read(deck, input = "", more = {}) {
  const options = {store: 8, steps: 1_000_000, output: 1_048_576, ...more};
  const session = new Session(ask, {deck, input, options});
  await session.run();
  session.chronicle = new Chronicle(surveyed(module, {...session.survey, limit: MEMORY}));
  return session;
}

export const DECKS = JSON.parse(readFileSync(`${TOP}/web/tests/decks.json`, "utf8"));
const examples = readdirSync(`${TOP}/examples`).filter((it) => it.endsWith(".deck"));

// All examples, and the further decks.
export const jobs = new Map([
  ...examples.map((file) => [file, partsOf(readFileSync(`${TOP}/examples/${file}`, "latin1"))]),
  ...Object.entries(DECKS)
]);
