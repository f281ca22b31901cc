// Does jobs that come as lines of JSON, each with its words and its input in base64, and answers in the same
// way.

import {createInterface} from "node:readline";

import {serve} from "../src/serve.js";

import {compiled, MEMORY} from "./common.mjs";

const module = await compiled();
const base64 = (bytes) => Buffer.from(bytes).toString("base64");

for await (const line of createInterface({input: process.stdin})) {
  const {words, input} = JSON.parse(line);
  const answer = serve(module, {words, input: Uint8Array.from(Buffer.from(input, "base64")), limit: MEMORY});
  console.log(
    JSON.stringify({status: answer.status, output: base64(answer.output), errors: base64(answer.errors)})
  );
}
