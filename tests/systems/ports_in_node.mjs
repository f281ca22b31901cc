// Does many jobs with the program for Node in one process, since a start of Node takes longer than most jobs.
//
// ports_in_node.mjs PROGRAM reads jobs as lines of JSON, each with its words and its input in base64, and
// answers in the same way. Each job runs the whole file of the program, with devices that are in memory in
// place of those of Node.

import {readFileSync} from "node:fs";
import {createInterface} from "node:readline";

const DEVICES = 'await import("node:fs")';
const source = readFileSync(process.argv[2], "utf8").replace(/^#!.*/, "");
if (!source.includes(DEVICES)) throw new Error(`${process.argv[2]} has no ${DEVICES}`);
const program = new Function("process", "devices", source.replace(DEVICES, "devices"));

// Standard input, which gives these bytes, and outputs that keep what is written.
class Devices {
  outputs = {1: [], 2: []};

  constructor(input) {
    this.input = input;
  }

  readSync = (file, piece) => {
    const count = this.input.copy(piece);
    this.input = this.input.subarray(count);
    return count;
  };

  writeSync = (file, bytes, start) => {
    this.outputs[file].push(Buffer.from(bytes.subarray(start)));
    return bytes.length - start;
  };
}

function answerOf({words, input}) {
  const devices = new Devices(Buffer.from(input, "base64"));
  const {versions, platform} = process;
  return new Promise((resolve) => {
    const exit = (status) => {
      const [output, errors] = [1, 2].map((file) => Buffer.concat(devices.outputs[file]).toString("base64"));
      resolve({status, output, errors});
    };
    program({argv: ["node", "l6.mjs", ...words], exit, versions, platform}, devices);
  });
}

for await (const line of createInterface({input: process.stdin}))
  console.log(JSON.stringify(await answerOf(JSON.parse(line))));
