// The command line of l6 for Node, around the module of the page: the same words, answers and exit statuses
// as the native program has.
//
// `bundle` puts the module after it, in gzip and base 64. The result runs as a module (l6.mjs) and as a script
// without an ending (bin/l6), so it imports by calls.

const MOST_INPUT = 16_777_217;   // bytes: one more than a job may have, so that a longer one is refused
const MOST_WORDS = 15;           // that the module takes; no right command line has so many
const MOST_MEMORY = 0xffff_0000; // bytes that the module can address
const PIECE = 1 << 16;           // bytes that are read at a time
const PAUSE = 10;                // milliseconds until a device that is busy is asked again

// How much a function does before it is optimized, in the versions of V8 that are known to have this option.
// The default costs short jobs, which most are, twice their time.
const BUDGET = "--wasm-tiering-budget=20000000";
const ENGINES = ["10", "11"]; // of Node 18 and 20

const END_OF_KEYS = process.platform === "win32" ? "Ctrl-Z and Enter" : "Ctrl-D";
const FROM_KEYS = `l6: reading the job from the keyboard, up to ${END_OF_KEYS} at the beginning of a line\n`;
const READ_FAILED = "l6: read failed\n";
const NO_MEMORY = "l6: out of memory\n";
const NO_TEXT = "l6: a word is not UTF-8\n";
const DEVICE_FAILED = 5; // exit statuses
const WRONG_WORDS = 64;

async function main() {
  const files = await import("node:fs");
  const {gunzipSync} = await import("node:zlib");
  const {isatty} = await import("node:tty");
  const words = process.argv.slice(2, 2 + MOST_WORDS);
  if (words.some((word) => /[\ufffd\ud800-\udfff]/u.test(word))) return refused(files, NO_TEXT, WRONG_WORDS);
  const [engine] = process.versions.v8.split(".");
  if (ENGINES.includes(engine)) (await import("node:v8")).setFlagsFromString(BUDGET);
  const module = new WebAssembly.Module(gunzipSync(Buffer.from(MODULE, "base64")));
  // The program reads a job only if its words are right and ask for one. So they are tried with an empty one.
  let answer = job(module, words, new Uint8Array(0));
  if (answer.status !== WRONG_WORDS && words[0] !== "help") {
    if (isatty(0)) write(files, 2, Buffer.from(FROM_KEYS));
    const input = read(files);
    if (!input) return refused(files, READ_FAILED, DEVICE_FAILED);
    answer = job(module, words, input);
  }
  const written = write(files, 1, answer.output);
  if (written < answer.output.length)
    return refused(files, `l6: write failed after ${written} bytes\n`, DEVICE_FAILED);
  write(files, 2, answer.errors);
  return answer.status;
}

// Does a job; one that the system has no memory for is answered as the program answers it.
function job(module, words, input) {
  try {
    return answerOf(new WebAssembly.Instance(module).exports, words, input);
  } catch (error) {
    if (!(error instanceof RangeError)) throw error;
    return {status: DEVICE_FAILED, output: new Uint8Array(0), errors: Buffer.from(NO_MEMORY)};
  }
}

// What a new instance of the module answers: the exit status, and what went to the two outputs, as bytes.
function answerOf(host, words, input) {
  const put = (bytes, address) => {
    if (address === 0) throw new RangeError("there is no memory for this job");
    new Uint8Array(host.memory.buffer).set(bytes, address >>> 0);
  };
  for (const word of ["l6", ...words]) {
    const bytes = Buffer.from(word);
    put(bytes, host.host_word(bytes.length));
  }
  put(input, host.host_input(input.length));
  host.host_limit(MOST_MEMORY);
  const status = host.host_run();
  const taken = (which) => {
    const [address, size] = [host.host_output(which) >>> 0, host.host_output_bytes(which) >>> 0];
    return new Uint8Array(host.memory.buffer).slice(address, address + size);
  };
  return {status, output: taken(0), errors: taken(1)};
}

function refused(files, why, status) {
  write(files, 2, Buffer.from(why));
  return status;
}

// What standard input gives, up to its end; null if it can't be read.
function read(files) {
  const pieces = [];
  let count = 0;
  while (count < MOST_INPUT) {
    const piece = Buffer.allocUnsafe(Math.min(PIECE, MOST_INPUT - count));
    const got = tried(() => files.readSync(0, piece));
    if (got === null) return null;
    if (got === 0) break;
    pieces.push(piece.subarray(0, got));
    count += got;
  }
  return Buffer.concat(pieces);
}

// Writes bytes; answers how many went out.
function write(files, file, bytes) {
  let count = 0;
  while (count < bytes.length) {
    const went = tried(() => files.writeSync(file, bytes, count));
    if (!went) break;
    count += went;
  }
  return count;
}

// What a call to a device answers, 0 at its end; null if it fails. A busy device is asked again.
function tried(call) {
  for (;;) {
    try {
      return call();
    } catch (error) {
      if (error.code === "EOF") return 0; // (as a console of Windows ends)
      if (error.code !== "EAGAIN") return null;
      Atomics.wait(new Int32Array(new SharedArrayBuffer(4)), 0, 0, PAUSE);
    }
  }
}
