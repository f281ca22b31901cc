// Has the module do one job, and makes of its answer what is asked for. Each job has an instance of its own,
// so that none leaves anything for the next.

import {textOfBytes} from "./bytes.js";
import {DIGESTS} from "./digest.js";

// Does a job. With a digest its output is not sent, but what the digest makes of it, and the output's begin.
/**
 * @param {WebAssembly.Module} module
 * @param {{words: string[], input: Uint8Array, limit: number, digest?: any}} job
 */
export function answered(module, job) {
  const answer = serve(module, job);
  if (!job.digest || answer.status !== 0) return answer;
  const {name, begin, ...more} = job.digest;
  const text = textOfBytes(answer.output);
  const digest = DIGESTS[/** @type {keyof typeof DIGESTS} */ (name)](text, more);
  return {...answer, output: answer.output.slice(0, begin), digest};
}

/**
 * What the module exports; addresses and sizes are numbers.
 * @typedef {{memory: WebAssembly.Memory, host_word(size: number): number, host_input(size: number): number,
 *   host_limit(bytes: number): void, host_run(): number, host_output(which: number): number,
 *   host_output_bytes(which: number): number}} Host
 */

// The words are texts, the input bytes; the limit is the most bytes of memory that the program may have.
// Answers the exit status and what went to the two outputs, as bytes.
/**
 * @param {WebAssembly.Module} module
 * @param {{words: string[], input: Uint8Array, limit: number}} job
 */
export function serve(module, {words, input, limit}) {
  const begun = performance.now();
  const host = /** @type {Host} */ (/** @type {unknown} */ (new WebAssembly.Instance(module).exports));
  const put = (/** @type {Uint8Array} */ bytes, /** @type {number} */ address) => {
    if (address === 0) throw new RangeError("the page has no memory for this job");
    new Uint8Array(host.memory.buffer).set(bytes, address >>> 0);
  };
  for (const word of ["l6", ...words]) {
    const bytes = new TextEncoder().encode(word);
    put(bytes, host.host_word(bytes.length));
  }
  put(input, host.host_input(input.length));
  host.host_limit(limit);
  const status = host.host_run();
  const taken = (/** @type {number} */ which) => {
    const [address, size] = [host.host_output(which) >>> 0, host.host_output_bytes(which) >>> 0];
    return new Uint8Array(host.memory.buffer).slice(address, address + size);
  };
  const [output, errors] = [taken(0), taken(1)];
  return {
    status,
    output,
    errors,
    memory: host.memory.buffer.byteLength,
    milliseconds: performance.now() - begun
  };
}
