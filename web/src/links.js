// Links: what comes after the # of the page's address. `#tree` is an example, `#tree@137` a state of it,
// `#tree@137!5,8` has breakpoints, too, `#tree@137;lecture` opens the lecture view, and `#tree@137;embed` is for
// a frame of another page. A deck of the reader's own is packed into the link, and with it the exercise or the
// task that it belongs to; a checksum is at its end. (Links of old begin with `deck=`, and have none.)

import {conditionsOf, testsOf} from "./verify.js";

const LINK = /^#(deck=|job=)?([\w-]+)(?:@(\d{1,10}))?(?:!(\d[\d,]*))?(;lecture|;embed)?$/;
const SUMMED = /^(#job=.*)~([0-9a-z]{1,7})$/;
const POLYNOMIAL = 0xedb88320; // of the checksum, CRC-32

/** @typedef {{input: string, options: object}} Given what a task gives: its input, and the options of its runs */

/**
 * @param {{example?: string | null, breakpoints: number[], number: number | null, lecture?: boolean,
 *   embed?: boolean, deck?: string, input?: string, options?: object, kinds?: string, exercise?: string,
 *   task?: string, printout?: string, tests?: object[], conditions?: object, given?: Given}} link
 */
export async function linkOf({example, breakpoints, number, lecture = false, embed = false, ...own}) {
  const tail = `${number === null ? "" : `@${number}`}${
    breakpoints.length ? `!${breakpoints.join(",")}` : ""}${embed ? ";embed" : lecture ? ";lecture" : ""}`;
  if (example) return `#${example}${tail}`;
  const {deck, input, options, exercise, task, printout, kinds, tests, conditions, given} = own;
  const whole = {deck, input, options, exercise, task, printout, kinds, tests, conditions, given};
  const packed = await pack(JSON.stringify(whole));
  const link = `#job=${packed}${tail}`;
  return `${link}~${sumOf(link)}`;
}

// The checksum of a text, CRC-32, so that a link that was damaged opens no other deck.
/** @param {string} text */
export function sumOf(text) {
  let sum = 0xffffffff;
  for (const byte of new TextEncoder().encode(text)) {
    sum ^= byte;
    for (let bit = 0; bit < 8; bit++) sum = sum & 1 ? (sum >>> 1) ^ POLYNOMIAL : sum >>> 1;
  }
  return ((sum ^ 0xffffffff) >>> 0).toString(36);
}

/**
 * What a link says: null where there is none, and `damaged` with the reason where it can't be read.
 * @param {string} hash
 * @returns {Promise<any>}
 */
export async function readLink(hash) {
  if (hash === "" || hash === "#") return null;
  const summed = SUMMED.exec(hash);
  if (hash.startsWith("#job=") && (!summed || sumOf(summed[1]) !== summed[2]))
    return {damaged: "its checksum is another one; a character was changed, or it was cut off"};
  const found = LINK.exec(summed ? summed[1] : hash);
  if (!found) return {damaged: "it has characters that no link has, or was cut off"};
  const number = found[3] === undefined ? null : Number(found[3]);
  const breakpoints = (found[4] ?? "").split(",").filter((it) => it).map(Number);
  const more = {number, breakpoints, lecture: found[5] === ";lecture", embed: found[5] === ";embed"};
  if (!found[1]) return {example: found[2], ...more};
  try {
    const own = JSON.parse(await unpack(found[2]));
    const {deck, input, options, exercise, kinds} = own;
    if (typeof deck !== "string" || typeof input !== "string") return {damaged: "it has no deck in it"};
    return {
      deck,
      input,
      options: numbersOf(options),
      ...(typeof exercise === "string" ? {exercise} : {}),
      ...taskPartOf(own),
      ...(typeof kinds === "string" && kinds ? {kinds} : {}),
      ...more
    };
  } catch {
    return {damaged: "what is packed in it can't be unpacked; perhaps it was cut off"};
  }
}

/**
 * What a link, or the work that is kept, has of the exercise or the task that it belongs to.
 * @param {import("./library.js").Exercise | null} exercise
 */
export function exercisePart(exercise) {
  if (!exercise || exercise.key) return {exercise: exercise?.key};
  const {task, printout, tests, conditions, input = "", options = {}} = exercise;
  return {task, printout, tests, conditions, given: {input, options}};
}

// What a link, or the work that is kept, says of a task, or null.
/**
 * @param {any} own
 * @returns {{task: string, printout: string, tests: import("./verify.js").Test[],
 *   conditions: import("./verify.js").Conditions, given?: Given} | null}
 */
function taskPartOf({task, printout, tests, conditions, given}) {
  if (typeof task !== "string" || typeof printout !== "string" || !task) return null;
  const its = typeof given?.input === "string" ? {given: {input: given.input, options: numbersOf(given.options)}} : {};
  return {task, printout, tests: testsOf(tests), conditions: conditionsOf(conditions), ...its};
}

/**
 * The task that a link, or the work that is kept, belongs to, or null. Its input and options are those that were
 * given with it, whatever the reader has put there since.
 * @param {any} own
 */
export function taskWith(own) {
  const part = taskPartOf(own);
  if (!part) return null;
  const {given = {input: String(own.input ?? ""), options: numbersOf(own.options)}, ...task} = part;
  return {...task, ...given};
}

// The options of a link or a file that are numbers.
/** @param {any} options */
export function numbersOf(options) {
  const numbers = ["store", "steps", "output"].map((it) => [it, Number(options?.[it])]);
  return Object.fromEntries(numbers.filter(([, it]) => Number.isInteger(it) && it >= 0));
}

/** @param {string} text */
async function pack(text) {
  const stream = new Blob([text]).stream().pipeThrough(new CompressionStream("deflate-raw"));
  const bytes = new Uint8Array(await new Response(stream).arrayBuffer());
  let all = "";
  for (const byte of bytes) all += String.fromCharCode(byte);
  return btoa(all).replaceAll("+", "-").replaceAll("/", "_").replaceAll("=", "");
}

/** @param {string} text */
async function unpack(text) {
  const bytes =
    Uint8Array.from(atob(text.replaceAll("-", "+").replaceAll("_", "/")), (it) => it.charCodeAt(0));
  const stream = new Blob([bytes]).stream().pipeThrough(new DecompressionStream("deflate-raw"));
  return new Response(stream).text();
}
