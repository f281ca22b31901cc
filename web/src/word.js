// Words of 36 bits as JavaScript's numbers, which are exact up to 2^53.

export const WORD_BITS = 36;
export const MOST = 2 ** WORD_BITS; // the first number that is no word
export const UNIT = 1024;           // words of a unit; the first unit begins at this place

// Twelve octal digits.
/** @param {number} word */
export function octal(word) {
  return word.toString(8).padStart(12, "0");
}

// What a window shows of a word: its bits from the first to the last one, as a number.
/**
 * @param {number} word
 * @param {{first: number, last: number}} window
 */
export function seenThrough(word, window) {
  return Math.floor(word / 2 ** (WORD_BITS - 1 - window.last)) % 2 ** widthOf(window);
}

// A word of which a window shows another number.
/**
 * @param {number} word
 * @param {{first: number, last: number}} window
 * @param {number} value
 */
export function changedThrough(word, window, value) {
  const shown = value % 2 ** widthOf(window); // (as many of its bits as there is room for)
  return word + (shown - seenThrough(word, window)) * 2 ** (WORD_BITS - 1 - window.last);
}

/** @param {{first: number, last: number}} window */
export function widthOf(window) {
  return window.last - window.first + 1;
}

// The character of a code.
/** @param {number} code */
export function characterOf(code) {
  return String.fromCharCode(code + 32);
}

// Whether a number is the code of a letter.
/** @param {number} number */
export function isLetter(number) {
  return number >= 33 && number <= 58;
}

// The text that a number is the code of: its digits to base 64 are codes. Blanks in front are left out.
/** @param {number} number */
export function textOf(number) {
  let text = "";
  for (let rest = number; rest > 0; rest = Math.floor(rest / 64)) {
    text = characterOf(rest % 64) + text;
  }
  return text;
}

// The text that a number most likely is the code of, or "": letters and blanks, two letters at least.
/** @param {number} number */
export function likelyText(number) {
  const text = textOf(number).trim();
  return /^[A-Z][A-Z .'-]*[A-Z.]$/.test(text) ? text : "";
}

// A number with a comma before each three digits.
/** @param {number} number */
export function withCommas(number) {
  return String(number).replace(/\B(?=(\d{3})+$)/g, ",");
}

// A count with its noun.
/**
 * @param {number} number
 * @param {string} one
 */
export function count(number, one, many = `${one}s`) {
  return `${withCommas(number)} ${number === 1 ? one : many}`;
}
