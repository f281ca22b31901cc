// Groups: what is in parentheses, as its elements.

// A group with its elements, their blanks left out.
/**
 * @template {{text: string}} Item
 * @param {Item} item
 */
export function groupOf(item) {
  const elements = item.text.split(",").map((/** @type {string} */ it) => it.replace(/[ \t]/g, "").toUpperCase());
  return {...item, elements};
}

// Whether a spelling has one letter, or one and the suffix O or H.
/** @param {string} verb */
export function isSuffix(verb) {
  return verb.length === 1 || (verb.length === 2 && (verb[1] === "O" || verb[1] === "H"));
}

/**
 * The chains of a test or an operation that are read, in their order. Labels, texts and names of fields are none, nor
 * are numbers.
 * @param {string[]} elements
 * @param {boolean} isTest
 */
export function chainsOf(elements, isTest) {
  return partsRead(elements, isTest).filter((it) => /^[A-Z]/.test(it));
}

/**
 * @param {string[]} elements
 * @param {boolean} isTest
 */
function partsRead(elements, isTest) {
  const [first, verb = "", third = "", fourth = ""] = elements;
  if (isTest) return verb.length === 1 ? [first, third] : [first];
  if (elements.length === 4 && /^D.$/.test(verb)) return [first, third, fourth];
  if (verb === "FC") return [third];
  if (["FD", "DO", "PH"].includes(verb) || elements.length === 1) return [];
  if (/^.[OH]$/.test(verb) && elements.length === 3) return [first];
  return elements.length < 3 ? [first] : [first, third];
}

// Where a get puts what its chain was: a chain, or "".
/** @param {string[]} elements */
export function chainBehind({length, 1: verb, 3: fourth}) {
  return verb === "GT" && length > 3 ? fourth : "";
}
