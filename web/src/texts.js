// Which bugs and fields of a deck hold texts: those that are read as characters, printed as such, or compared
// with a text, and those that get such a number from another. What they hold is shown as a character; any
// other number is shown as a number.

const TEXT_VERBS = ["IN", "PR"];

/**
 * @param {import("./deck.js").Reading} deck
 * @returns {Set<string>} the names of bugs and fields; a chain is known by its last name
 */
export function textNames(deck) {
  deck.texts ??= found(deck);
  return deck.texts;
}

/** @param {import("./deck.js").Reading} deck */
function found(deck) {
  const texts = new Set();
  const moves = []; // pairs of names of which the first gets what the second holds
  const lastOf = (/** @type {string | undefined} */ chain) => (chain && /^[A-Z]/.test(chain) ? kindOf(chain) : null);
  for (const {tests, operations} of deck.statements) {
    for (const {elements: [first, verb = "", third]} of [...tests, ...operations]) {
      const isText = TEXT_VERBS.includes(verb) || (verb.length === 2 && verb[1] === "H" && verb !== "PH");
      if (isText) texts.add(lastOf(first));
      if (["E", "I", "L", "G", "N", "O"].includes(verb)) moves.push([lastOf(first), lastOf(third)]);
    }
  }
  for (let size = -1; size !== texts.size;) {
    size = texts.size;
    for (const [one, other] of moves) {
      if (!one || !other) continue;
      if (texts.has(other)) texts.add(one);
      if (texts.has(one)) texts.add(other);
    }
  }
  texts.delete(null);
  return texts;
}

// The bug of a chain of one name, as "bug A"; else its last field.
/** @param {string} chain */
function kindOf(chain) {
  return chain.length === 1 ? `bug ${chain}` : chain[chain.length - 1];
}
