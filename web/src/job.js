// The text of a job for the program: a deck, commands of the debugger, and an input.

// Commands may be null: then the deck is run.
/**
 * @param {string} deck
 * @param {string | null} commands
 * @param {string} input
 * @returns {string}
 */
export function job(deck, commands, input) {
  const whole = (/** @type {string} */ text) => (text === "" || text.endsWith("\n") ? text : `${text}\n`);
  const middle = commands === null ? "" : `$COMMANDS\n${whole(commands)}`;
  return `${whole(deck)}${middle}${input === "" ? "" : `$INPUT\n${input}`}`;
}

/**
 * The parts of a text that may be a whole job.
 * @param {string} text
 */
export function partsOf(text) {
  const isMark = (/** @type {string} */ line, /** @type {string} */ mark) =>
    line.replace(/[ \t\r]+$/, "").toUpperCase() === mark;
  const lines = text.split("\n");
  const input = lines.findIndex((line) => isMark(line, "$INPUT"));
  const head = input < 0 ? lines : [...lines.slice(0, input), ""];
  const commands = head.findIndex((line) => isMark(line, "$COMMANDS"));
  return {
    deck: (commands < 0 ? head : [...head.slice(0, commands), ""]).join("\n"),
    commands: commands < 0 ? "" : head.slice(commands + 1).join("\n"),
    input: input < 0 ? "" : lines.slice(input + 1).join("\n"),
  };
}
