// What a run prints, compared with what an exercise asks for.

import {count} from "./word.js";

/**
 * Where a printout differs from the wanted one, or "" where it is the same and the run has ended by DONE. That of a
 * run that does not end is compared up to where it was cut off.
 * @param {string} printout
 * @param {string} wish
 * @param {string} ending
 * @param {number} steps
 */
export function differenceOf(printout, wish, ending, steps) {
  const [lines, wanted] = [printout.trimEnd().split("\n"), wish.trimEnd().split("\n")];
  const wrong = wanted.findIndex((line, index) => line !== lines[index]);
  if (wrong < 0 && lines.length === wanted.length && ending === "DONE") return "";
  const printed = (/** @type {number} */ index) => (lines[index] ? `“${shortened(lines[index])}”` : "empty");
  const differs =
    wrong < 0 ? "" : `line ${wrong + 1} is ${printed(wrong)}, and not “${shortened(wanted[wrong])}”`;
  if (ending === "LIMIT") {
    const isCut =
      wrong >= lines.length || (wrong === lines.length - 1 && wanted[wrong].startsWith(lines[wrong]));
    const isMore = wrong < 0 && lines.length > wanted.length;
    const upTo = isMore  ? "more is printed than is wanted" :
      wrong < 0 || isCut ? "up to there it is right" :
                           differs;
    return `the run does not end, and was stopped after ${count(steps, "step")}; ${upTo}`;
  }
  if (differs) return differs;
  if (lines.length > wanted.length)
    return `more is printed: line ${wanted.length + 1} is ${printed(wanted.length)}`;
  return `all is printed, but the run does not end by DONE`;
}

/** @param {string} line */
function shortened(line) {
  return line.length > 60 ? `${line.slice(0, 58)}..` : line;
}
