// The controls that show where in the run the page is: the slider, the state's number, and what can be
// pressed.

import {byId} from "./dom.js";
import {withCommas} from "./word.js";

const SHORT = 1000; // states on the slider where it is not known how many there are

// Marks a button as one that does nothing now. It keeps the focus, which a disabled one would lose.
/**
 * @param {string} id
 * @param {boolean} isDisabled
 */
export function disable(id, isDisabled) {
  byId(id).setAttribute("aria-disabled", String(isDisabled));
}

// Shows the number of a state, and that of the last one or null.
/**
 * @param {number} number
 * @param {number | null} last
 */
export function showNumber(number, last) {
  const slider = byId("slider");
  slider.max = String(last ?? Math.max(SHORT, 2 * number));
  slider.value = String(number);
  const end = last === null ? "" : ` of ${withCommas(last)}`;
  slider.setAttribute("aria-valuetext", `state ${withCommas(number)}${end}`);
  byId("number").value = String(number);
  byId("of").textContent = last === null ? "of ?" : `of ${withCommas(last)}`;
  for (const id of ["step", "end", "statement", "over", "out"]) disable(id, last !== null && number >= last);
  for (const id of ["back", "start"]) disable(id, number === 0);
}

// No state is shown.
export function clearNumber() {
  byId("of").textContent = "";
  byId("slider").max = byId("slider").value = byId("number").value = "0";
  for (const id of ["step", "end", "statement", "over", "out", "back", "start"]) disable(id, false);
}
