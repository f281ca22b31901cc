// The printout of a run up to a state: in its box, and in a line for the lecture view.

import {byId, make} from "./dom.js";

const MOST_IN_LINE = 300; // characters

/**
 * What is printed up to the state that is shown; what came last is marked.
 * @param {import("./view.js").View} view
 * @param {import("./view.js").View | null} before
 * @param {import("./session.js").Session} session
 */
export function showPrinted(view, before, session) {
  const pre = byId("printed");
  const fresh =
    before && before.amounts.output < view.amounts.output ? view.printedSince(before.amounts.output) : "";
  const {output} = view;
  const isEmpty = !session.input && !output && !session.printout?.printed && !view.state.ending;
  byId("papers-below").classList.toggle("blank", isEmpty);
  const ending =
    view.state.ending ? `${output && !output.endsWith("\n") ? "\n" : ""}${view.state.line}` : "";
  pre.replaceChildren(
    output.slice(0, output.length - fresh.length), make("span", {class: "fresh"}, fresh),
    make("span", {class: "ending"}, ending)
  );
  byId("printed-strip").replaceChildren(inLine(output.slice(0, output.length - fresh.length)),
                                        make("span", {class: "fresh"}, inLine(fresh)));
  byId("printed-strip").scrollLeft = byId("printed-strip").scrollWidth;
  byId("printed-label").textContent = view.state.ending ? "Printed" : `Printed so far`;
  pre.scrollTop = pre.scrollHeight;
}

// The end of a printout in a line.
/** @param {string} text */
function inLine(text) {
  return text.slice(-MOST_IN_LINE).replaceAll("\n", " ⏎ ");
}
