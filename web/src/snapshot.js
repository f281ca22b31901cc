// What a plan needs to know, made of one state alone: for Tidy, and while the run is not read yet.

import {linksOf} from "./graph.js";
import {windowsOf} from "./shape.js";

/**
 * The blocks and links that a view shows.
 * @param {import("./view.js").View} view
 * @param {(window: import("./chronicle.js").Window) => boolean} isLink
 * @returns {import("./plan.js").Material}
 */
export function snapshotOf(view, isLink) {
  const windows = /** @type {import("./chronicle.js").Window[]} */ (windowsOf(view.fields));
  const linked = windows.filter(isLink);
  const lives = new Map();
  /** @type {import("./chronicle.js").Link[]} */
  const links = [];
  for (const place of view.shown.places) {
    const size = view.store.block(place)?.size ?? 0;
    lives.set(place, [{place, size, words: view.words.get(place) ?? []}]);
    for (const {key, target} of linksOf(view, place, linked))
      links.push({key, from: place, to: target, since: 0, until: 1});
  }
  const mostBugs = new Map();
  for (const place of view.draw.bugs.values()) mostBugs.set(place, (mostBugs.get(place) ?? 0) + 1);
  return {lives, links, windows: new Map(windows.map((it) => [it.key, it])), heldFor: new Map(), mostBugs};
}
