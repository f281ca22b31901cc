// The drawing in words, for those who do not see it.

import {count, withCommas} from "./word.js";

const MOST_LINKS = 60; // that the text of a drawing names

/**
 * A block with the bugs that lead to it, and what its fields show.
 * @param {import("./graph.js").Block} block
 * @param {import("./graph.js").Bug[]} bugs
 */
export function blockInWords(block, bugs) {
  const names = bugs.map((it) => it.name).join(" and ");
  const led = bugs.length ? `, ${names} ${bugs.length === 1 ? "leads" : "lead"} here` : "";
  const all = block.shape.isBox ? [] : block.shape.rows.flatMap((row) => row.cells);
  const cells = all.filter((it) => it.name);
  const shown =
    cells.map((it) => (it.link ? `${it.name} leads to ${it.value}` : `${it.name} ${it.text || it.value}`));
  const linked = block.shape.isBox ? block.links.map((it) => `${it.name} leads to ${it.target}`) : [];
  const lost = block.isLost ? ", lost" : "";
  return `Block ${block.place}, ${count(block.size, "word")}${lost}${led}. ${
      [...shown, ...linked].join(", ")}`;
}

/**
 * The number of blocks, and where bugs and fields lead.
 * @param {import("./graph.js").Graph} graph
 */
export function drawingInWords({blocks, bugs}) {
  if (!blocks.length) return "No blocks";
  const reached = blocks.filter((it) => !it.isLost);
  const lost = blocks.length - reached.length;
  const links =
    reached.flatMap((it) => it.links.map((link) => `${link.name} of ${it.place} to ${link.target}`));
  const all = [
    `${count(reached.length, "block")}${lost ? `, and ${withCommas(lost)} lost` : ""}`,
    ...bugs.map((it) => `${it.name} leads to ${it.place}`),
    ...links.slice(0, MOST_LINKS),
  ];
  return all.join("; ");
}
