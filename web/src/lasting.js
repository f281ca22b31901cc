// Which links of a run count for its drawing. All links that there ever are, each with the number of states
// in which it is there, make one graph.

const ROUNDS = 4; // full states that are looked for
const LEAST = 2;  // links that such a state must have beyond those of the others

/** @typedef {import("./chronicle.js").Link} Link */

/**
 * All links of a window between two places: since when, in how many states, and a rank that is greater than 0
 * if it is there in a state with the most links.
 * @typedef {{key: string, from: number, to: number, since: number, weight: number, rank: number}} Edge
 */

/**
 * The graph of all links of a run. What the state with the most links shows counts more than what lasts: so a
 * list stands in the order that it has once all is in it.
 * @param {Link[]} links
 * @returns {Edge[]}
 */
export function union(links) {
  /** @type {Map<string, Edge>} */
  const edges = new Map();
  for (const {key, from, to, since, until} of links) {
    const name = nameOf({key, from, to});
    const edge = edges.get(name) ?? {key, from, to, since, weight: 0, rank: 0};
    edge.weight += until - since;
    edge.since = Math.min(edge.since, since);
    edges.set(name, edge);
  }
  for (let rank = ROUNDS; rank > 0; rank--) {
    const left = links.filter((it) => edges.get(nameOf(it))?.rank === 0);
    const {number, count} = fullest(left);
    if (count < LEAST) break;
    for (const link of left) {
      const edge = edges.get(nameOf(link));
      if (edge && link.since <= number && number < link.until) edge.rank = rank;
    }
  }
  return [...edges.values()];
}

// The name of a link among those of a run.
/** @param {{key: string, from: number, to: number}} link */
export function nameOf({key, from, to}) {
  return `${key} ${from} ${to}`;
}

// The order in which links are taken: the ranked ones first, then those that last, then the old ones.
/**
 * @param {{rank: number, weight: number, since: number}} a
 * @param {{rank: number, weight: number, since: number}} b
 */
export function byRank(a, b) {
  return b.rank - a.rank || b.weight - a.weight || a.since - b.since;
}

/**
 * The first state with the most of some links.
 * @param {Link[]} links
 */
function fullest(links) {
  const changes = links.flatMap(({since, until}) => [{at: since, by: 1}, {at: until, by: -1}]);
  changes.sort((a, b) => a.at - b.at || a.by - b.by);
  let count = 0;
  let best = {number: 0, count: 0};
  for (const {at, by} of changes) {
    count += by;
    if (count > best.count) best = {number: at, count};
  }
  return best;
}
