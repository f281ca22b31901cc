// Where rows of blocks are: each block beside the one before it, with the rows that hang on it below, and all
// as near to one another as their outlines allow. A tree of narrow parts is narrow.

/** @typedef {import("./rows.js").Row} Row */
/** @typedef {import("./rows.js").Item} Item */
/** @typedef {{width: number, height: number}} Size */
/** @typedef {(place: number) => Size} Sizes */
/**
 * Gaps between blocks: side by side in trees, along a row, below, and between rows that nothing joins. All
 * places are multiples of the unit.
 * @typedef {{side: number, along: number, below: number, apart: number, unit: number}} Gaps
 *
 * A part of a drawing, seen from its upper left corner: for each band of its height how far it reaches to the
 * left and to the right, and the parts of which it is made.
 * @typedef {{left: number[], right: number[], middle: number, parts: Part[], place?: number}} Box
 * @typedef {{box: Box, x: number, y: number}} Part
 */

/**
 * Places rows one after another, in lines that are no wider than there is room.
 * @param {Row[]} rows
 * @param {Sizes} sizes
 * @param {Gaps} gaps
 * @param {number} room
 */
export function pack(rows, sizes, gaps, room) {
  const boxes = rows.map((it) => boxOfRow(it, sizes, gaps, room));
  const top = lines(boxes, gaps.apart, gaps, room, false);
  /** @type {Map<number, {x: number, y: number}>} */
  const places = new Map();
  const shift = Math.min(0, ...top.left.filter((it) => it !== Infinity));
  put(top, -shift, 0, places);
  return {places, width: widest(top) - shift, height: top.left.length * gaps.unit};
}

/** @returns {Box} */
function emptyBox(middle = 0) {
  return {left: [], right: [], middle, parts: []};
}

/**
 * @param {Box} box
 * @param {number} x
 * @param {number} y
 * @param {Map<number, {x: number, y: number}>} places
 */
function put(box, x, y, places) {
  if (box.place !== undefined) places.set(box.place, {x, y});
  for (const part of box.parts) put(part.box, x + part.x, y + part.y, places);
}

/**
 * @param {Row} row
 * @param {Sizes} sizes
 * @param {Gaps} gaps
 * @param {number} room
 */
function boxOfRow(row, sizes, gaps, room) {
  const boxes = row.items.map((it) => boxOfItem(it, sizes, gaps, room));
  return lines(boxes, gaps.along, gaps, room, row.isRing && row.items.length > 3);
}

/**
 * Boxes in lines. A ring has two at least, and each second one goes back, so that its end is at its begin.
 * @param {Box[]} boxes
 * @param {number} gap
 * @param {Gaps} gaps
 * @param {number} room
 * @param {boolean} isRing
 */
function lines(boxes, gap, gaps, room, isRing) {
  const {unit} = gaps;
  const all = emptyBox(boxes[0]?.middle ?? 0);
  const most = isRing ? lengthOfRingLine(boxes, gap, room) : Infinity;
  let y = 0;
  for (let from = 0; from < boxes.length;) {
    const line = emptyBox();
    let to = from;
    for (; to < boxes.length && to - from < most; to++) {
      const box = boxes[to];
      /** @type {number} */
      const x = to === from ? snap(-Math.min(0, ...box.left), unit) : beside(line, box, gap, unit);
      if (to > from && !isRing && x + widest(box) > room) break;
      join(line, box, x, 0, unit);
    }
    if (isRing && (from / most) % 2 === 1) turn(line, widest(all));
    join(all, line, 0, y, unit);
    y = all.left.length * unit + gaps.below;
    from = to;
  }
  return all;
}

/**
 * How many boxes a line of a ring has.
 * @param {Box[]} boxes
 * @param {number} gap
 * @param {number} room
 */
function lengthOfRingLine(boxes, gap, room) {
  const widths = boxes.map((it) => widest(it) - Math.min(0, ...it.left));
  const total = widths.reduce((sum, it) => sum + it + gap, -gap);
  return Math.ceil(boxes.length / Math.max(2, 2 * Math.ceil(total / room / 2)));
}

/**
 * Puts the parts of a line of a ring into the other order.
 * @param {Box} line
 * @param {number} width
 */
function turn(line, width) {
  for (const part of line.parts) part.x = width - part.x - widest(part.box);
  line.left = line.left.map(() => Math.min(...line.parts.map((it) => it.x)));
  line.right = line.right.map(() => width);
}

/**
 * @param {Item} item
 * @param {Sizes} sizes
 * @param {Gaps} gaps
 * @param {number} room
 * @returns {Box}
 */
function boxOfItem({place, below}, sizes, gaps, room) {
  const {width, height} = sizes(place);
  const {unit} = gaps;
  const bands = Math.ceil(height / unit);
  /** @type {Box} */
  const own =
    {left: Array(bands).fill(0), right: Array(bands).fill(width), parts: [], middle: width / 2, place};
  if (!below.length) return own;
  const under = emptyBox();
  /** @type {number[]} */
  const middles = [];
  for (const row of below) {
    const box = boxOfRow(row, sizes, gaps, room);
    /** @type {number} */
    const x = middles.length ? beside(under, box, gaps.side, unit) : 0;
    join(under, box, x, 0, unit);
    middles.push(x + box.middle);
  }
  let middle = (middles[0] + middles[middles.length - 1]) / 2;
  if (below.length === 1) middle -= below[0].side * (width + gaps.side) / 2;
  const all = emptyBox(width / 2);
  join(all, own, 0, 0, unit);
  join(all, under, snap(width / 2 - middle, unit), bands * unit + gaps.below, unit);
  return all;
}

/**
 * How far a box must be moved to the right to stand beside another.
 * @param {Box} line
 * @param {Box} box
 * @param {number} gap
 * @param {number} unit
 */
function beside(line, box, gap, unit) {
  let x = -Infinity;
  for (let band = 0; band < box.left.length && band < line.right.length; band++) {
    if (line.right[band] !== -Infinity && box.left[band] !== Infinity)
      x = Math.max(x, line.right[band] + gap - box.left[band]);
  }
  return x === -Infinity ? 0 : Math.ceil(x / unit) * unit;
}

/**
 * Adds a part to a box.
 * @param {Box} all
 * @param {Box} box
 * @param {number} x
 * @param {number} y
 * @param {number} unit
 */
function join(all, box, x, y, unit) {
  const first = Math.round(y / unit);
  while (all.left.length < first + box.left.length) {
    all.left.push(Infinity);
    all.right.push(-Infinity);
  }
  for (let band = 0; band < box.left.length; band++) {
    all.left[first + band] = Math.min(all.left[first + band], box.left[band] + x);
    all.right[first + band] = Math.max(all.right[first + band], box.right[band] + x);
  }
  all.parts.push({box, x, y: first * unit});
}

/** @param {Box} box */
function widest(box) {
  return Math.max(0, ...box.right);
}

/**
 * @param {number} size
 * @param {number} unit
 */
function snap(size, unit) {
  return Math.round(size / unit) * unit;
}
