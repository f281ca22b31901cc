// What part of a drawing a camera sees, as numbers: where the drawing's upper left corner is in the frame, and
// in which scale it is.

export const LEAST = 0.05;
export const MOST = 4;
const EDGE = 10;    // pixels around a drawing in its frame
const MARGIN = 40;  // around what is brought into sight
const ABOVE = 28;   // of the drawing, for bugs
const BESIDE = 14;  // for arrows

/** @typedef {{x: number, y: number, scale: number}} Spot */
/** @typedef {{width: number, height: number}} Size */
/** @typedef {{x: number, y: number, width: number, height: number}} Box */

/**
 * The spot from which all of a drawing is seen, as large as it can be, but in no larger scale than `most`.
 * @param {Size} drawing
 * @param {Size} frame
 * @param {number} most
 * @returns {Spot}
 */
export function whole({width, height}, frame, most = MOST) {
  const scale = Math.min(most, (frame.width - EDGE) / width, (frame.height - EDGE) / height);
  return {x: (frame.width - width * scale) / 2, y: (frame.height - height * scale) / 2, scale};
}

/**
 * The spot from which a box of a drawing is seen, as large as it can be, in the middle of the frame.
 * @param {Box} box
 * @param {Size} frame
 * @param {number} most
 * @returns {Spot}
 */
export function around({x, y, ...size}, frame, most = MOST) {
  const spot = whole(size, frame, most);
  return {x: spot.x - x * spot.scale, y: spot.y - y * spot.scale, scale: spot.scale};
}

/**
 * The box that has some boxes in it, with the room of a bug above; null where there are none.
 * @param {Box[]} boxes
 * @returns {Box | null}
 */
export function boxAround(boxes) {
  if (!boxes.length) return null;
  const [left, top] = [Math.min(...boxes.map((it) => it.x)), Math.min(...boxes.map((it) => it.y)) - ABOVE];
  const right = Math.max(...boxes.map((it) => it.x + it.width));
  const bottom = Math.max(...boxes.map((it) => it.y + it.height));
  return {x: left - BESIDE, y: top, width: right - left + 2 * BESIDE, height: bottom - top + BESIDE};
}

/**
 * Nearer, or further away; a point of the frame stays where it is.
 * @param {Spot} spot
 * @param {number} by
 * @param {number} x
 * @param {number} y
 * @returns {Spot}
 */
export function zoomed(spot, by, x, y) {
  const scale = Math.min(MOST, Math.max(LEAST, spot.scale * by));
  const part = scale / spot.scale;
  return {x: x - (x - spot.x) * part, y: y - (y - spot.y) * part, scale};
}

/**
 * The spot in which a box is seen, moved by the shortest way; the same spot where it is seen already.
 * @param {Spot} spot
 * @param {Box} box
 * @param {Size} frame
 * @returns {Spot}
 */
export function revealed(spot, {x, y, width, height}, frame) {
  const {scale} = spot;
  const moved = (/** @type {number} */ at, /** @type {number} */ from, /** @type {number} */ size,
                 /** @type {number} */ room) => {
    const margin = Math.max(0, Math.min(MARGIN, (room - size * scale) / 2));
    const [begin, end] = [at + from * scale, at + (from + size) * scale];
    if (begin < 0) return at - begin + margin;
    return end > room ? at - (end - room) - margin : at;
  };
  const [left, top] = [moved(spot.x, x, width, frame.width), moved(spot.y, y, height, frame.height)];
  return left === spot.x && top === spot.y ? spot : {x: left, y: top, scale};
}

/**
 * The spot in which a point of the drawing is in the middle of the frame.
 * @param {Spot} spot
 * @param {{x: number, y: number}} point
 * @param {Size} frame
 * @returns {Spot}
 */
export function centred({scale}, point, frame) {
  return {x: frame.width / 2 - point.x * scale, y: frame.height / 2 - point.y * scale, scale};
}

/**
 * The part of a drawing that is seen.
 * @param {Spot} spot
 * @param {Size} frame
 * @returns {Box}
 */
export function seenFrom({x, y, scale}, {width, height}) {
  return {x: -x / scale, y: -y / scale, width: width / scale, height: height / scale};
}

/**
 * Whether all of a box lies in another, but for a pixel.
 * @param {Box} box
 * @param {Box} frame
 */
export function isIn(box, frame) {
  return box.x >= frame.x - 1 && box.y >= frame.y - 1 && box.x + box.width <= frame.x + frame.width + 1 &&
    box.y + box.height <= frame.y + frame.height + 1;
}

/**
 * A spot on the way from one to another: 0 is the first, 1 the other.
 * @param {Spot} from
 * @param {Spot} to
 * @param {number} part
 * @returns {Spot}
 */
export function onTheWay(from, to, part) {
  const between = (/** @type {number} */ a, /** @type {number} */ b) => a + (b - a) * part;
  return {
    x: between(from.x, to.x),
    y: between(from.y, to.y),
    scale: from.scale * (to.scale / from.scale) ** part
  };
}
