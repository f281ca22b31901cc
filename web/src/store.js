// The store of a view: its blocks and runs of free words, in the order of their places, as numbers in arrays,
// since there may be hundreds of thousands.
//
// The debugger lists blocks and runs of free words. The free pieces of the buddy system are determined by
// these: they are aligned, have sizes that are powers of two, and no two buddies are both free (which is
// proved of the store), so they are the largest aligned pieces that fit into the runs.

import {UNIT} from "./word.js";

/** @typedef {{place: number, size: number, isFree: boolean, isLost?: boolean}} Piece */

export const KINDS = {
  block: 0,
  lost: 1,
  free: 2
};

export class Store {
  /** @param {{places: Int32Array, sizes: Int32Array, kinds: Uint8Array, used: number, free: number}} data */
  constructor(data) {
    this.places = data.places;
    this.sizes = data.sizes;
    this.kinds = data.kinds;
    this.used = data.used;
    this.free = data.free;
    const counts = [0, 0, 0];
    for (let index = 0; index < this.kinds.length; index++) counts[this.kinds[index]]++;
    this.lost = counts[KINDS.lost];
    this.blocks = counts[KINDS.block] + this.lost;
    /** @type {{blocks: number, free: number}[] | null} */
    this.counted = null; // the levels, once they were asked for
  }

  get begin() {
    return this.places[0];
  }

  get end() {
    return this.places[this.places.length - 1] + this.sizes[this.sizes.length - 1];
  }

  /**
   * @param {number} index
   * @returns {Piece} the block or run with this index
   */
  piece(index) {
    const kind = this.kinds[index];
    const isFree = kind === KINDS.free;
    return {place: this.places[index], size: this.sizes[index], isFree, isLost: kind === KINDS.lost};
  }

  // The index of the block or run that has this word, or -1.
  /** @param {number} place */
  indexWith(place) {
    let [low, high] = [0, this.places.length - 1];
    while (low <= high) {
      const middle = (low + high) >> 1;
      if (place < this.places[middle])
        high = middle - 1;
      else if (place >= this.places[middle] + this.sizes[middle])
        low = middle + 1;
      else
        return middle;
    }
    return -1;
  }

  // The block or the run of free words that has this word, or null.
  /** @param {number} place */
  pieceWith(place) {
    const index = this.indexWith(place);
    return index < 0 ? null : this.piece(index);
  }

  // The block that begins at a place, or null.
  /** @param {number} place */
  block(place) {
    const index = this.indexWith(place);
    if (index < 0 || this.kinds[index] === KINDS.free || this.places[index] !== place) return null;
    return this.piece(index);
  }

  // The blocks and free pieces from one place on and before another.
  /**
   * @param {number} begin
   * @param {number} end
   */
  piecesBetween(begin, end) {
    const pieces = [];
    const first = Math.max(0, this.indexWith(Math.max(begin, this.begin)));
    for (let index = first; index < this.places.length && this.places[index] < end; index++) {
      const piece = this.piece(index);
      if (!piece.isFree)
        pieces.push(piece);
      else
        for (const free of freePieces(piece, begin, end)) pieces.push(free);
    }
    return pieces;
  }

  // The size of the free piece that has this word, or 0 where it is not free.
  /** @param {number} place */
  freePieceWith(place) {
    const run = this.pieceWith(place);
    if (!run?.isFree) return 0;
    for (const piece of freePieces(run, place, place + 1))
      if (piece.place + piece.size > place) return piece.size;
    return 0;
  }

  // How many blocks and how many free pieces there are of each size, by the logarithms of the sizes.
  /** @returns {{blocks: number, free: number}[]} */
  levels() {
    this.counted ??= this.countLevels();
    return this.counted;
  }

  countLevels() {
    const levels = Array.from({length: Math.log2(UNIT) + 1}, () => ({blocks: 0, free: 0}));
    for (let index = 0; index < this.places.length; index++) {
      if (this.kinds[index] !== KINDS.free)
        levels[31 - Math.clz32(this.sizes[index])].blocks++;
      else
        for (const {size} of freePieces(this.piece(index))) levels[31 - Math.clz32(size)].free++;
    }
    return levels;
  }

  // The size of the largest free piece, or 0.
  get largestFree() {
    return this.levels().reduce((most, {free}, level) => (free > 0 ? 2 ** level : most), 0);
  }

  // The first place at which two stores differ, or null.
  /** @param {Store} other */
  firstChange(other) {
    const size = Math.min(this.places.length, other.places.length);
    for (let index = 0; index < size; index++) {
      const isSame = this.places[index] === other.places[index] && this.sizes[index] === other.sizes[index] &&
        this.kinds[index] === other.kinds[index];
      if (!isSame) return other.places[index];
    }
    return this.places.length === other.places.length ? null : other.places[size - 1];
  }
}

// The free pieces of a run, or those of them that lie between two places.
/**
 * @param {Piece} run
 * @param {number} begin
 * @param {number} end
 * @returns {Generator<Piece>}
 */
function* freePieces(run, begin = run.place, end = run.place + run.size) {
  let place = run.place;
  const stop = Math.min(run.place + run.size, end);
  if (place < begin) place = Math.max(place, begin - (begin % UNIT));
  while (place < stop) {
    const size = sizeAt(place, run.place + run.size - place);
    if (place + size > begin) yield {place, size, isFree: true};
    place += size;
  }
}

// The size of the largest piece that may begin at a place and has so much room.
/**
 * @param {number} place
 * @param {number} room
 */
function sizeAt(place, room) {
  let size = 1;
  while (size < UNIT && place % (2 * size) === 0 && 2 * size <= room) size *= 2;
  return size;
}
