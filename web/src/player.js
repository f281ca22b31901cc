// Plays a run: a step, a pause, a step, until it ends or the reader pauses it.

import {byId} from "./dom.js";

const QUICK = 300; // milliseconds from step to step, below which blocks do not glide

export class Player {
  /**
   * `step` goes on by a step, `begin` goes back to the start; `atEnd` says whether the run has ended, and
   * `paused` is called where it plays no more.
   * @param {{step: () => Promise<void>, begin: () => Promise<void>, atEnd: () => boolean,
   *   paused: () => void}} ask
   */
  constructor({step, begin, atEnd, paused}) {
    this.step = step;
    this.begin = begin;
    this.atEnd = atEnd;
    this.paused = paused;
    /** @type {ReturnType<typeof setTimeout> | null} */
    this.timer = null;
  }

  get isPlaying() {
    return this.timer !== null;
  }

  toggle() {
    if (this.isPlaying) return this.pause();
    const first = this.atEnd() ? this.begin : this.step;
    this.timer = setTimeout(() => this.beat(first), 0);
    return this.show();
  }

  /** @param {() => Promise<void>} go */
  async beat(go) {
    const {timer} = this;
    await go();
    if (this.timer !== timer) return; // (it was paused meanwhile; where it plays again, it has another beat)
    if (this.atEnd()) return this.pause();
    document.body.classList.toggle("quick", Number(byId("speed").value) < QUICK);
    this.timer = setTimeout(() => this.beat(this.step), Number(byId("speed").value));
  }

  pause() {
    if (!this.isPlaying) return;
    clearTimeout(this.timer ?? undefined);
    this.timer = null;
    document.body.classList.remove("quick");
    this.show();
    this.paused();
  }

  show() {
    const button = byId("play");
    button.querySelector("use")?.setAttribute("href", this.isPlaying ? "#i-pause" : "#i-play");
    button.querySelector("span")?.replaceChildren(this.isPlaying ? "Pause" : "Play");
  }
}
