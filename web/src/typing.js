// The deck as it is typed: it is read, what was shown of a run is dropped, and other jobs are put into the boxes.

import {readDeck} from "./deck.js";
import {byId} from "./dom.js";
import {partsOf} from "./job.js";
import {groupAt} from "./meaning.js";
import {sayWrongOptions, showOptions} from "./options.js";
import {Travel} from "./travel.js";

const LONG_DECK = 50_000; // characters; a longer deck is read after the key, and not with it
const READ_AFTER = 400; // milliseconds

export class Typing extends Travel {
  // ---- The deck

  // The deck was changed: what was shown of a run is shown no more.
  changed() {
    if (this.isFilling) return;
    this.pause();
    this.splitJob();
    this.readLater();
    this.dropRun("The deck has changed.");
    this.checker.typing();
    this.keeper.typed();
  }

  // A long deck is read once the reader pauses.
  readLater() {
    clearTimeout(this.readTimer);
    if (byId("deck").value.length <= LONG_DECK) return this.readDeck();
    this.readTimer = setTimeout(() => this.readDeck(), READ_AFTER);
  }

  /** @param {string} why */
  dropRun(why) {
    this.library.changed();
    if (!this.view && !this.session) return;
    this.session = null;
    this.clear(why);
  }

  // While nothing is run: what the group with the cursor does.
  explainCursor() {
    if (this.view || document.activeElement !== this.editor.text) return;
    const {card, column} = this.editor.cursor();
    this.viewer.story.explain(groupAt(this.editor.deck, card, column));
  }

  // A whole job that was pasted into the deck is put into its boxes.
  splitJob() {
    const text = byId("deck").value;
    if (!text.includes("$")) return;
    const {deck, commands, input} = partsOf(text);
    if (deck === text) return;
    byId("deck").value = deck;
    if (input) byId("input").value = input;
    if (commands) byId("commands").value = commands;
    this.tell("The input has a box of its own, and the commands are in “Listing, image & session”.");
  }

  // Puts a job into its boxes.
  /** @param {any} job */
  put({deck, input = "", commands = "", options = {}, breakpoints = [], bySize = false, kinds = ""}) {
    this.pause();
    this.kindsWanted = kinds;
    clearTimeout(this.readTimer);
    this.fillDeck(deck);
    byId("input").value = input;
    byId("commands").value = commands;
    byId("by-size").checked = bySize;
    this.pictures.forget();
    showOptions(options);
    this.session = null;
    this.viewer.begin();
    this.readText = deck;
    this.editor.begin(readDeck(deck), breakpoints);
    this.library.deckRead(this.editor.deck);
    this.checker.show([]);
    this.clear("");
    this.tell("");
    this.checker.check();
  }

  // Puts a deck into its box; where the reader has typed there, so that the browser's undo takes it back.
  /** @param {string} deck */
  fillDeck(deck) {
    const box = byId("deck");
    if (box.value === deck) return;
    const isLong = deck.length > LONG_DECK || box.value.length > LONG_DECK;
    if (this.library?.hasWork && !isLong) {
      const had = document.activeElement;
      this.isFilling = true;
      box.focus({preventScroll: true});
      box.select();
      document.execCommand(deck ? "insertText" : "delete", false, deck);
      if (had instanceof HTMLElement) had.focus({preventScroll: true});
      this.isFilling = false;
    }
    if (box.value !== deck) box.value = deck;
    box.setSelectionRange(0, 0);
  }

  inputChanged() {
    this.pause();
    this.dropRun("The input has changed.");
    this.keeper.typed();
  }

  optionChanged() {
    this.pause();
    sayWrongOptions();
    this.library.forgetVerdict();
    if (this.library.hasWork) this.keeper.typed();
    if (!this.view && !this.session) return;
    this.session = null;
    this.clear("An option has changed.");
  }
}
