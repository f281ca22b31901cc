// The dialog with what the program writes: printout, listing, image, the answers to the reader's own
// commands, and what the page asked last. Each can be downloaded.

import {bytesOf} from "./bytes.js";
import {byId, make} from "./dom.js";
import {save} from "./download.js";
import {job} from "./job.js";
import {errorOf} from "./thrown.js";

const TABS = [
  {key: "printout", name: "Printout", file: "printout.txt"},
  {key: "listing", name: "Listing", file: "listing.txt"},
  {key: "image", name: "Image", file: "deck.image"},
  {key: "session", name: "Session", file: "transcript.txt"},
  {key: "asked", name: "Asked and answered", file: "asked.txt"},
];
const MOST_SHOWN = 400_000; // characters

/**
 * What the papers need of the page: the job, the words that ask for something, and what was asked lately.
 * @typedef {{job: () => import("./session.js").Job,
 *   ask: (words: string[], input: Uint8Array) => Promise<any>, words: (verb: string) => string[],
 *   exchanges: () => {asked: string, answered: string}[]}} Source
 */

export class Papers {
  // `source` has the job, its session and the engine's `ask`.
  /** @param {Source} source */
  constructor(source) {
    this.source = source;
    this.text = "";
    this.tab = TABS[0].key;
    this.dialog = byId("papers-dialog");
    byId("tabs").replaceChildren(...TABS.map((tab) => this.buttonOf(tab)));
    byId("tabs").addEventListener("keydown", (event) => this.key(event));
    byId("download").addEventListener("click", () => {
      save(TABS.find(({key}) => key === this.tab)?.file ?? "l6.txt", this.text);
    });
    byId("copy").addEventListener("click", () => this.copy());
    byId("obey").addEventListener("click", () => this.open("session"));
    byId("save-session").addEventListener("click", () => {
      const {deck, input} = this.source.job();
      save("my.session", job(deck, byId("commands").value, input));
    });
  }

  /** @param {{key: string, name: string}} tab */
  buttonOf({key, name}) {
    const kind = {type: "button", role: "tab", id: `tab-${key}`, "aria-controls": "paper"};
    return make("button", {...kind, onclick: () => this.open(key)}, name);
  }

  // Arrow keys go from tab to tab.
  /** @param {KeyboardEvent} event */
  key(event) {
    const step = event.key === "ArrowRight" ? 1 : event.key === "ArrowLeft" ? -1 : 0;
    if (!step) return;
    const at = TABS.findIndex(({key}) => key === this.tab);
    const {key} = TABS[(at + step + TABS.length) % TABS.length];
    this.open(key);
    byId(`tab-${key}`).focus();
  }

  /** @param {string} tab */
  async open(tab) {
    this.tab = tab;
    if (!this.dialog.open) this.dialog.showModal();
    for (const {key} of TABS) {
      byId(`tab-${key}`).setAttribute("aria-selected", String(key === tab));
      byId(`tab-${key}`).tabIndex = key === tab ? 0 : -1;
    }
    byId("paper").setAttribute("aria-labelledby", `tab-${tab}`);
    byId("commands-part").hidden = tab !== "session";
    this.put("", "..");
    try {
      const {text, note} = await this.read(tab);
      if (tab === this.tab) this.put(text, note);
    } catch (error) {
      this.put("", errorOf(error).message);
    }
  }

  /**
   * @param {string} text
   * @param {string} note
   */
  put(text, note) {
    this.text = text;
    byId("paper").textContent =
      text.length > MOST_SHOWN ? `${text.slice(0, MOST_SHOWN)}\n.. (the download has all)` : text;
    byId("paper-note").textContent = note;
  }

  /** @param {string} tab */
  async read(tab) {
    if (tab === "asked") {
      const all = this.source.exchanges().map(({asked, answered}) => `${asked}\n----\n${answered}`);
      return {text: all.join("\n========\n"), note: "What the page asked the debugger last, and its answers"};
    }
    const answer = await this.answerFor(tab);
    return {text: answer.output, note: answer.errors.trim() || `exit status ${answer.status}`};
  }

  /** @param {string} tab */
  answerFor(tab) {
    const {ask, words} = this.source;
    const {deck, input} = this.source.job();
    switch (tab) {
      case "listing": return ask(["list"], bytesOf(job(deck, null, "")));
      case "image": return ask(["asm"], bytesOf(job(deck, null, "")));
      case "session": return ask(words("debug"), bytesOf(job(deck, byId("commands").value, input)));
      default: return ask(words("run"), bytesOf(job(deck, null, input)));
    }
  }

  // Where the browser lets nothing be copied, that is said, and the text is selected for the keys that copy.
  async copy() {
    try {
      await navigator.clipboard.writeText(this.text);
      byId("paper-note").textContent = "copied";
    } catch {
      getSelection()?.selectAllChildren(byId("paper"));
      byId("paper-note").textContent = "The browser did not let it be copied. It is selected; the download has all.";
    }
  }
}
