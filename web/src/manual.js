// The manual beside the page: pages of docs/, made into markup when the page was made. They are part of the
// page, as its own markup is; nothing of a deck goes into them.

import {byId, make} from "./dom.js";

export class Manual {
  /**
   * `pages` have a name, a title and their markup.
   * @param {{name: string, title: string, markup: string}[]} pages
   */
  constructor(pages) {
    this.pages = pages;
    /** @type {string | null} */
    this.shown = null;
    byId("manual-page"
    ).replaceChildren(...pages.map(({name, title}) => make("option", {value: name}, title)));
    byId("manual-page").addEventListener("change", () => this.show(byId("manual-page").value));
    byId("manual-close").addEventListener("click", () => this.toggle());
    byId("manual-text").addEventListener("click", (event) => this.follow(event));
    byId("manual-pane").addEventListener("keydown", (event) => event.key === "Escape" && this.toggle());
  }

  get isOpen() {
    return !byId("manual-pane").hidden;
  }

  toggle() {
    byId("manual-pane").hidden = this.isOpen;
    byId("manual").setAttribute("aria-expanded", String(this.isOpen));
    document.body.classList.toggle("has-manual", this.isOpen);
    if (!this.isOpen) return byId("manual").focus();
    if (!this.shown) this.show(this.pages[0].name);
    return byId("manual-text").focus();
  }

  // Shows a page, and of it the part with an anchor.
  /**
   * @param {string} name
   * @param {string} anchor
   */
  show(name, anchor = "") {
    const page = this.pages.find((it) => it.name === name);
    if (!page) return;
    if (this.shown !== name) byId("manual-text").innerHTML = page.markup;
    this.shown = name;
    byId("manual-page").value = name;
    byId("manual-text").scrollTop = 0;
    if (anchor) byId("manual-text").querySelector(`#${CSS.escape(anchor)}`)?.scrollIntoView();
  }

  // Links lead to other pages of the manual, or to decks of this page; all else opens beside.
  /** @param {MouseEvent} event */
  follow(event) {
    const link = event.target instanceof Element ? event.target.closest("a") : null;
    if (!link) return;
    const found = /^(?:(\w[\w-]*)\.md)?(?:#(.*))?$/.exec(link.getAttribute("href") ?? "");
    const deck = /l6\.html(#[\w@!,;-]+)$/.exec(link.getAttribute("href") ?? "");
    event.preventDefault();
    if (deck && location.hash === deck[1])
      window.dispatchEvent(new Event("hashchange")); // (of the same address the browser says nothing)
    else if (deck)
      location.hash = deck[1];
    else if (found && (!found[1] || this.pages.some(({name}) => name === found[1])))
      this.show(found[1] ?? this.shown ?? "", found[2]);
    else
      window.open(link.href, "_blank", "noopener");
  }
}
