// What the page shows, as values that a trial compares: `seen()` reads the document alone.
void (window.seen = () => {
  const by = (id) => document.getElementById(id);
  const all = (selector, of = document) => [...of.querySelectorAll(selector)];
  const textOf = (id) => by(id).textContent;
  const isChanged = (element) => element.classList.contains("changed");
  // Where a mark in the deck is: its card and its columns, measured by the letters of the deck.
  const spotOf = (mark) => {
    if (!mark) return null;
    const deck = by("deck"), style = getComputedStyle(deck), box = deck.getBoundingClientRect();
    const pen = document.createElement("canvas").getContext("2d");
    pen.font = style.font;
    const letter = pen.measureText("0".repeat(100)).width / 100;
    const at = mark.getBoundingClientRect();
    const left = at.left - box.left - parseFloat(style.paddingLeft) + deck.scrollLeft;
    const top = at.top - box.top - parseFloat(style.paddingTop) + deck.scrollTop;
    const columns = [left, left + at.width].map((it) => Math.round(it / letter));
    return [Math.round(top / parseFloat(style.lineHeight)), ...columns];
  };
  const bitsOf = (id) => all(`#${id} .bits button`).map((it) => {
    const {left, width} = it.style;
    return [it.textContent, ...[left, width].map((part) => Math.round(parseFloat(part) * 0.36)), isChanged(it)];
  });
  // A block: its place, whether it is lost and new, what is spoken of it, and of a card each cell: its first bit, its
  // width in bits, what it holds, and whether that has changed.
  const blockOf = (element) => {
    const {classList, dataset: {place}} = element;
    const cells = all(".cell", element).map((it) => {
      const window = it.querySelector(".window"), number = (name) => Number(window.getAttribute(name));
      return [(number("x") - 1) / 4, (number("width") + 2) / 4, it.querySelector("title").textContent, isChanged(it)];
    });
    const isCard = Boolean(element.querySelector(".size"));
    return [place, classList.contains("lost"), classList.contains("new"), element.getAttribute("aria-label"), isCard ? cells : null];
  };
  const uses = by("changes").querySelector(".misuse")?.textContent ?? "";
  const changes = by("changes").cloneNode(true);
  for (const it of all(".misuse, .ending", changes)) it.remove();
  return {
    where: textOf("where"),
    next: by("next").querySelector("code")?.textContent ?? "",
    bugs: all("#bugs tr").filter((it) => it.cells.length > 1).map((it) => [
      it.cells[0].textContent, it.cells[1].textContent, it.cells[2].textContent, it.cells[3]?.textContent ?? "", isChanged(it)
    ]),
    strip: all("#bug-strip button").map((it) => [it.textContent, isChanged(it)]),
    cards: all(".bug-cards > div").map((it) => [...[...it.children].map((one) => one.textContent), isChanged(it)]),
    amounts: textOf("amounts"),
    fields: all("#fields .wordline").map((it) => [...it.children].map((one) => one.textContent)),
    bits: bitsOf("fields").sort((a, b) => (a[0] < b[0] ? -1 : 1)),
    number: [by("number").value, by("slider").value],
    of: textOf("of"),
    slider: [by("slider").max, by("slider").getAttribute("aria-valuetext")],
    disabled: all(".controls button[aria-disabled=true]").map((it) => it.id).sort(),
    store: textOf("store-text"),
    frames: all("#frames li").map((it) => it.textContent),
    calls: by("calls").hidden ? null : by("frames").querySelector("h3, p").textContent,
    blocks: all("#drawing .block:not(.ghost)").map(blockOf).sort((a, b) => a[0] - b[0]),
    arrows: all("#drawing .arrow").map(({dataset, classList}) => [
      dataset.from, dataset.field, dataset.to, classList.contains("broken"), classList.contains("changed")
    ]),
    pills: all("#drawing .pill").map((it) => [it.dataset.bug, isChanged(it), it.classList.contains("broken")]).sort(),
    drawing: document.querySelector("#drawing > .picture").getAttribute("aria-label"),
    lost: by("warnings").title.split("\n").find((it) => it.startsWith("Lost: ")) ?? "",
    kinds: all("#legend > span").map((it) => [it.firstChild.textContent.replace(/ [→←↓]$/, ""), it.dataset.kind]),
    spoken: textOf("spoken").replace(uses && `${uses}. `, ""), // (the model knows of no use after free)
    unit: Number(by("unit").value) - 1,
    pieces: by("strip").getAttribute("aria-label"),
    spot: spotOf(document.querySelector(".under .spot.at")),
    card: by("card").hidden ? "" : by("card").querySelector("b").textContent,
    "whole card": by("card").hidden ? "" : textOf("card"),
    "before what comes next": by("next").firstChild?.textContent ?? "",
    label: textOf("printed-label"),
    looks: [by("now").classList.contains("trapped"), by("board").classList.contains("vacant")],
    printed: [...by("printed").childNodes].map((it) => it.textContent),
    "in a line": [...by("printed-strip").childNodes].map((it) => it.textContent),
    changes: changes.textContent.trim(),
    "all changes": by("changes").title.split("\n").filter((it) => it && !/leads to \d+, freed at state/.test(it))
  };
});
