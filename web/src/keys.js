// Keys: some work everywhere, others outside of text boxes.

import {byId} from "./dom.js";

// The keys that work everywhere.
/**
 * @param {import("./typing.js").Typing} page
 * @param {HTMLElement} target
 * @param {boolean} isTyping
 * @returns {Record<string, () => void>}
 */
function everywhere(page, target, isTyping) {
  return {
    "Ctrl Enter": () => page.run(),
    "Meta Enter": () => page.run(),
    F8: () => page.step(),
    "Shift F8": () => page.back(),
    F9: () => page.toggle(page.editor.statementAtCursor()),
    Escape: () => escape(page, target, isTyping),
  };
}

/**
 * @param {import("./typing.js").Typing} page
 * @param {HTMLElement} target
 * @param {boolean} isTyping
 */
function escape(page, target, isTyping) {
  const open = ["options", "share"].find((id) => byId(id).open);
  if (open)
    byId(open).open = false;
  else if (page.isRunning)
    page.stop();
  else if (isTyping)
    target.blur();
  else
    page.panes.lecture(false);
}

// Those that work where nothing is typed.
/**
 * @param {import("./typing.js").Typing} page
 * @returns {Record<string, () => void>}
 */
function outside(page) {
  return {
    ArrowRight: () => page.step(),
    n: () => page.step(),
    ArrowLeft: () => page.back(),
    p: () => page.back(),
    " ": () => page.play(),
    g: () => page.nextBreakpoint(),
    b: () => page.breakpointBefore(),
    r: () => page.runTo(page.editor.statementAtCursor()),
    s: () => page.statement(),
    v: () => page.over(),
    u: () => page.out(),
    c: () => page.change(true),
    x: () => page.change(false),
    l: () => page.panes.lecture(!page.panes.isLecture),
    m: () => page.markHere(),
    Home: () => page.state(0),
    End: () => page.end(),
    e: () => byId("deck").focus(),
    d: () => page.viewer.drawing.focusBlock(),
  };
}

/**
 * @param {import("./typing.js").Typing} page
 * @param {KeyboardEvent} event
 */
export function press(page, event) {
  const {key} = event;
  const target = /** @type {HTMLElement} */ (event.target);
  if (document.querySelector("dialog[open]") || byId("manual-pane").contains(target)) return;
  const kind = target instanceof HTMLInputElement ? target.type : "";
  const isBox = target.tagName === "INPUT" && !/^(checkbox|range)$/.test(kind);
  const isTyping = isBox || /^(TEXTAREA|SELECT)$/.test(target.tagName);
  // (arrows move the slider; Home and End go to the run's own, which it may not know yet)
  const isControl = kind === "range" && /^Arrow/.test(key);
  if (isControl) return;
  const isPressable = /^(BUTTON|SUMMARY)$/.test(target.tagName) || kind === "checkbox";
  const isPressed = isPressable && (key === " " || key === "Enter");
  const held =
    [event.ctrlKey && "Ctrl", event.metaKey && "Meta", event.shiftKey && key.length > 1 && "Shift"];
  const isLetter = key.length === 1 && key !== " ";
  const name = [...held, key].filter((it) => it).join(" ");
  const others =
    isTyping || isPressed || event.altKey || (isLetter && !byId("letter-keys").checked) ? {} : outside(page);
  const what = everywhere(page, target, isTyping)[name] ?? others[name] ?? others[name.toLowerCase()];
  if (!what) return;
  event.preventDefault();
  what();
}
