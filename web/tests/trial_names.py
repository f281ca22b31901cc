"""Trials of what each part of the page is called, what it is for a screen reader, what its box takes, and which key does the same."""
from __future__ import annotations

import json
import re

from page import Page, trial

# Of each control what a screen reader gets: its role, its name, and what its title adds.
HEAD = {
    ".skip": ("link", "To the deck", ""), "#example": ("combobox", "Example or exercise", ""),
    "#open": ("button", "Open", "Open a deck or a task from a file"), "#save": ("button", "Save", "Save deck and input as a file"),
    "#link": ("button", "Link", "Copy a link with deck, input, options, breakpoints and state"), "#papers": ("button", "Listing, image & session", ""),
    "#share summary": ("DisclosureTriangle", "Share ▾", ""), "#options summary": ("DisclosureTriangle", "Options ▾", ""),
    "#store": ("spinbutton", "Units of the store, of 1,024 words", ""), "#steps": ("spinbutton", "Steps at most", ""),
    "#output": ("spinbutton", "Bytes of output at most", ""), "#memory": ("spinbutton", "Memory of the program, in MiB", ""),
    "#every-step": ("checkbox", "Stop also after steps that show nothing: the begin of a statement without a condition, and an end without an exit", ""),
    "#letter-keys": ("checkbox", "Single letters are keys, as N for a step", ""), "#task": ("button", "Task", "Make an exercise of your own"),
    "#lecture": ("button", "Lecture", "Deck, drawing and place alone, in large letters (L)"), "#manual": ("button", "Manual", "The manual, beside the page"),
    "#help": ("button", "Help", ""), "h1 svg": ("image", "L6", ""),
}
RUN = {
    ".controls": ("group", "Run", ""), "#run": ("button", "Run", "Run the deck to its end (Ctrl+Enter)"), "#stop": ("button", "Stop", "Stop what is running (Esc)"),
    "#back": ("button", "Back", "A step back (← or P)"), "#play": ("button", "Play", "Play and pause (Space)"), "#step": ("button", "Step", "A step on (→ or N)"),
    "#speed": ("combobox", "Speed", ""), "#statement": ("button", "Statement", "On to the next statement (S)"),
    "#over": ("button", "Over", "A step on; a call is done as a whole (V)"), "#out": ("button", "Out", "On to the return of the latest call (U)"),
    "#mark-back": ("button", "Break before", "Back to the breakpoint before (B)"), "#mark-next": ("button", "Next break", "On to the next breakpoint (G)"),
    "#to-cursor": ("button", "To cursor", "On to the statement with the cursor (R)"), "#start": ("button", "Start", "To the start (Home)"),
    "#slider": ("slider", "State", ""), "#end": ("button", "End", "To the end (End)"), "#number": ("spinbutton", "Number of the state", ""),
}
BOARD = {
    "#left": ("region", "Deck", ""), "#deck": ("textbox", "Deck, a card on each line", ""), "#input": ("textbox", "Input: put data of your own here", ""),
    "#printed": ("generic", "Printed so far", ""), "#splitter": ("separator", "Width of the deck", "Drag, or press ← and →; a double click puts it back"),
    ".right": ("region", "Run", ""), "#legend": ("group", "Fields, and where their links lead", ""), "#hidden-bugs": ("group", "Bugs that are not drawn", ""),
    "#detail": ("combobox", "Blocks", ""), "#camera": ("group", "What of the drawing is seen", ""),
    "#camera button:nth-child(1)": ("button", "All of the drawing; again, the blocks that are there now (0)", "All of the drawing; again, the blocks that are there now (0)"),
    "#camera button:nth-child(2)": ("button", "Nearer (+)", "Nearer (+)"), "#camera button:nth-child(3)": ("button", "Further away (-)", "Further away (-)"),
    "#follow": ("checkbox", "follow", ""), "#tidy": ("button", "Tidy", "A picture of the blocks that are there now; again, that of the whole run"),
    "#show-calls": ("button", "Tree", "All calls of the run, as a tree"), "#frames": ("region", "Calls that wait, and what is saved", ""),
    "#call-tree": ("region", "All calls of the run", ""), "#row-splitter": ("separator", "Height of the tables", "Drag, or press ↑ and ↓; a double click puts it back"),
    "#bug-strip": ("group", "Bugs", ""), "#chain": ("textbox", "Chain", "Where a chain leads: it is lit in the drawing"),
    "#show-store": ("button", "Store", "The store, below the drawing"),
    "#show-tables": ("button", "Tables", "Bugs, fields, and the words of a block, below the drawing"),
    "#store-text": ("generic", "", "words used, words free, and the largest free piece"), "#unit": ("spinbutton", "unit", "Unit of the store that is shown"),
    "#by-size": ("checkbox", "by size", ""), "#over-states": ("checkbox", "graph", ""), "#units": ("image", "8 units of 1,024 words; unit 1 is shown below", ""),
    "#bugs": ("table", "Bugs", ""), "#bugs th": ("rowheader", "A", ""), "#place": ("spinbutton", "Place of the block", ""),
    ".changes-of": ("group", "Changes of what is chosen", ""), "#change-back": ("button", "‹ Change", "Back to the change before (X)"),
    "#change-next": ("button", "Change ›", "On to the next change (C)"),
}
PAPERS = {
    "#papers-dialog": ("dialog", "What the program writes", ""), "#papers-dialog form button": ("button", "Close", ""), "#tabs": ("tablist", "", ""),
    "#tab-printout": ("tab", "Printout", ""), "#tab-listing": ("tab", "Listing", ""), "#tab-image": ("tab", "Image", ""), "#tab-session": ("tab", "Session", ""),
    "#tab-asked": ("tab", "Asked and answered", ""), "#commands": ("textbox", "Commands of the debugger, one a line", ""), "#obey": ("button", "Obey", ""),
    "#save-session": ("button", "Save deck and commands", ""), "#paper": ("tabpanel", "Session", ""), "#download": ("button", "Download", ""),
    "#copy": ("button", "Copy", ""), "#paper-note": ("status", "", ""),
}
TASK = {
    "#task-dialog": ("dialog", "A task", ""), "#task-dialog form button": ("button", "Close", ""), "#task-text": ("textbox", "What is to be done", ""),
    "#task-deck": ("textbox", "Deck to begin with", ""), "#task-printout": ("textbox", "What it is to print", ""),
    "#task-more summary": ("DisclosureTriangle", "Hidden inputs, and conditions at the end ▾", ""),
    "#task-tests": ("textbox", "Hidden inputs, parted by lines of ---. The deck of the page, which solves the task, says what is printed", ""),
    "#task-lost": ("checkbox", "No block is lost", ""), "#task-list": ("textbox", "A list: its bug, its field and how many blocks, as L N 5", ""),
    "#task-uses": ("textbox", "A field that is used", ""), "#task-printed": ("button", "Take what was printed", ""), "#task-link": ("button", "Copy a link", ""),
    "#task-file": ("button", "Save as a file", ""), "#task-try": ("button", "Try it", ""), "#read-answers": ("button", "Read answers", ""),
    "#task-note": ("status", "", ""),
}
ANSWERS = {
    "#answers-dialog": ("dialog", "Answers of a class", ""), "#answers-dialog form button": ("button", "Close", ""),
    "#answer-files": ("button", "Files", ""), "#answer-folder": ("button", "Folder", ""), "#answers-note": ("status", "", ""),
}
SHARE = {
    "#save-svg": ("button", "Picture as SVG", ""), "#save-png": ("button", "Picture as PNG", ""), "#keep-state": ("button", "Keep this state for print", ""),
    "#print": ("button", "Print deck, states and printout", ""), "#frame-code": ("button", "Copy a frame for another page", ""),
}
EXERCISE = {
    "#exercise pre": ("generic", "What it is to print", ""), "#verdict": ("status", "", ""), "#answer-name": ("textbox", "Your name", ""),
    "#hand-in": ("button", "Save answer", ""),
}
LECTURE = {"#leave-lecture": ("button", "Whole page", "Back to the whole page (L)"), "#printed-strip": ("status", "Printed", ""), "#cards": ("list", "Deck", "")}
MANUAL = {"#manual-pane": ("complementary", "Manual", ""), "#manual-page": ("combobox", "Page", ""), "#manual-close": ("button", "Close the manual", "")}
# How they are reached: what is done before, and what has the names then.
PARTS: list[tuple[str, dict[str, tuple[str, str, str]]]] = [
    ("document.getElementById('show-calls').click(), l6.panes.open('store'), l6.panes.open('tables'), document.getElementById('options').open = true",
     HEAD | RUN | BOARD),
    ("document.getElementById('share').open = true", SHARE), ("l6.manual.toggle()", MANUAL), ("l6.manual.toggle(), l6.papers.open('session')", PAPERS),
    ("document.getElementById('papers-dialog').close(), l6.tasks.open(), document.getElementById('task-more').open = true", TASK),
    ("document.getElementById('answers-dialog').showModal()", ANSWERS),
    ("document.querySelectorAll('dialog[open]').forEach(it => it.close()), l6.library.openExample('exercise-1')", EXERCISE),
    ("l6.panes.lecture(true)", LECTURE), ("l6.panes.lecture(false), l6.library.isChanged = false", {"#run": RUN["#run"]}),
]
# What else is said of some: what opens a dialog or a part of the page, which part that is, and ranges.
KINDS: dict[str, dict[str, object]] = {
    "#papers": {"hasPopup": "dialog"}, "#task": {"hasPopup": "dialog"}, "#help": {"hasPopup": "dialog"},
    "#lecture": {"pressed": "false"}, "#manual": {"expanded": False}, "#tidy": {"pressed": "false"}, "#show-calls": {"expanded": False},
    "#show-store": {"pressed": "true", "controls": "store-pane"}, "#show-tables": {"pressed": "true", "controls": "details"},
    "#splitter": {"orientation": "vertical", "valuemin": 20, "valuemax": 75, "controls": "left"},
    "#row-splitter": {"orientation": "horizontal", "valuemin": 8, "valuemax": 60, "controls": "details"},
    "#deck": {"describedby": "fault", "multiline": True}, "#store": {"valuemin": 1, "valuemax": 255}, "#steps": {"valuemin": 0, "valuemax": 1_000_000_000},
    "#output": {"valuemin": 0, "valuemax": 16_777_216}, "#memory": {"valuemin": 1, "valuemax": 2048}, "#unit": {"valuemin": 1, "valuemax": 8},
}
# Attributes that no screen reader gets: what a box takes, and what the browser is told of it.
ATTRIBUTES: dict[str, dict[str, str | None]] = {
    "html": {"lang": "en"}, "meta[name=viewport]": {"content": "width=device-width, initial-scale=1"}, ".skip": {"href": "#deck"},
    "#chain": {"maxlength": "6", "placeholder": "ANV", "spellcheck": "false", "autocapitalize": "characters"},
    "#deck": {"wrap": "off", "spellcheck": "false", "autocapitalize": "off", "autocomplete": "off"},
    "#input": {"wrap": "off", "spellcheck": "false", "autocapitalize": "off"}, "#commands": {"placeholder": "break 3\ngo\ndraw", "spellcheck": "false"},
    "#task-list": {"maxlength": "12"}, "#task-uses": {"maxlength": "1"}, "#answer-files": {"accept": ".answer", "multiple": "", "webkitdirectory": None},
    "#answer-folder": {"webkitdirectory": ""}, "#show-calls": {"aria-controls": "call-tree"}, "#manual": {"aria-controls": "manual-pane"},
    "#tab-image": {"aria-controls": "paper"}, "label:has(#follow)": {"title": "Move the drawing to what has changed"}, "#printed": {"tabindex": "0"},
    "#paper": {"tabindex": "0"}, "#manual-text": {"tabindex": "0"}, "#units": {"role": "img"}, "#strip": {"role": "img"}, "#levels": {"role": "img"},
}
CHOICES = {
    "speed": [["1500", "slow"], ["600", "normal"], ["200", "fast"], ["40", "faster"]],
    "detail": [["auto", "automatic"], ["cards", "with words"], ["boxes", "small"]],
}
ICONS = {
    "run": "run", "stop": "stop", "back": "back", "play": "play", "step": "step", "statement": "statement", "over": "over", "out": "out",
    "mark-back": "mark-back", "mark-next": "mark", "to-cursor": "cursor", "start": "start", "end": "end",
}
# Takes note of what the page is asked for, in place of doing it.
NOTED = """(() => {
    window.noted = [];
    const note = (of, names) => names.forEach(name => of[name] = (...more) => noted.push([name, ...more]));
    note(l6, ['run', 'stop', 'back', 'play', 'step', 'statement', 'over', 'out', 'change', 'breakpointBefore', 'nextBreakpoint', 'runTo', 'state', 'end']);
    note(l6.panes, ['lecture']);
    Object.defineProperty(l6, 'isRunning', {value: true});
    note(l6.viewer.drawing.camera, ['zoom', 'fitInTurn']);
})()"""
PRESSED = {"←": "ArrowLeft", "→": "ArrowRight", "Space": " ", "Esc": "Escape"}
WITH_KEYS = ["run", "stop", "back", "play", "step", "statement", "over", "out", "mark-back", "mark-next", "to-cursor", "start", "end", "lecture",
             "change-back", "change-next"]
# The rows of keys in the help: the keys, and what they are for.
HELP = [
    ("Ctrl Enter", "run the deck to its end, also while you type"), ("F8, Shift F8", "a step on, a step back, also while you type"),
    ("F9", "set a breakpoint at the statement with the cursor, or remove it"), ("Esc", "stop; leave a text box, so that the keys below count"),
    ("→ or N, ← or P", "a step on, a step back"), ("Space", "play and pause"), ("S", "on to the next statement"),
    ("V, U", "a step over a call, and out of a subroutine to its return"),
    ("C, X", "on to the next change of the bug, field or chain that is chosen, back to the one before"),
    ("G, B", "on to the next breakpoint, back to the one before"), ("R", "on to the statement with the cursor"),
    ("M", "set a breakpoint at the statement where the run is"), ("Home, End", "to the start, to the end"),
    ("L", "lecture: deck, drawing and place alone, in large letters; and back"),
    ("E, D", "to the deck, to the drawing; there arrow keys go from block to block, H hides the bug that leads to one, F folds what is below it; "
             "+, − and 0 come nearer, go away and show all, or, pressed again, the blocks that are there now; Shift and an arrow move the drawing"),
]


@trial
def what_each_control_is(page: Page) -> None:
    """A screen reader gets the role, the name and the title of each control, and whether it opens or is pressed."""
    page.browser.resize(1920, 1080)
    page.open("#tree@137")
    for selector, want in KINDS.items():
        page.value("document.getElementById('options').open = true, l6.panes.open('store'), l6.panes.open('tables')")
        found = page.browser.spoken(selector)
        page.same(f"how {selector} is", {name: found.get(name) for name in want}, want)
    for before, names in PARTS:
        page.value(f"void ({before})")
        page.settle()
        for selector, named in names.items():
            found = page.browser.spoken(selector)
            page.same(f"{selector} to a screen reader", (found["role"], found.get("name"), found.get("description")), named)
    page.browser.resize(1400, 900)


@trial
def what_boxes_take(page: Page) -> None:
    """What a box takes and says, which icon a button has, and what the menus of speeds and blocks have."""
    page.open()
    for selector, want in ATTRIBUTES.items():
        got = page.value(f"(it => {json.dumps(list(want))}.map(name => it.getAttribute(name)))(document.querySelector({json.dumps(selector)}))")
        page.same(f"attributes of {selector}", dict(zip(want, got, strict=True)), want)
    for name, choices in CHOICES.items():
        page.same(f"the choices of {name}", page.value(f"[...document.getElementById('{name}').options].map(it => [it.value, it.text])"), choices)
    page.same("the first speed", page.box("speed"), "600")
    for name, icon in ICONS.items():
        page.same(f"the icon of {name}", page.value(f"document.querySelector('#{name} use').getAttribute('href')"), f"#i-{icon}")
        page.same("which is there", page.count(f"symbol#i-{icon} path"), 1)


@trial
def keys_that_titles_name(page: Page) -> None:
    """The key that is in the title of a button does what the button does; the help says of each key what it does."""
    page.open("#tree@137")
    page.value("l6.panes.open('tables'), l6.viewer.watch({chain: 'A'})")
    page.value(NOTED)
    camera = [f"#camera button:nth-child({at})" for at in (1, 2, 3)]
    for selector in (*(f"#{it}" for it in WITH_KEYS), *camera):
        page.value("document.getElementById('stop').setAttribute('aria-disabled', 'false')")
        page.value(f"noted.length = 0, document.querySelector('{selector}').click()")
        by_click = page.value("noted")
        keys = re.search(r"\(([^()]+)\)$", page.value(f"document.querySelector('{selector}').title"))
        named = keys[1].split(" or ") if keys else []
        page.same(f"one thing by {selector}, which names its key", [len(by_click), bool(named)], [1, True])
        for key in named:
            *held, last = key.split("+") if len(key) > 1 else [key]
            page.value("noted.length = 0, document.activeElement.blur()")
            if selector in camera:
                page.value("l6.viewer.drawing.focusBlock()")
            page.browser.key(PRESSED.get(last, last.lower() if len(last) == 1 else last), modifiers=2 if held else 0)
            got = page.value("noted")
            page.same(f"{key} of {selector}", [it[0] for it in got] if selector in camera else got, [it[0] for it in by_click] if selector in camera else by_click)
    page.open()
    rows = page.value("[...document.querySelectorAll('.keys tr')].filter(it => it.querySelector('kbd'))"
                      ".map(it => [...it.cells].map(cell => cell.textContent.replace(/\\s+/g, ' ').trim()))")
    page.same("the keys in the help", [tuple(it) for it in rows], HELP)
