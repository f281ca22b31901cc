"""Each control and each key of the page, used once; none that the page has may be forgotten."""
from __future__ import annotations


from page import NOTE, Page, trial

IDS = """[...new Set([...document.querySelectorAll(
    'button[id], select, textarea, input, summary, [tabindex="0"], [role=separator]')]
    .filter(it => !it.closest('svg'))
    .map(it => it.id || it.parentElement.id))].filter(it => it).sort()"""
KEEP = """window.kept = []; window.address ??= URL.createObjectURL.bind(URL);
    URL.createObjectURL = (it) => { kept.push(it); return 'about:blank#'; };
    HTMLAnchorElement.prototype.click = function () { kept.push(this.download); };
    navigator.clipboard.writeText = (it) => { window.copied = it; return Promise.resolve(); };
    window.confirm = () => true;"""
PICKED = """(() => {
    const [all, file] = [new DataTransfer(), document.getElementById('file')];
    all.items.add(new File([' (PL)\\n'], 'x.deck'));
    file.files = all.files;
    file.dispatchEvent(new Event('change'));
})()"""
STATE, DECK = "l6.view.state.number", "document.getElementById('deck').value"
OPEN = "document.querySelector('dialog[open]')?.id ?? ''"
DETAILS = "document.getElementById('details').getBoundingClientRect().height"
SESSION = "l6.papers.open('session')"
CLICKS = "window.kept = []; URL.createObjectURL = window.address ?? URL.createObjectURL; HTMLAnchorElement.prototype.click = function() { kept.push(this.download); };"
SHARE = "document.getElementById('share').open = true;"
MORE = "document.getElementById('task-more').open = true"
ANSWERS = """document.getElementById('answers-note').textContent = '';
    document.getElementById('%s').dispatchEvent(new Event('change'))"""
TASK = "l6.tasks.open()"

# Of each control: what comes before it, what is done with it (a click; a value and an event; a key), what is
# looked at, and what that must be then. They begin at state 14 of the deck `lost`, with a breakpoint at
# statement 3.
CONTROLS: dict[str, tuple[str, object, str, object]] = {
    "example": ("0", ("list", "change"), "l6.library.example.key", "list"),
    "open": (
        "document.getElementById('file').onclick = (it) => { window.asked = 1; it.preventDefault(); }",
        "click",
        "window.asked",
        1,
    ),
    "file": (PICKED, None, DECK, " (PL)\n"),
    "save": (KEEP, "click", "kept[1]", "lost.deck"),
    "link": (KEEP, "click", "location.hash", "#lost@14!3"),
    "papers": ("0", "click", OPEN, "papers-dialog"),
    "options": ("0", "click", "document.getElementById('options').open", True),
    "store": ("0", (3, "change"), "l6.job().options.store", 3),
    "steps": ("0", (30, "change"), "l6.job().options.steps", 30),
    "output": ("0", (40, "change"), "l6.job().options.output", 40),
    "memory": (
        "document.getElementById('memory').value = 1; l6.optionChanged()",
        (2048, "change"),
        "document.getElementById('options-note').textContent",
        "",
    ),
    "every-step": ("document.getElementById('options').open = true", "click", "l6.stopsAtEvery", True),
    "letter-keys": (
        "document.getElementById('options').open = true",
        "click",
        "document.getElementById('letter-keys').checked",
        False,
    ),
    "share": ("0", "click", "document.getElementById('share').open", True),
    "save-svg": (f"{KEEP} {SHARE}", "click", "kept.at(-1)", "drawing.svg"),
    "save-png": (f"{CLICKS} {SHARE}", "click", "kept.at(-1)", "drawing.png"),
    "keep-state": (SHARE, "click", "document.querySelectorAll('#handout figure').length", 1),
    "print": (f"window.print = () => {{ window.printed = 1; }}; {SHARE}", "click", "window.printed", 1),
    "frame-code": (
        f"{SHARE} navigator.clipboard.writeText = () => Promise.resolve()", "click", NOTE,
        "The code of the frame is copied."
    ),
    "task-more": (TASK, "click", "document.getElementById('task-more').open", True),
    "task-tests": (f"{TASK}; {MORE}", ("AB", "input"), "document.getElementById('task-tests').value", "AB"),
    "task-lost": (f"{TASK}; {MORE}", "click", "l6.tasks.conditions().noLost", True),
    "task-list": (f"{TASK}; {MORE}", ("L N 3", "input"), "l6.tasks.conditions().list.length", 3),
    "task-uses": (f"{TASK}; {MORE}", ("n", "input"), "l6.tasks.conditions().uses", "N"),
    "read-answers": (TASK, "click", "document.getElementById('answers-dialog').open", True),
    "answer-files": (ANSWERS % "answer-files", None, "document.getElementById('answers-note').textContent",
                     "No file there ends in .answer."),
    "answer-folder": (ANSWERS % "answer-folder", None, "document.getElementById('answers-note').textContent",
                      "No file there ends in .answer."),
    "task": ("0", "click", OPEN, "task-dialog"),
    "lecture": ("0", "click", "document.body.className", "lecture"),
    "leave-lecture": ("l6.panes.lecture(true)", "click", "document.body.className", ""),
    "manual": ("0", "click", "document.getElementById('manual-pane').hidden", False),
    "manual-page": (
        "l6.manual.toggle()",
        ("language", "change"),
        "document.querySelector('#manual-text h1').textContent",
        "The language",
    ),
    "manual-text": ("l6.manual.toggle()", "Escape", "document.getElementById('manual-pane').hidden", True),
    "manual-close": ("l6.manual.toggle()", "click", "document.getElementById('manual-pane').hidden", True),
    "help": ("0", "click", OPEN, "help-dialog"),
    "run": ("0", "click", STATE, 21),
    "stop": ("l6.play()", "click", "l6.player.isPlaying", False),
    "back": ("0", "click", STATE, 13),
    "play": ("0", "click", "l6.player.isPlaying", True),
    "step": ("0", "click", STATE, 16),
    "speed": ("0", (40, "change"), "document.getElementById('speed').value", "40"),
    "statement": ("0", "click", STATE, 19),
    "over": ("0", "click", STATE, 16),
    "out": (
        "0",
        "click",
        NOTE,
        "No call waits for its return here.",
    ),
    "mark-back": ("l6.state(20)", "click", STATE, 14),
    "mark-next": ("l6.state(2)", "click", STATE, 14),
    "to-cursor": (
        "l6.state(2), document.getElementById('deck').setSelectionRange(110, 110)",
        "click",
        STATE,
        4,
    ),
    "start": ("0", "click", STATE, 0),
    "slider": ("0", (7, "input"), STATE, 7),
    "end": ("0", "click", STATE, 21),
    "number": ("0", (9, "change"), STATE, 9),
    "deck": ("0", (" (PO)\n", "input"), "l6.editor.deck.statements.length", 1),
    "input": (
        "0",
        ("AB", "input"),
        "document.getElementById('empty').textContent.slice(0, 22)",
        "The input has changed.",
    ),
    "printed": ("0", "focus", "document.activeElement.id", "printed"),
    "splitter": ("l6.panes.splitter.share(40)", "ArrowLeft", "document.getElementById('splitter').ariaValueNow", "38"),
    "detail": ("l6.viewer.redraw()", ("boxes", "change"), "l6.viewer.drawing.graph.isBox", True),
    "follow": ("0", "click", "l6.viewer.drawing.camera.follows", False),
    "tidy": ("0", "click", "l6.viewer.drawing.isTidy", True),
    "show-store": ("0", "click", "document.getElementById('store-pane').offsetHeight", 0),
    "show-tables": ("0", "click", "document.getElementById('details').offsetHeight", 0),
    "row-splitter": (
        f"window.height = {DETAILS}", "ArrowUp", f"Math.round(({DETAILS} - height) / innerHeight * 100)", 2
    ),
    "show-calls": (
        "await l6.library.openExample('tree'), await l6.state(137)", "click",
        "document.getElementById('call-tree').hidden", False
    ),
    "frames": ("await l6.library.openExample('tree'), await l6.state(137)", "focus",
               "document.activeElement.id", "frames"),
    "call-tree": (
        "await l6.library.openExample('tree'), await l6.state(137), document.getElementById('show-calls').click()",
        "focus", "document.activeElement.id", "call-tree"
    ),
    "unit": ("0", (3, "input"), "document.getElementById('strip').ariaLabel", "3072 free of 1024"),
    "by-size": ("0", "click", "document.getElementById('levels').hidden", False),
    "over-states": ("0", "click", "document.querySelectorAll('#history polyline').length", 3),
    "place": ("0", (1028, "input"), "document.querySelectorAll('#words .wordline').length", 4),
    "chain": ("0", ("AV", "input"), "document.getElementById('answer').textContent", "= 5 "),
    "change-back": ("l6.viewer.watch({chain: 'B'})", "click", STATE, 13),
    "change-next": ("l6.viewer.watch({chain: 'AV'})", "click", STATE, 16),
    "tab-printout": (SESSION, "click", "document.getElementById('paper').textContent.slice(0, 3)", "12\n"),
    "tab-listing": (
        SESSION,
        "click",
        "document.getElementById('paper').textContent.includes('LABELS')",
        True,
    ),
    "tab-image": (
        SESSION,
        "click",
        "document.getElementById('paper').textContent.slice(0, 12)",
        "542651554722",
    ),
    "tab-session": (
        "l6.papers.open('image')",
        "click",
        "document.getElementById('paper').textContent.slice(0, 20)",
        "AT 1.0 AFTER 4 STEPS",
    ),
    "tab-asked": (SESSION, "click", "document.getElementById('paper').textContent.slice(0, 5)", "step "),
    "paper": (SESSION, "focus", "document.activeElement.id", "paper"),
    "commands": (SESSION, ("step 2\n", "input"), "document.getElementById('commands').value", "step 2\n"),
    "obey": (
        f"document.getElementById('commands').value = 'step 3'; {SESSION}",
        "click",
        "document.getElementById('paper').textContent",
        "AT 0.3 AFTER 3 STEPS\n",
    ),
    "save-session": (f"{KEEP} {SESSION}", "click", "kept[1]", "my.session"),
    "download": (f"{KEEP} {SESSION}", "click", "kept[1]", "transcript.txt"),
    "copy": (f"{KEEP} {SESSION}", "click", "document.getElementById('paper-note').textContent", "copied"),
    "task-text": (TASK, ("Go", "input"), "document.getElementById('task-text').value", "Go"),
    "task-deck": (TASK, ("* X\n", "input"), "document.getElementById('task-deck').value", "* X\n"),
    "task-printout": (TASK, ("5", "input"), "document.getElementById('task-printout').value", "5"),
    "task-printed": (f"l6.run(); {TASK}", "click", "document.getElementById('task-printout').value", "12\n"),
    "task-link": (
        f"{KEEP} l6.run(); {TASK}; document.getElementById('task-text').value = 'Go'",
        "click",
        "document.getElementById('task-note').textContent",
        "The link is copied.",
    ),
    "task-file": (
        f"{KEEP} l6.run(); {TASK}; document.getElementById('task-text').value = 'Go'",
        "click",
        "kept[1]",
        "my.task",
    ),
    "task-try": (
        f"{KEEP} l6.run(); {TASK}; document.getElementById('task-text').value = 'Go'",
        "click",
        "document.querySelector('#exercise b').textContent",
        "Task ",
    ),
}

# Of each key: the state before it, what is looked at, and what that must be then.
KEYS: dict[str, tuple[str, str, object]] = {
    "Ctrl Enter": ("l6.state(3)", STATE, 21),
    "F8": ("0", STATE, 16),
    "Shift F8": ("0", STATE, 13),
    "F9": (
        "document.getElementById('deck').setSelectionRange(80, 80)",
        "[...l6.editor.breakpoints].join()",
        "3,0",
    ),
    "Esc": ("l6.play()", "l6.player.isPlaying", False),
    "→": ("0", STATE, 16),
    "N": ("0", STATE, 16),
    "←": ("0", STATE, 13),
    "P": ("0", STATE, 13),
    "Space": ("0", "l6.player.isPlaying", True),
    "S": ("0", STATE, 19),
    "V": ("0", STATE, 16),
    "U": ("0", NOTE, "No call waits for its return here."),
    "C": ("l6.viewer.watch({chain: 'AV'})", STATE, 16),
    "X": ("l6.viewer.watch({chain: 'B'})", STATE, 13),
    "G": ("l6.state(2)", STATE, 14),
    "B": ("l6.state(20)", STATE, 14),
    "R": ("l6.state(2), document.getElementById('deck').setSelectionRange(110, 110)", STATE, 4),
    "M": ("0", "[...l6.editor.breakpoints].length", 0),
    "Home": ("0", STATE, 0),
    "End": ("0", STATE, 21),
    "L": ("0", "document.body.className", "lecture"),
    "E": ("0", "document.activeElement.id", "deck"),
    "D": ("0", "document.activeElement.dataset.place", "1024"),
}
NAMES = {"→": "ArrowRight", "←": "ArrowLeft", "Space": " ", "Esc": "Escape"}
NAMED = """[...document.querySelectorAll('.keys tr')].filter(it => it.querySelector('kbd')).flatMap(row =>
    row.cells[0].textContent.split(/, | or /).map(it => it.trim()))"""


BEGIN = """(async () => {
    for (const it of document.querySelectorAll('dialog[open]')) it.close();
    l6.panes.lecture(false);
    if (l6.manual.isOpen) l6.manual.toggle();
    l6.pause();
    for (const it of document.querySelectorAll('input[type=checkbox]')) it.checked = /letter-keys|follow/.test(it.id);
    const values = {memory: 1024, detail: 'auto', 'task-text': '', 'task-printout': ''};
    for (const [id, value] of Object.entries(values)) document.getElementById(id).value = value;
    l6.viewer.drawing.detail = 'auto';
    l6.viewer.drawing.camera.follows = true;
    l6.viewer.drawing.replan();
    l6.panes.splitter.share(null);
    l6.panes.chosen = new Map([['tables', true], ['store', true]]);
    l6.panes.showRows();
    for (const id of ['options', 'share', 'task-more']) document.getElementById(id).open = false;
    for (const id of ['task-tests', 'task-list', 'task-uses']) document.getElementById(id).value = '';
    l6.pictures.forget();
    l6.library.isChanged = false;
    l6.library.openExample('lost');
    l6.setBreakpoints([3]);
    await l6.state(14);
    document.activeElement.blur();
    l6.tell('');
})()"""


def begin(page: Page) -> None:
    """The same state before each."""
    page.value(BEGIN)


def use(page: Page, name: str, act: object) -> None:
    """Uses a control."""
    selector = f"#{name} summary" if name in ("options", "share", "task-more") else f"#{name}"
    if act == "click":
        page.browser.click(selector)
    elif isinstance(act, tuple):
        page.fill(name, *act)
    elif act is not None:
        page.focus(name)
        if act != "focus":
            page.browser.key(str(act))


@trial
def each_control(page: Page) -> None:
    page.open()
    page.same("the controls that are tried are those that the page has", page.value(IDS), sorted(CONTROLS))
    for name, (before, act, looks, want) in CONTROLS.items():
        begin(page)
        page.value(f"void ({{async go() {{ {before}; }}}}).go()")
        page.browser.wait("!l6.isBusy && !l6.engine.isBusy")
        use(page, name, act)
        page.becomes(f"the control {name}", looks, want)
        page.settle()
    begin(page)
    page.value("l6.library.isChanged = false")


@trial
def each_key(page: Page) -> None:
    page.open()
    page.same(
        "the keys that are tried are those that the help names", sorted(set(page.value(NAMED))), sorted(KEYS)
    )
    for name, (before, looks, want) in KEYS.items():
        begin(page)
        page.do(f"({before})")
        page.browser.wait("!l6.isBusy")
        *held, key = name.split(" ")
        modifiers = {"Ctrl": 2, "Shift": 8}.get(held[0] if held else "", 0)
        key = NAMES.get(key, key.lower() if len(key) == 1 else key)
        page.browser.key(key, modifiers=modifiers)
        page.becomes(f"the key {name}", looks, want)
        page.settle()
    begin(page)


@trial
def other_ways(page: Page) -> None:
    """Keys behind a dialog, with Alt and with Shift; clicks with Shift, on units and by size."""
    page.open()
    begin(page)
    page.value("document.getElementById('help-dialog').showModal()")
    page.key("n")
    page.same("no key works behind a dialog", page.state(), 14)
    page.value("document.getElementById('help-dialog').close()")
    page.key("ArrowLeft", modifiers=1)
    page.same("Alt and an arrow are the browser's", page.state(), 14)
    page.focus("number")
    page.key("n")
    page.same("no letter is a key in a box", page.state(), 14)
    x, y = page.value(
        "(({x, y, width, height}) => [x + width / 2, y + height / 2])"
        "(document.querySelector('#gutter button').getBoundingClientRect())"
    )
    page.browser.click_at(x, y, modifiers=8)
    page.browser.wait("!l6.isBusy")
    page.same(
        "Shift and a click run to the statement",
        [page.state(), page.value("[...l6.editor.breakpoints].length")],
        [21, 1],
    )
    page.do("l6.state(14)")
    page.key("d")
    for key, place in (
        ("ArrowDown", "1026"),
        ("ArrowUp", "1024"),
        ("ArrowRight", "1026"),
        ("ArrowLeft", "1024"),
    ):
        page.browser.key(key)
        page.same(f"{key} in the drawing", page.value("document.activeElement.dataset.place"), place)
    page.browser.key("h")
    page.browser.wait("!l6.isBusy && l6.session.hidden.length === 1")
    page.same("H hides a bug", page.value("l6.session.hidden"), ["A"])
    begin(page)
    page.browser.click("#strip")
    page.browser.wait("true")
    x, y = page.value(
        "(({x, y}) => [x + 3, y + 10])(document.getElementById('strip').getBoundingClientRect())"
    )
    page.browser.click_at(x, y)
    page.same("a click in the strip chooses a block", page.box("place"), "1024")
    x, y, width = page.value(
        "(({x, y, width}) => [x, y, width])(document.getElementById('units').getBoundingClientRect())"
    )
    page.browser.click_at(x + width * 0.9, y + 5)
    page.same("a click chooses a unit", page.box("unit"), "8")
    page.value("document.getElementById('by-size').click(), l6.viewer.strip.pickUnit(0)")
    x, y = page.value(
        "(({x, y}) => [x + 60, y + 151])(document.getElementById('levels').getBoundingClientRect())"
    )
    page.browser.click_at(x, y)
    page.same("a click by size", page.box("place"), "1024")


