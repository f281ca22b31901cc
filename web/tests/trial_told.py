"""Trials of notes, of controls that do nothing now, of keys that are none, and of what opens and closes."""
from __future__ import annotations

import json

from page import NOTE, Page, trial
from trial_class import change
from trial_controls import KEEP, SESSION

STATE = "l6.view?.state.number ?? -1"
DISABLED = "document.getElementById('stop').getAttribute('aria-disabled')"
PLAY = "[document.querySelector('#play span').textContent, document.querySelector('#play use').getAttribute('href')]"
# Each: what is done, and the note then. They follow one another, from state 14 of the deck `lost` on.
TOLD = [
    ("l6.toggle(3)", "statement 3 has a breakpoint"),
    ("l6.toggle(3)", "statement 3 has no breakpoint any more"),
    ("l6.nextBreakpoint()", "No statement has a breakpoint: click the number of one."),
    ("l6.breakpointBefore()", "No statement has a breakpoint: click the number of one."),
    ("l6.change(true)", "Choose what is to be followed: click a bug or a field, or type a chain."),
    ("(l6.viewer.watch({chain: 'C'}), l6.change(true))", "C does not change any more."),
    ("l6.change(false)", "C does not change before this state."),
    ("(l6.viewer.watch({definition: 'V'}), l6.change(true))", "field V does not change any more."),
    ("(l6.viewer.watch({place: 1024, field: 'N'}), l6.state(21).then(() => l6.change(true)))", "N of 1024 does not change any more."),
    ("l6.out()", "No call waits for its return here."),
    ("l6.state(99)", "There is no state 99: the last one is 21."),
    ("l6.pictures.keep()", "State 21 will be printed."),
    ("l6.put({deck: ' DONE\\n'})", ""),
    ("l6.pictures.saveSvg()", "Nothing is drawn yet."),
    ("l6.pictures.keep()", "Nothing is drawn yet."),
    ("l6.library.openFile(new File([' (PL)\\n'], 'mine.deck'))", "opened mine.deck"),
]
# Of each option a number that is too small, the least, the greatest, and one that is too large; and its name.
INVALID = "[...document.querySelectorAll('[aria-invalid=true]')].map(it => it.id)"
RANGES = {
    "store": (0, 1, 255, 256, "Units of the store: a number from 1 to 255, and not “{}”."),
    "steps": (-1, 0, 1_000_000_000, 1_000_000_001, "Steps: a number from 0 to 1,000,000,000, and not “{}”."),
    "output": (-1, 0, 16_777_216, 16_777_217, "Bytes of output: a number from 0 to 16,777,216, and not “{}”."),
    "memory": (0, 1, 2048, 2049, "Memory: a number from 1 to 2,048, and not “{}”."),
}
DEFAULTS = {"store": 8, "steps": 1_000_000, "output": 1_048_576, "memory": 1024}
# What is shown of a run, where nothing of one is to be shown.
LEFT = """['next', 'changes', 'bugs', 'bug-strip', 'fields', 'words', 'led', 'answer', 'printed', 'printed-strip', 'frames', 'trap',
    'legend', 'hidden-bugs', 'store-text', 'amounts', 'warnings', 'of'].filter(it => document.getElementById(it).textContent)
    .concat(document.querySelectorAll('#drawing .block, #drawing .arrow, #drawing .pill, .spot.at, #gutter .at').length ? ['marks'] : [])
    .concat(['card', 'calls', 'call-tree', 'trap'].filter(it => !document.getElementById(it).hidden))"""
SHOWN = {"next", "bugs", "bug-strip", "fields", "words", "answer", "frames", "legend", "store-text", "of", "marks", "card", "calls", "call-tree"}
# Files of the dialog of what the program writes.
PAPERS = {"printout": "printout.txt", "listing": "listing.txt", "image": "deck.image", "session": "transcript.txt", "asked": "asked.txt"}
SEEN_BARS = "['left', 'details'].map(it => document.getElementById(it).getBoundingClientRect()).map(({width, height}, at) =>" \
    " Math.round(at ? height / innerHeight * 100 : width / innerWidth * 100))"


@trial
def notes_on_what_is_done(page: Page) -> None:
    """Each thing that can't be done, or was done unseen, has a note in words."""
    page.open("#lost@14")
    page.click("run")
    told = page.note()
    page.right("how many steps a run took, and how long", (told.startswith("20 steps in "), told.endswith(" ms")), told)
    page.do("l6.state(14)")
    for act, want in TOLD:
        page.do(f"({act})")
        page.same(f"after {act}", page.value(NOTE), want)
    change(page, " (A,PD)\n$INPUT\nAB\n")
    page.same("after a job that is pasted", page.note(), "The input has a box of its own, and the commands are in “Listing, image & session”.")
    page.value("l6.library.isChanged = false")


@trial
def each_option_has_a_range(page: Page) -> None:
    """A number out of its range is reported, marked, and nothing is run with it; the least and the greatest are right."""
    page.open()
    for name, (below, least, most, above, text) in RANGES.items():
        for value, is_right in ((below, False), (least, True), (most, True), (above, False), ("", False), ("1.5", False), ("x", False)):
            page.value(f"(it => {{ it.type = 'text'; it.value = {json.dumps(str(value))}; it.dispatchEvent(new Event('change')); }})"
                       f"(document.getElementById('{name}'))")
            want = ["", []] if is_right else [text.format(value), [name]]
            page.same(f"{name} of {value!r}", [page.text("options-note"), page.value(INVALID)], want)
            if not is_right:
                page.click("run")
                page.same(f"nothing is run with {name} of {value!r}", [page.state(), page.note()], [-1, text.format(value)])
        page.fill(name, DEFAULTS[name], "change")
    page.click("run")
    page.same("and then it is run", page.state(), 6)


@trial
def what_was_shown_goes(page: Page) -> None:
    """Where the deck, its input or an option has changed nothing of the run is shown any more, and that is said."""
    page.open()
    for name, typed, event in (("deck", " (PL)\n", "input"), ("input", "X", "input"), ("steps", "77", "change")):
        page.fill(name, typed, event)
        page.has(f"where nothing was run nothing goes with {name}", page.text("empty"), "Bell Labs")
    page.put(" (A,E\n")
    page.click("run")
    page.has("a deck that is refused", page.text("empty"), "l6: card 1: no reading")
    page.fill("deck", " (A,E,5)\n")
    page.has("is not any more, when it is changed", page.text("empty"), "The deck has changed.")
    page.value("l6.library.isChanged = false")
    for name, typed, event, why in (("deck", " (A,GT,1)(A,PD)\n", "input", "The deck has changed."), ("input", "X", "input", "The input has changed."),
                                    ("steps", "77", "change", "An option has changed.")):
        page.example("tree", 137)
        page.value("document.getElementById('chain').value = 'TL', l6.viewer.chainTyped(), document.getElementById('show-calls').click()")
        page.right("much is there before", SHOWN <= set(page.value(LEFT)), str(page.value(LEFT)))
        page.value("l6.play()")
        page.fill(name, typed, event)
        page.same(f"{name} pauses", page.value("l6.player.isPlaying"), False)
        page.browser.wait("!l6.isBusy && !l6.engine.isBusy")
        page.same(f"why, after {name}", page.text("empty"), f"{why}Run goes to the end. Step goes on by one step.")
        page.same(f"what is left after {name}", page.value(LEFT), [])
        page.same(f"the store after {name}", page.value("['strip', 'units', 'levels', 'levels-text'].map(it => document.getElementById(it).hidden)"),
                  [False, True, True, True])
        page.same(f"the place after {name}", [page.text("where"), page.box("number"), page.box("slider")], ["Not run yet", "0", "0"])
        page.same(f"what can be pressed after {name}", page.count(".state [aria-disabled=true], .steps [aria-disabled=true], .leaps [aria-disabled=true]"), 0)
        page.value("l6.library.isChanged = false")
    page.fill("chain", "")


@trial
def stop_and_play(page: Page) -> None:
    """Stop can be pressed while something runs or plays; Play says Pause then, and nothing is spoken meanwhile."""
    page.open("#list@3")
    page.fill("speed", 1500, "change")
    page.same("before", [page.value(DISABLED), *page.value(PLAY)], ["true", "Play", "#i-play"])
    spoken = page.text("spoken")
    page.click("play")
    page.same("while it plays", [page.value(DISABLED), *page.value(PLAY)], ["false", "Pause", "#i-pause"])
    page.browser.wait("l6.view.state.number > 3 && !l6.isBusy")
    page.same("nothing is spoken", page.text("spoken"), spoken)
    page.click("play")
    page.same("after a pause", [page.value(DISABLED), *page.value(PLAY)], ["true", "Play", "#i-play"])
    page.right("the state is spoken then", page.text("spoken") != spoken, page.text("spoken"))
    page.click("play")
    page.click("stop")
    page.same("after Stop", [page.value("l6.player.isPlaying"), page.value(DISABLED), *page.value(PLAY)], [False, "true", "Play", "#i-play"])
    page.put("L (A,A,1) L\n", steps=1_000_000_000)
    page.value("void l6.run()")
    page.becomes("while it runs", f"[{DISABLED}, document.getElementById('run-note').textContent]", ["false", "running .."])
    page.key("Escape")
    page.same("after Esc", [page.value(DISABLED), page.note()], ["true", "stopped"])


@trial
def controls_that_do_nothing_now(page: Page) -> None:
    """What can't be done is marked so, and a click on it does nothing and has no note."""
    page.open("#lost@0")
    page.value("l6.panes.open('tables')")
    for state, names in ((0, ["back", "start"]), (21, ["step", "end", "statement", "over", "out"])):
        page.do(f"l6.state({state})")
        page.do("l6.tell('.')")
        for name in [*names, "change-back", "change-next", "stop"]:
            page.same(f"{name} in state {state}", page.value(f"document.getElementById('{name}').getAttribute('aria-disabled')"), "true")
            page.click(name)
            page.same(f"a click on {name} in state {state}", [page.state(), page.note()], [state, "."])
    page.value("l6.viewer.watch({chain: 'A'})")
    page.same("where a bug is followed its changes can be gone to", page.count(".changes-of [aria-disabled=true]"), 0)
    for typed, want in (("5.9", 5), ("-3", 0), ("99", 21), ("", 0)):
        page.fill("number", typed, "change")
        page.becomes(f"the state {typed!r}", STATE, want)


@trial
def keys_that_are_none(page: Page) -> None:
    """Keys with Ctrl, Alt or Meta are the browser's; capitals are keys, too; in the manual and in boxes none is."""
    page.open("#lost@14")
    page.value("l6.panes.open('store'), l6.panes.open('tables')")
    for modifiers in (1, 2, 4):
        for key in ("n", "p", "c", "x", "l", "s", "m", " ", "ArrowLeft"):
            page.key(key, modifiers=modifiers)
    page.same("keys that are held with others", page.value("[l6.view.state.number, l6.panes.isLecture, l6.player.isPlaying, l6.editor.breakpoints.size]"), [14, False, False, 0])
    page.browser.key("P", modifiers=8)
    page.settle()
    page.same("a capital", page.state(), 13)
    page.click("manual")
    page.focus("manual-text")
    for key in ("n", "ArrowRight", "End", "l"):
        page.key(key)
    page.same("keys in the manual", page.value("[l6.view.state.number, l6.panes.isLecture]"), [13, False])
    page.click("manual-close")
    for name in ("chain", "number", "example", "detail", "input", "place", "unit"):
        page.focus(name)
        for key in ("s", "g", "Home", "m"):
            page.key(key)
        page.same(f"keys in {name}", page.value("[l6.view?.state.number, l6.editor.breakpoints.size]"), [13, 0])
        page.key("Escape")
        page.same(f"Esc leaves {name}", page.value("document.activeElement.tagName"), "BODY")
    page.key("Enter", modifiers=4)
    page.same("Meta Enter runs", page.state(), 21)
    page.value("l6.panes.lecture(true)")
    page.focus("chain")
    page.key("Escape")
    page.same("Esc in a box leaves the box alone", page.value("l6.panes.isLecture"), True)
    page.key("Escape")
    page.same("and again the lecture", page.value("l6.panes.isLecture"), False)


@trial
def what_opens_and_closes(page: Page) -> None:
    """Menus close by a click elsewhere, and not by one inside; buttons say whether what they open is open."""
    page.open("#lost@14")
    for name in ("options", "share"):
        page.value(f"document.getElementById('{name}').open = true")
        page.value(f"document.querySelector('#{name} .panel').click()")
        page.same(f"a click inside {name}", page.value(f"document.getElementById('{name}').open"), True)
        page.browser.click("#where")
        page.same(f"a click elsewhere than in {name}", page.value(f"document.getElementById('{name}').open"), False)
    says = "['lecture', 'show-store', 'show-tables', 'tidy'].map(it => document.getElementById(it).getAttribute('aria-pressed'))"
    before = page.value(says)
    for at, name in enumerate(("lecture", "show-store", "show-tables", "tidy")):
        page.value(f"document.getElementById('{name}').click()")
        now = page.value(says)
        page.same(f"{name} is pressed", [now[at], now[:at] + now[at + 1:]], ["false" if before[at] == "true" else "true", before[:at] + before[at + 1:]])
        page.value(f"document.getElementById('{name}').click()")
    page.same("and again", page.value(says), before)
    for name, pane in (("manual", "manual-pane"), ("show-calls", "call-tree")):
        page.example("tree", 137)
        expanded = f"[document.getElementById('{name}').getAttribute('aria-expanded'), document.getElementById('{pane}').hidden]"
        page.same(f"{name} is closed", page.value(expanded), ["false", True])
        page.click(name)
        page.same(f"{name} is open", page.value(expanded), ["true", False])
        page.click(name)
        page.same(f"{name} is closed again", page.value(expanded), ["false", True])
    page.click("manual")
    page.same("the manual has the focus", page.value("document.activeElement.id"), "manual-text")
    page.click("manual-close")
    page.same("and gives it back", [page.value("document.activeElement.id"), page.value("document.body.classList.contains('has-manual')")], ["manual", False])


@trial
def bars(page: Page) -> None:
    """Each bar moves by its keys and by a drag, as far as it may, says how far, and stays where it is let go."""
    page.browser.resize(1280, 720)
    page.open("#tree@137")
    page.value("l6.panes.open('tables')")
    begun = page.value(SEEN_BARS)
    for at, (name, keys, least, most) in enumerate((("splitter", ("ArrowLeft", "ArrowRight"), 20, 75), ("row-splitter", ("ArrowDown", "ArrowUp"), 8, 60))):
        page.focus(name)
        for key, wanted in zip(keys, (least, most)):
            before = page.value(SEEN_BARS)[at]
            page.browser.key(key)
            page.same(f"{key} on {name}", page.value(SEEN_BARS)[at] - before, -2 if key == keys[0] else 2)
            for _ in range(30):
                page.browser.key(key)
            said = page.value(f"document.getElementById('{name}').getAttribute('aria-valuenow')")
            page.same(f"as far as {name} goes by {key}", [page.value(SEEN_BARS)[at], said], [wanted, str(wanted)])
        page.value(f"document.getElementById('{name}').dispatchEvent(new MouseEvent('dblclick'))")
        page.becomes(f"a double click on {name} puts it back", f"{SEEN_BARS}[{at}]", begun[at])
        x, y = page.value(f"(it => [it.x + it.width / 2, it.y + it.height / 2])(document.getElementById('{name}').getBoundingClientRect())")
        dx, dy = ((100, 0), (0, -60))[at]
        page.browser.drag_from(x, y, dx, dy)
        moved = page.value(SEEN_BARS)[at]
        page.right(f"{name} follows a drag", abs(moved - begun[at] - (100 / 1280 if at == 0 else 60 / 720) * 100) <= 2, f"{begun[at]} {moved}")
        page.same(f"{name} says so", page.value(f"document.getElementById('{name}').getAttribute('aria-valuenow')"), str(moved))
        page.browser.drag_from(x - 300 * (at == 0), y + 100 * at, dx, dy)
        page.same(f"{name} stays where it was let go", page.value(SEEN_BARS)[at], moved)
        page.value(f"document.getElementById('{name}').dispatchEvent(new MouseEvent('dblclick'))")
    page.browser.resize(1400, 900)


@trial
def rows_below_the_drawing(page: Page) -> None:
    """In windows that are high enough the store and the tables are there, until the reader chooses otherwise."""
    shown = "['store-pane', 'details'].map(it => document.getElementById(it).offsetHeight > 0)"
    for height, want in ((700, [False, False]), (779, [False, False]), (780, [True, False]), (979, [True, False]), (980, [True, True])):
        page.browser.resize(1280, height)
        page.open("#tree@137")
        page.same(f"at a height of {height}", page.value(shown), want)
    page.browser.resize(1280, 720)
    page.becomes("in a window that gets lower they go", shown, [False, False])
    page.click("show-store")
    page.browser.resize(1280, 700)
    page.same("what was chosen stays", page.value(shown), [True, False])
    page.do("l6.viewer.chooseBlock(1024)")
    page.same("a block that is chosen opens the tables", page.value(shown), [True, True])
    page.browser.resize(1400, 900)


@trial
def papers_are_saved_as_they_are(page: Page) -> None:
    """Each tab has its text, which goes out by its name, and is copied; the tab that is open is marked."""
    page.open("#list@10")
    page.value(KEEP)
    for name, file in PAPERS.items():
        page.do(f"l6.papers.open('{name}')")
        page.browser.wait("document.getElementById('paper-note').textContent !== '..'")
        text = page.text("paper")
        page.click("download")
        page.same(f"the file of {name}", [page.value("kept.at(-1)"), page.value("kept.at(-2).text()") == text, text != ""], [file, True, True])
        page.click("copy")
        page.same(f"the copy of {name}", [page.value("copied") == text, page.text("paper-note")], [True, "copied"])
        marked = """[...document.querySelectorAll('[role=tab]')].filter(it => it.ariaSelected === 'true' && it.tabIndex === 0 ||
            it.tabIndex === 0 || it.ariaSelected === 'true').map(it => it.id)"""
        page.same(f"{name} is marked", page.value(marked), [f"tab-{name}"])
        page.same("and names what is shown", page.value("document.getElementById('paper').getAttribute('aria-labelledby')"), f"tab-{name}")
        page.same("the commands are there in a session alone", page.value("document.getElementById('commands-part').hidden"), name != "session")
    page.same("the asked ones with their answers", "\n----\nAT " in page.text("paper"), True)
    page.do(SESSION)
    page.click("save-session")
    deck, commands, text = (page.box(it) for it in ("deck", "commands", "input"))
    page.same("deck and commands", page.value("kept.at(-2).text()"), f"{deck}$COMMANDS\n{commands}$INPUT\n{text}")
    page.focus("tab-session")
    for key, want in (("ArrowRight", "asked"), ("ArrowRight", "printout"), ("ArrowLeft", "asked"), ("ArrowLeft", "session"), ("Home", "session")):
        page.key(key)
        page.same(f"{key} on the tabs", page.value("document.activeElement.id"), f"tab-{want}")
    page.value("document.getElementById('papers-dialog').close()")


@trial
def every_step(page: Page) -> None:
    """With each step shown, what comes next is the very next step, at once; steps and leaps go by one."""
    page.open("#lost@13")
    page.has("a step that shows something", page.text("next"), "(AV,A,ANV)")
    page.value("document.getElementById('every-step').click()")
    page.has("the very next one", page.text("next"), "ends without an exit: on to the next one")
    for way, want in (("step", 14), ("step", 15), ("back", 14), ("back", 13), ("back", 12)):
        page.do(f"l6.{way}()")
        page.same(f"{way} to {want}", page.state(), want)
    page.do("l6.state(0)")
    page.do("l6.back()")
    page.same("not before the first state", page.state(), 0)
    page.value("document.getElementById('every-step').click()")


@trial
def decks_come_and_go(page: Page) -> None:
    """What is saved is called by its example; what was saved may go; the focus stays, and the cursor is at the begin."""
    page.open("#lost@14")
    page.value(KEEP)
    page.value("window.asked = 0, window.confirm = () => { asked++; return true; }")
    page.click("save")
    page.same("an example is saved by its name", page.value("kept.at(-1)"), "lost.deck")
    change(page, "* MINE\n (A,E,5)\n")
    page.focus("example")
    page.fill("example", "list", "change")
    page.same("a deck that goes is asked for", page.value("asked"), 1)
    page.same("the menu keeps the focus", page.value("document.activeElement.id"), "example")
    page.same("the cursor is at the begin", page.value("document.getElementById('deck').selectionStart"), 0)
    page.same("the address is that of the example", page.value("location.hash"), "#list")
    page.value("l6.library.chooseExample('last:0')")
    change(page, "* MINE, TOO\n")
    page.click("save")
    page.same("a deck of one's own has no name", page.value("kept.at(-1)"), "my.deck")
    page.value("l6.library.chooseExample('tree')")
    page.same("what was saved may go", page.value("asked"), 1)
    for fragment, text in (("#lost@14!3", "[3]"), ("#list!8,1", "[1,8]")):
        page.open(fragment)
        page.do("l6.library.makeLink()")
        page.same(f"breakpoints of {fragment}", [page.value("JSON.stringify([...l6.editor.breakpoints].sort())"), page.value("location.hash").split("!")[1]],
                  [text, text[1:-1]])
    page.value("window.confirm = () => false")
    change(page, "* MINE\n")
    page.value("l6.openFile(new File([' (PL)\\n'], 'x.deck'))")
    page.value("new Promise(it => setTimeout(it, 50))")
    page.same("a file takes nothing away unasked", page.box("deck"), "* MINE\n")
    page.value("l6.library.isChanged = false")
    page.open("#tree@60!3")
    page.value("document.querySelectorAll('.cards li').length")
    page.value("window.dispatchEvent(new Event('beforeprint'))")
    page.same("before print the cards are made", page.count(".cards li"), page.value("l6.editor.deck.cards.length"))
    page.same("with their breakpoint and the place of the run", [page.count(".cards [aria-pressed='true']"), page.count(".cards .at mark")], [1, 1])


@trial
def answers_chosen_twice(page: Page) -> None:
    """Where other files are chosen while some are read, the table has those alone."""
    page.open("#exercise-1")
    deck = " (N,E,10)\nLOOP (N,PD)(PL)(N,S,1)\n IF (N,G,0) THEN LOOP\n"
    answer = json.dumps({"what": "l6 answer", "name": "Ada", "exercise": "exercise-1", "task": "", "deck": deck, "when": ""})
    files = "[1, 2, 3].map(it => new File([%s], `${it}%s.answer`))"
    first, other = (files % (json.dumps(answer), name) for name in "ab")
    page.do(f"Promise.all([l6.answers.read({first}), l6.answers.read({other})])")
    names = "[...document.querySelectorAll('#answers tr')].map(it => it.cells[1].textContent)"
    page.same("the table", page.value(names), ["1b.answer", "2b.answer", "3b.answer"])
    page.same("what is said of it", page.text("answers-note"), "3 of 3 read, 3 solved")
    page.fill("deck", "* MINE\n")
    page.fill("input", "X")
    page.value("document.getElementById('answers-dialog').showModal(), document.querySelector('#answers button').click()")
    page.same("one that is opened has the input of its exercise", [page.box("deck"), page.box("input"), page.count("dialog[open]")], [deck, "", 0])
    page.has("and its task", page.text("exercise"), "Print the numbers from 10 down to 1")


@trial
def verdicts_are_marked(page: Page) -> None:
    """What is right and what is wrong look so; one's own answer can be had again; after the last exercise there is none."""
    page.open("#exercise-1")
    page.value("localStorage.clear()")
    kind = "document.getElementById('verdict').className"
    page.same("before", page.value(kind), "")
    page.click("run")
    page.same("a wrong answer", page.value(kind), "wrong-answer")
    solved = " (N,E,10)\nLOOP (N,PD)(PL)(N,S,1)\n IF (N,G,0) THEN LOOP\n"
    change(page, solved)
    page.click("run")
    page.same("a right one", [page.value(kind), page.value("l6.library.isChanged")], ["right-answer", False])
    page.value("l6.library.chooseExample('list'), l6.library.chooseExample('exercise-1')")
    page.same("it was solved", page.text("verdict"), "Beside this is what it is to print. Type, and press Run. You have solved it. Show how")
    page.browser.click("#verdict button")
    page.same("so", page.box("deck"), solved)
    colours = "['wrong-answer', 'right-answer', ''].map(it => { const own = document.getElementById('verdict'); own.className = it; return getComputedStyle(own).color; })"
    page.same("three colours", len(set(page.value(colours))), 3)
    last = page.value("l6.library.examples.flatMap(it => it.items).filter(it => it.task).at(-1).key")
    page.value(f"l6.library.chooseExample({json.dumps(last)}), l6.library.solve(l6.library.exercise)")
    page.same("after the last one", page.text("verdict"), "✓ Solved: just this is printed.")
    page.value("localStorage.clear(), l6.library.isChanged = false")
