"""Trials of decks: typing and faults, examples and exercises, files, links and limits."""
from __future__ import annotations

import json

from page import TOP, Page, trial

FAULTS = {
    "(A,E,5)\n": ("1:1", "`(` in column 1 begins no card", "put a blank before it"),
    " (A,PD)\n (A,E,5\n": ("2:2", "no ) closes", "a group ends on its card"),
    "COUNTER (PL)\n": ("1:1", "more than 6 characters", "without one column 1 is blank"),
    " (A,Q,1)\n": ("1:5", "no operation is spelled", "`Q`"),
    " (A,E,1)" + " " * 60 + "(A,E,22222)\n": ("1:69", "no ) closes", "past column 72"),
    "X (PL)\nX (PL)\n": ("2:1", "the label `X` is given by card 1", "too"),
    " (PL) LOPO\nLOOP (PL)\n": ("1:7", "no card gives the label `LOPO`", "is it `LOOP`?"),
    " (A,E,1)\n" + "+\n" * 16: ("17:1", "one too many", "15 such cards"),
}
SOLVED = " (N,E,10)\nLOOP (N,PD)(PL)(N,S,1)\n IF (N,G,0) THEN LOOP\n"
FILE = "* \\u00e9\\n (A,IN,2)(A,PR,2)\\n$COMMANDS\\nstep 1\\n$INPUT\\nOK\\n"
LATIN = [42, 233, 10, 32, 40, 80, 76, 41, 10]  # a comment with a letter in Latin 1, and (PL)
KEEP_SAVED = """window.kept = [];
    URL.createObjectURL = (it) => { kept.push(it); return 'about:blank#'; };
    HTMLAnchorElement.prototype.click = function () { kept.push(this.download); }"""


def change(page: Page, deck: str) -> None:
    """Changes the deck, as a reader does."""
    page.value(f"document.getElementById('deck').value = {json.dumps(deck)}, l6.changed()")


@trial
def faults(page: Page) -> None:
    page.open()
    for deck, (place, says, advice) in FAULTS.items():
        page.put(deck)
        page.browser.wait("document.querySelector('#fault .error') !== null")
        shown = page.text("fault")
        page.has("where it is", shown, f"{place} error: ")
        page.has("what is wrong", shown, says)
        page.has("and what to write", shown, advice)
        marked = page.value("l6.editor.findings.find((it) => it.isError).card")
        page.same("the card is marked", marked, int(place.split(":")[0]) - 1)
        page.click("run")
        page.has("a run says it, too", page.text("empty"), f"l6: card {place.split(':')[0]}: ")
    page.put(" (A,E,5)\n")
    page.do("l6.checker.check()")
    page.right("without a fault none is shown", page.value("document.getElementById('fault').hidden"))


@trial
def several_faults(page: Page) -> None:
    page.open()
    page.put("(A,E,5)\n (A,PD)\n (A,PRINT)\n IF (A,E,0)\n")
    page.do("l6.checker.check()")
    page.same("each has a line", page.value("document.querySelectorAll('#fault .error').length"), 3)
    page.same("three are not counted", page.count("#fault p"), 3)
    page.same("and a mark", page.value("document.querySelectorAll('.spot.bad').length"), 3)
    cards = page.value("[...document.querySelectorAll('#fault pre')].map((it) => it.textContent)")
    page.same("and its card", cards, ["(A,E,5)\n^", " (A,PRINT)\n    ^^^^^", " IF (A,E,0)\n ^^^^^^^^^^"])
    page.browser.click("#fault .error:nth-of-type(2) button")
    page.same("a click leads there", page.value("l6.editor.cursor()"), {"card": 2, "column": 4})


@trial
def a_card_that_is_too_long(page: Page) -> None:
    page.open()
    page.put(" (A,E,5)\n*" + "COMMENT" * 20 + "\n" + " (B,E,1)".ljust(72) + "(A,PD)\n")
    page.do("l6.checker.check()")
    said = "3:73 warning: `(A,PD)` is past column 72, and is not read"
    page.has("the page names the card", page.text("fault"), said)
    ground = "(it => [it.offsetWidth > 0, getComputedStyle(it).backgroundImage.startsWith('repeating-linear-gradient')])" \
        "(document.querySelector('.under .last'))"
    page.same("what is past column 72 is on hatched ground", page.value(ground), [True, True])
    page.put(" (A,E,5)\n*" + "COMMENT" * 20 + "\n" + " (B,E,1)".ljust(80) + "\n")
    page.do("l6.checker.check()")
    page.right("comments and blanks are not", page.value("document.getElementById('fault').hidden"))


@trial
def while_typing(page: Page) -> None:
    page.open()
    page.put("")
    page.focus("deck")
    page.browser.type("loop (n,a,1)(n,pd)")
    page.browser.wait("document.getElementById('fault').hidden")
    page.browser.type("(n,q,1)")
    page.browser.wait("!document.getElementById('fault').hidden")
    page.has("the fault is shown", page.text("fault"), "no operation is spelled `q`")
    number = "document.querySelector('#gutter button').textContent"
    page.same("a statement has its number", page.value(number), "0")
    page.put(" (A,GT,4)\n")
    page.focus("deck", 4)
    page.browser.wait("document.getElementById('next').textContent !== ''")
    page.has("what a group does", page.text("next"), "gets a block for 4 words")
    page.put("* " + "x" * 70 + "\n")
    fits = "(e => e.scrollWidth <= e.clientWidth)(document.getElementById('deck'))"
    page.browser.resize(1920, 1080)
    page.right("72 columns fit", page.value(fits))
    page.browser.resize(1400, 900)
    change(page, " (A,PD)\n$COMMANDS\nstep 2\n$INPUT\nAB\n")
    boxes = [page.box(name) for name in ("deck", "input", "commands")]
    page.same("a job that was pasted is parted", boxes, [" (A,PD)\n", "AB\n", "step 2\n"])


@trial
def marks_stay_on_their_cards(page: Page) -> None:
    page.open()
    page.put(" (A,E,1)\n (A,E,2)\n (A,E,3)\n")
    page.value("l6.toggle(1), l6.toggle(3)")
    change(page, " (A,E,1)\n* A CARD\n (A,E,1\n (A,E,2)\n (A,E,3)\n")
    change(page, " (A,E,1)\n* A CARD\n (A,E,1)\n (A,E,2)\n (A,E,3)\n")
    page.same("where a card was put in", page.value("[...l6.editor.breakpoints]"), [2, 4])
    change(page, " (A,E,1)\n (A,E,3)\n")
    left = page.value("[...l6.editor.breakpoints]")
    page.same("where the one with the breakpoint was taken out", left, [2])


@trial
def examples(page: Page) -> None:
    page.open()
    for printout in sorted((TOP / "examples").glob("*.printout")):
        page.example(printout.stem)
        page.do("l6.run()")
        page.same(f"{printout.stem} prints", page.text("printed") + "\n", printout.read_text("latin-1"))
    for transcript in sorted((TOP / "examples").glob("*.transcript")):
        page.example(transcript.stem)
        page.do("l6.papers.open('session')")
        page.same(f"{transcript.stem} answers", page.text("paper"), transcript.read_text("latin-1"))
    page.example("first")
    page.do("l6.papers.open('listing')")
    page.same("a listing", page.text("paper"), (TOP / "examples" / "first.listing").read_text("latin-1"))
    page.do("l6.papers.open('image')")
    page.right("an image", page.text("paper").startswith("542651554722\n000000000002\n"))
    page.put(" (A,IN,1)(A,PR,1)(PL) DONE\n", "X\n")
    page.do("l6.papers.open('printout')")
    page.same("a printout, with an input", page.text("paper"), "X\n== DONE AFTER 5 STEPS\n")
    page.value("document.getElementById('papers-dialog').close()")


@trial
def exercises(page: Page) -> None:
    page.open("#exercise-1")
    page.click("run")
    page.has("nothing printed is not right", page.text("exercise"), "Not yet")
    change(page, " (N,E,10)\nLOOP (N,PD)(PL) LOOP\n")
    page.click("run")
    page.has("nor is a run that does not end", page.text("exercise"), "Not yet: the run does not end")
    change(page, SOLVED)
    page.click("run")
    page.has("the answer of the tutorial is right", page.text("exercise"), "Solved: just this is printed")
    page.browser.click("#verdict button")
    page.same("the next exercise is there", page.value("l6.library.example.key"), "exercise-2")


@trial
def links(page: Page) -> None:
    deck = " (A,GT,2)(<img src=x onerror=a.b>,PH)\nL (A,PD) DONE\n"
    page.open()
    page.put(deck, "in <b>", store=3)
    page.do("l6.state(3)")
    page.value("l6.toggle(1)")
    page.do("l6.library.makeLink()")
    page.has("what a link from a file is good for is said", page.note(), "from # on")
    page.open(page.value("location.hash"))
    page.same("the deck came with the link", page.box("deck"), deck)
    breakpoints = page.value("[...l6.editor.breakpoints]")
    more = [page.box("input"), page.box("store"), breakpoints]
    page.same("and input, option, breakpoint", more, ["in <b>", "3", [1]])
    page.same("it was not run", page.state(), -1)
    page.browser.click("#empty button")
    page.browser.wait("l6.view?.state.number === 3")
    page.same("the deck is text and no markup", page.count("img, b i"), 0)
    page.open("#tree@137!5")
    page.same("an example is shown at its state", page.state(), 137)
    page.open("#deck=nothing@@")
    page.same("a damaged link", page.box("deck"), " (A,E,5)(A,PD)\n")
    page.has("it is said", page.note(), "The link is damaged")
    page.browser.troubles()


@trial
def links_of_the_manual(page: Page) -> None:
    """The page leads nowhere but to its own deck, as it is one file; the manual's links lead to decks that it has."""
    page.open()
    page.same("its links", page.value("[...document.querySelectorAll('a')].map(it => it.getAttribute('href'))"), ["#deck"])
    opened: set[str] = set()
    known = set(page.value("l6.library.examples.flatMap(({items}) => items).map(it => it.key)"))
    for file in [TOP / "README.md", *sorted((TOP / "docs").glob("*.md"))]:
        named = {part.split(")")[0].split("@")[0] for part in file.read_text("utf-8").split("l6.html#")[1:]}
        page.same(f"the decks that {file.name} opens", [sorted(named & known), len(known) > len(named)], [sorted(named), True])
        opened |= named
    lesson = {"reverse", "tree", "fields", "lost", "join", "buddy", "exercise-1"}
    page.right("pages open the decks of the lesson", lesson <= opened & known, str(opened))


@trial
def files(page: Page) -> None:
    page.open()
    page.do(f"l6.library.openFile(new File(['{FILE}'], 'a.deck'))")
    page.do("l6.run()")
    page.same("a file is opened", page.text("printed"), "OK\n== DONE AFTER 6 STEPS")
    page.same("with its commands", page.box("commands"), "step 1\n")
    page.do(f"l6.library.openFile(new File([new Uint8Array({LATIN})], 'b.deck'))")
    page.do("l6.run()")
    page.same("one that is not UTF-8, too", page.text("where"), "== DONE AFTER 5 STEPS")
    page.value(KEEP_SAVED)
    page.click("save")
    saved = page.value("kept[0].arrayBuffer().then(it => [...new Uint8Array(it)])")
    page.same("it is saved as it was", saved, LATIN)
    page.put(" (A,IN,2)\n", "OK\n")
    page.click("save")
    page.same("with its input", page.value("kept.at(-2).text()"), " (A,IN,2)\n$INPUT\nOK\n")


@trial
def changes_are_kept(page: Page) -> None:
    """A deck that was changed is not dropped without a question."""
    page.open()
    page.value("window.asked = 0; window.confirm = () => { asked++; return false; }")
    change(page, " (PL)\n")
    page.value("l6.library.chooseExample('tree')")
    page.same("it asks, and keeps it", [page.value("asked"), page.box("deck")], [1, " (PL)\n"])
    page.value("location.hash = '#tree'")
    page.browser.wait("asked === 2")
    page.same("a link in the address asks, too", page.box("deck"), " (PL)\n")
    leave = "!dispatchEvent(new Event('beforeunload', {cancelable: true}))"
    page.right("it asks where the page is left", page.value(leave))
    page.do("l6.library.makeLink()")
    page.value("l6.library.chooseExample('tree')")
    page.same("what a link has may go", page.value("[asked, l6.library.example.key]"), [2, "tree"])
    page.right("and does not ask again", not page.value(leave))


@trial
def limits(page: Page) -> None:
    page.open()
    page.put(" (A,GT,1)\n", store=255)
    page.fill("memory", 1, "change")
    page.click("run")
    page.has("memory is refused", page.text("empty"), "l6: out of memory")
    page.fill("memory", 1024, "change")
    page.click("run")
    page.same("and is there again", page.text("where"), "== DONE AFTER 5 STEPS")
    page.put("L (ABC,PH) L\n", output=100)
    page.click("run")
    page.has("the limit of output", page.text("where"), "== TRAP 14 OUTPUT FULL AT 0.1 AFTER")
    page.put(" (0,DN,18,35)\nG (L,GT,1,LN,F) G\nF DONE\n")
    page.click("run")
    page.has("too many blocks to draw", page.text("warnings"), "Not drawn: 7,892 blocks")
    page.fill("store", 9999, "change")
    page.same("an option out of range stays", page.box("store"), "9999")
    wrong = "Units of the store: a number from 1 to 255, and not “9999”."
    page.same("it is said", page.text("options-note"), wrong)
    page.click("run")
    page.has("and nothing is run with it", page.text("empty"), wrong)
