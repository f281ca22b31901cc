"""Trials of the page in front of a class: letters, what is in view, steps, calls, traps, exercises."""
from __future__ import annotations

import json

from page import TOP, Page, trial

# The sizes, in pixels, of all letters in an element that are seen: those of a drawing as they are scaled.
LETTERS = """(name => {
    const sizes = new Set();
    for (const element of document.querySelectorAll(`${name}, ${name} *`)) {
        const hasText = [...element.childNodes].some(it => it.nodeType === 3 && it.textContent.trim());
        if (!(hasText || element.tagName === 'TEXTAREA') || !element.getClientRects().length) continue;
        if (element.closest('title, option, .hidden')) continue;
        const picture = element.ownerSVGElement;
        const scale = picture ? picture.getBoundingClientRect().width / picture.viewBox.baseVal.width : 1;
        sizes.add(Math.round(parseFloat(getComputedStyle(element).fontSize) * scale * 10) / 10);
    }
    return [...sizes];
})"""
# Whether an element is seen, as far as that goes, in the window and in each box that scrolls.
IN_VIEW = """(element => {
    let {left, top, right, bottom} = element.getBoundingClientRect();
    const inside = (box) => left >= box.left - 2 && right <= box.right + 2 && top >= box.top - 2 &&
        bottom <= box.bottom + 2;
    for (let it = element.parentElement; it && it !== document.body; it = it.parentElement)
        if (/auto|scroll|hidden/.test(getComputedStyle(it).overflowY) && !inside(it.getBoundingClientRect()))
            return false;
    return bottom > top && inside({left: 0, top: 0, right: innerWidth, bottom: innerHeight});
})"""
WHOLE = """(e => e.scrollWidth <= e.clientWidth && e.scrollHeight <= e.clientHeight)
    (document.getElementById('drawing'))"""
SIGNS = "['run', 'play', 'step'].map(it => document.querySelector(`#i-${it} path`).getAttribute('d'))"
LECTURES = {"list": 28, "reverse": 127, "tree": 137, "lost": 14, "queue": 99, "fields": 10}

GONE = " (0,DN,18,35)(B,GT,1)(A,E,B)(B,FR)\n (AN,PD)\n"
TRAPS = {  # decks that trap, and what is said of it
    " (PN,PD)\n": "PN: N has no definition here.",
    " (0,DN,18,35)(PN,PD)\n": "PN ends before N: P is 0, no block.",
    GONE: "AN ends before N: A is 1024, whose block was freed at state 5 by (B,FR).",
    # (a place that was freed three times, of which the latest counts)
    " (0,DN,18,35)(C,GT,1)(C,FR)(B,GT,1)(B,FR)(B,GT,1)(A,E,B)(B,FR)\n+(C,GT,2)(C,FR)\n (AN,PD)\n":
        "AN ends before N: A is 1024, whose block was freed at state 11 by (C,FR).",
    " (0,DN,18,35)(B,GT,4)(BN,E,1030)(BNN,PD)\n":
        "BNN ends before N: N of block 1024 is 1030, which was never a block.",
    " (A,GT,2)(B,E,A)(B,A,1)(B,FR)\n": "B is 1025, which is inside the block at 1024.",
    " (A,E,7)(A,FR)\n": "A is 7, which is no place of the store.",
    " (5,DN,18,35)(B,GT,4)(BN,PD)\n": "BN ends before N: B is 1024, a block of 4 words, and N is in word 5.",
    " (0,DN,18,36)\n": "The word: 0; the first bit: 18; the last: 36.",
    " (A,V,B)\n": "The divisor of A: B is 0.",
    " (A,GT,2000)\n": "The size that is asked for: 2000.",
    " (A,GT,512)\nL (A,GT,1024) L\n":
        "1,024 words asked for; 512 words free, and the largest free piece has 512.",
    " (A,E,7)(B,DP,A)\n": "A is 7, which is no place of the store.",
    " (A,GT,1,AN)\n": "AN: N has no definition here.",
    " (5,DV,18,35)(A,GT,4,AV)\n": "AV ends before V: A leads to the new block, of 4 words, and V is in word 5.",
    " (1,DV,18,35)(A,GT,1,AV)\n": "AV ends before V: A leads to the new block, of 1 word, and V is in word 1, counted from 0.",
    " (0,DN,18,35)(A,GT,3,ANN)\n": "ANN ends before N: N of the new block is 0, no block.",
    " (0,DN,18,35)(A,GT,1,BN)\n": "BN ends before N: B is 0, no block.",
    " (0,DN,18,35)(L,GT,1)(LN,GT,1,LNNN)\n": "LNNN ends before N: N of the new block is 0, no block.",
    " (A,IN,3)\n": "Asked for: 3; left: 0 characters.",
    " (R,FD,N)\n": "No definition is saved here.",
    "L (S,FC,A) L\n": "1,024 contents are saved.",
    "L (L,DO)\n": "1,024 calls wait, and L is called once more.",
    " (L,DO)\nL FAIL\n": "The latest call has no second label, to which FAIL could lead.",
    " (A,PR,9)\n": "The number of characters: 9.",
    f"L ({'A' * 60},PH) L\n": "1,048,560 bytes are printed, and 1,048,576 is the most.",
}
# Where each kind of group has the chain that can't be followed, of which it is said that N has no definition.
CHAINS = [
    "(AN,E,5)", "(A,E,BN)", "(AN,EO,7)", "(0,DV,AN,35)", "(AN,I,B)", "(S,FC,AN)", "(A,GT,BN)", "(A,DP,BN)",
    "(AN,FR)", "(AN,IN,1)", "(A,PR,BN)", "(AN,PD)", "(AN,PO)",
]
CALLS = (
    "* A CALL IN A CALL\n (0,DN,18,35)(A,E,5)(S,FC,A)(S,FD,N)(S,FD,V)(ONE,DO) DONE\n"
    "ONE (A,E,6)(S,FC,A)(TWO,DO,ONE)(PL)\n+DONE\nTWO (A,E,7)(A,PD) DONE\n"
)


def stacks(page: Page) -> list[str]:
    """What the stacks show, newest first."""
    page.browser.wait("!l6.engine.isBusy")
    return page.value("[...document.querySelectorAll('#frames li')].map(it => it.textContent)")


def change(page: Page, deck: str) -> None:
    """Changes the deck, as a reader does."""
    page.value(f"document.getElementById('deck').value = {json.dumps(deck)}, l6.changed()")


@trial
def letters_of_the_drawing(page: Page) -> None:
    """No letter of a drawing has less than 12 pixels; where there is room, they are larger."""
    for width, height in ((1280, 720), (1024, 768), (1024, 640)):
        page.browser.resize(width, height)
        page.open()
        for key, state in LECTURES.items():
            page.example(key, state)
            least = min(page.value(f"{LETTERS}('#drawing')"))
            page.right(f"{key} at {width}x{height}", least >= 12, str(least))
        shares = page.value("['left', 'drawing'].map(it => document.getElementById(it).clientWidth)")
        page.right(f"deck and drawing are side by side at {width}", min(shares) > 350, str(shares))
        page.right("the card is in sight", page.value(f"{IN_VIEW}(document.querySelector('.spot.at'))"))
    page.browser.resize(1400, 900)
    page.put(" (A,GT,1)\n")
    page.do("l6.run()")
    page.right("a single block is large", min(page.value(f"{LETTERS}('#drawing')")) >= 20)
    page.right("and is seen whole", page.value(WHOLE))


@trial
def lecture(page: Page) -> None:
    """Deck, drawing and place alone, in letters of 18 pixels and more, the current card in sight."""
    for width, height in ((1024, 640), (1280, 720)):
        page.browser.resize(width, height)
        for key, state in LECTURES.items():
            page.open(f"#{key}@{state};lecture")
            page.browser.wait("!l6.engine.isBusy")
            letters = page.value(f"{LETTERS}('body')")
            page.same(f"letters of {key} at {width}x{height}", [it for it in letters if it < 18], [])
            page.right("there are letters of several sizes", len(letters) > 1, str(letters))
            page.right("the card is in sight", page.value(f"{IN_VIEW}(document.querySelector('.cards .at'))"))
            cut = "[...document.querySelectorAll('.cards code')].filter(it => it.scrollWidth > it.clientWidth).length"
            page.same("each card is whole", page.value(cut), 0)
            shown = """['run', 'mark-next', 'number', 'printed-strip', 'bug-strip']
                .filter(it => !document.getElementById(it).offsetHeight)"""
            page.same("Run, Next break, the state, the printout and the bugs are there", page.value(shown), [])
            page.right("the place, too", page.value(f"{IN_VIEW}(document.getElementById('where'))"))
    gone = """['header', '#store-pane', '.details', '.papers']
        .filter(it => document.querySelector(it).offsetHeight)"""
    page.same("nothing else is there", page.value(gone), [])
    page.do("l6.library.makeLink()")
    page.has("a link keeps it", page.value("location.hash"), ";lecture")
    page.click("leave-lecture")
    page.right("it is left", page.value("document.querySelector('header').offsetHeight > 0"))
    page.key("l")
    page.right("L begins it", page.value("document.body.classList.contains('lecture')"))
    page.key("Escape")
    page.click("lecture")
    page.same("so does the button", page.value("document.getElementById('lecture').ariaPressed"), "true")
    page.key("l")
    page.browser.resize(1400, 900)


@trial
def splitter(page: Page) -> None:
    page.open("#tree@137")
    page.browser.resize(1280, 560)
    seen = f"(it => Boolean(it) && {IN_VIEW}(it))(document.querySelector('.spot.at'))"
    page.becomes("in a smaller window the card is brought into sight", seen, True)
    page.browser.resize(1280, 720)
    page.browser.wait("new Promise(done => setTimeout(() => done(true), 300))")
    widths = "['left', 'drawing'].map(it => document.getElementById(it).clientWidth)"
    left, right = page.value(widths)
    page.browser.drag("#splitter", -150)
    page.browser.wait(f"{widths}[0] < {left - 140}")
    page.right("it is dragged", page.value(widths)[1] > right + 140)
    page.focus("splitter")
    page.browser.key("ArrowRight")
    page.browser.wait(f"{widths}[0] > {left - 140}")
    # (512 pixels of 1,280, less 150, are 28 per cent, and the key adds 2)
    page.same("it says how much", page.value("document.getElementById('splitter').ariaValueNow"), "30")
    x, y = page.value("(({x, y, height}) => [x + 6, y + height / 2])(splitter.getBoundingClientRect())")
    page.browser.click_at(x, y, times=2)
    page.browser.wait(f"{widths}[0] === {left}")
    page.right("a double click puts it back", True)
    page.browser.resize(1400, 900)


@trial
def signs_and_words(page: Page) -> None:
    page.open()
    page.same("three signs", len(set(page.value(SIGNS))), 3)
    shown = """[...document.querySelectorAll('.controls button')].filter(it => it.offsetHeight)
        .filter(it => ![...it.querySelectorAll('span')].every(one => one.offsetWidth > 0)).map(it => it.id)"""
    for width, without in (
        (1920, []),
        (1280, ["statement", "over", "out", "mark-back", "to-cursor", "start", "end"]),
        (1024, ["stop", "statement", "over", "out", "mark-back", "to-cursor", "start", "end"]),
    ):
        page.browser.resize(width, 720)
        page.same(f"buttons without words at {width}", page.value(shown), without)
    page.browser.resize(1400, 900)


@trial
def a_hand_on_the_run(page: Page) -> None:
    """What the reader does pauses Play; steps show something."""
    page.open("#list")
    page.fill("speed", 1500, "change")
    begin = "(l6.player.pause(), l6.play(), l6.player.isPlaying)"
    ways = {
        "Back": "document.getElementById('back').click()",
        "Step": "document.getElementById('step').click()",
        "the slider": "(slider.value = 5, slider.dispatchEvent(new Event('input')))",
        "a breakpoint": "document.querySelector('#gutter button').click()",
        "Over": "document.getElementById('over').click()",
        "Next change": "l6.change(true)",
        **{name: f"document.getElementById('{name}').click()" for name in (
            "run", "start", "statement", "mark-next", "mark-back", "to-cursor", "end")},
        "Out": "l6.out()",
        "the number of a state": "(number.value = 4, number.dispatchEvent(new Event('change')))",
        "a bug that is hidden": "l6.hideBug('L')",
        "another deck": "l6.library.chooseExample('list')",
    }
    for what, script in ways.items():
        page.do("l6.state(3)")
        page.right(f"it plays before {what}", page.value(begin))
        page.do(script)
        page.right(f"{what} pauses", not page.value("l6.player.isPlaying"))
        page.browser.wait("!l6.isBusy")
    page.open("#lost@13")
    page.do("l6.step()")
    page.same("the end and the begin of a statement are passed over", page.state(), 16)
    page.has("the change is that of one step", page.text("changes"), "V of 1024 was 5, is 12")
    page.do("l6.back()")
    page.same("back, too", page.state(), 13)
    page.same("it says what was undone", page.text("changes"), "Undone: V of 1024 was 5, is 12")
    page.has("aloud, too", page.text("spoken"), "Undone: V of 1024 was 5, is 12")
    page.has("the next step is that which shows something", page.text("next"), "Next: (AV,A,ANV)")
    page.value("document.getElementById('every-step').click()")
    page.do("l6.step()")
    page.same("all steps, if they are asked for", page.state(), 14)
    page.do("l6.back()")
    page.same("and back", page.state(), 13)


@trial
def leaps(page: Page) -> None:
    """Statements, calls, returns, and the last change of what is chosen."""
    page.open()
    page.value("l6.panes.open('tables')")
    page.put(CALLS)
    page.do("l6.statement()")
    page.same("on to the next statement", page.text("where"), "AT 1.0 AFTER 7 STEPS")
    page.do("l6.state(6)")
    page.do("l6.over()")
    page.has("over a call", page.text("where"), "AT 0.7 AFTER")
    page.do("l6.state(12)")
    page.same(
        "in the inner call",
        [page.text("where"), page.value("l6.view.amounts.returns")],
        ["AT 2.1 AFTER 12 STEPS", 2],
    )
    page.do("l6.out()")
    page.same(
        "out of it", [page.text("where"), page.value("l6.view.amounts.returns")], ["AT 1.4 AFTER 15 STEPS", 1]
    )
    page.do("l6.out()")
    page.same("and out of the other", page.value("l6.view.amounts.returns"), 0)
    page.do("l6.out()")
    page.has("then no call waits", page.note(), "No call waits")
    page.do("l6.state(6)")
    told = []
    for _ in range(6):
        page.do("l6.step()")
        told += [it for it in page.text("changes").split(" · ") if "called" in it]
    page.same("how many wait is said", [it.removeprefix("Changed ") for it in told],
              ["called: 1 return waits", "called: 2 returns wait"])
    page.browser.click("#bugs tr:nth-child(1) button.name")
    page.same("a click on a bug chooses it", page.text("watched"), "of A")
    found = []
    for _ in range(3):
        page.click("change-back")
        found.append(page.text("changes"))
    page.same(
        "its changes, back",
        found,
        [f"Changed A was {was}, is {now}" for was, now in ((6, 7), (5, 6), (0, 5))],
    )
    page.click("change-back")
    page.has("before the first", page.note(), "A does not change before this state")
    page.click("change-next")
    page.same("and forward", page.text("changes"), "Changed A was 5, is 6")
    page.put(" (ABCDEFGHIJKLMNOPQRSTUVWXYZ 0123456789,PH)\n")
    page.do("l6.state(1)")
    page.do("l6.step()")
    page.same("of what is printed the begin", page.text("changes"), "Changed printed “ABCDEFGHIJKLMNOPQRSTUVWXYZ 0..”")


@trial
def changes_of_fields_and_chains(page: Page) -> None:
    page.open("#reverse@100")
    page.fill("chain", "LN")
    page.do("l6.change(false)")
    page.same("the change of a chain", page.text("watched"), "of LN")
    last = page.state()
    values = page.value(f"l6.session.values.of({{chain: 'LN'}}, [{last - 1}, {last}, 99])")
    page.right("it is the last one", values[0] != values[1] == values[2], str(values))
    page.do("l6.chosen = null, l6.viewer.chooseBlock(1026)")
    page.browser.wait("document.querySelectorAll('#words .bits button').length === 2")
    page.browser.click("#words .bits button:last-child")
    page.same("a field of a block", page.text("watched"), "of N of 1026")
    page.click("change-next")
    page.has("its next change", page.text("changes"), "N of 1026 was 1025, is ")
    page.browser.click("#fields .bits button")
    page.same("a definition", page.text("watched"), "of field C")
    page.click("change-back")
    page.has("where it was defined", page.text("changes"), "field C is word 0, bits 0 to 5")
    page.open("#lost@5")
    page.value("l6.viewer.watch({place: 1026, field: 'V'})")
    page.key("c")
    page.same("a field of a block that comes later changes where it is got", page.state(), 8)


@trial
def calls_by_name_and_value(page: Page) -> None:
    page.open()
    page.put(CALLS)
    page.do("l6.state(11)")
    page.same(
        "newest on top",
        stacks(page),
        [
            "TWO from statement 1 ONE, FAIL: ONE at 10",
            "ONE from statement 0 at 6A = 6 ",
            "outside of callsA = 5 field V = no definitionfield N = word 0, bits 18–35",
        ],
    )
    page.do("l6.state(15)")
    page.same("after a return", [it.split(" from")[0] for it in stacks(page)][:1], ["ONE"])
    page.has("with what it saved", stacks(page)[0], "A = 6")
    page.browser.click("#frames li button.to")
    page.browser.wait("l6.view.state.number === 6 && !l6.isBusy")
    page.right("a click goes to the call", True)
    page.put("R (A,A,1)(S,FC,A)(R,DO)\n")
    page.do("l6.run()")
    shown = stacks(page)
    page.same(
        "of 1,024 calls the newest are shown",
        [len(shown), shown[0].split(" at")[0], shown[-1]],
        [202, "R from statement 0 R", "and 824 older ones"],
    )
    page.has("with their values", shown[1], "A = 1024")


@trial
def traps_with_values(page: Page) -> None:
    page.open()
    for deck, want in TRAPS.items():
        page.put(deck)
        page.do("l6.run()")
        page.browser.wait("!document.getElementById('trap').hidden || !l6.engine.isBusy")
        page.browser.wait("!l6.engine.isBusy")
        page.same(f"the trap of {deck!r}", page.text("trap"), want)
    for group in CHAINS:
        page.put(f" {group}\n IF (A,E,0) THEN (PL)\n")
        page.do("l6.run()")
        page.browser.wait("!l6.engine.isBusy")
        chain = next(it for it in group[1:-1].split(",") if it in ("AN", "BN"))
        page.same(f"the trap of {group}", page.text("trap"), f"{chain}: N has no definition here.")
    page.put(" IFANY (A,E,1)(A,E,BN)(CN,E,0) THEN\n")
    page.do("l6.run()")
    page.browser.wait("!l6.engine.isBusy")
    page.same("of tests the first", page.text("trap"), "BN: N has no definition here.")
    page.put(GONE)
    page.do("l6.run()")
    page.browser.wait("!document.getElementById('trap').hidden")
    page.has("it is spoken", page.text("spoken"), "whose block was freed at state 5 by (B,FR)")
    page.browser.click("#trap button")
    page.browser.wait("l6.view.state.number === 5")
    page.has("a click goes there", page.text("next"), "(AN,PD)")


@trial
def a_chain_is_lit(page: Page) -> None:
    lit = """[...document.querySelectorAll('.block.lit')].map(it => it.dataset.place).concat(
        [...document.querySelectorAll('.arrow.lit')].map(it => `${it.dataset.from} ${it.dataset.field}`))"""
    page.open("#lost@21")
    page.browser.wait("document.querySelectorAll('.block.lit').length > 0")
    page.same("the way of the trap", page.value(lit), ["1024", "1026", "1024 N"])
    page.same(
        "the block where it ends is marked",
        page.value("document.querySelector('.stopped').dataset.place"),
        "1026",
    )
    page.open("#list@60")
    page.fill("chain", "lnc")
    page.browser.wait("document.getElementById('answer').textContent !== ''")
    page.same("the answer", page.text("answer"), "= 51 “S”")
    page.right("is in sight", page.value(f"{IN_VIEW}(document.getElementById('answer'))"))
    page.same("the way is lit", page.value(lit), ["1030", "1029", "1030 N"])
    colour = "getComputedStyle(document.querySelector('.arrow.lit path')).stroke"
    page.same("in its colour", page.value(colour), "rgb(194, 24, 91)")
    page.fill("chain", "")
    page.browser.wait("document.querySelectorAll('.lit').length === 1")  # (the arrow head's own)
    page.right("and dark again", True)


@trial
def verdicts(page: Page) -> None:
    """A verdict is of the deck that was run, and a run that does not end is called that."""
    page.open("#exercise-1")
    endless = " (N,E,10)\nLOOP (N,PD)(PL)(N,S,1)\n IF (N,G,0) THEN LOOP\nL L\n"
    answers = {
        " (1,PH)(PL)\n": "Not yet: line 1 is “1”, and not “10”.",
        endless: "Not yet: the run does not end, and was stopped after 1,000,000 steps; "
        "up to there it is right.",
        endless.replace("10", "9"): "Not yet: the run does not end, and was stopped after 1,000,000 steps; "
        "line 1 is “9”, and not “10”.",
        endless.replace("L L", " (0,PH)(PL)"): "Not yet: more is printed: line 11 is “0”.",
        endless.replace("L L", " FAIL"): "Not yet: all is printed, but the run does not end by DONE.",
    }
    for deck, want in answers.items():
        change(page, deck)
        page.has("the old verdict is gone", page.text("verdict"), "Type, and press Run.")
        page.click("run")
        page.same("the verdict", page.text("verdict"), want)
    page.fill("input", "X")
    page.has("another input takes it back, too", page.text("verdict"), "Type, and press Run.")


@trial
def exercises_last(page: Page) -> None:
    """What is solved is kept, the next exercise asks nothing, and a link has the task in it."""
    solved = " (N,E,10)\nLOOP (N,PD)(PL)(N,S,1)\n IF (N,G,0) THEN LOOP\n"
    page.open("#exercise-1")
    page.value("localStorage.clear(), window.asked = 0, window.confirm = () => { asked++; return false; }")
    change(page, solved)
    page.click("run")
    marked = "document.querySelector('option[value=exercise-1]').textContent"
    page.same("it is marked at once", page.value(marked), "✓ 1. Count down")
    page.browser.click("#verdict button")
    page.same("on to 2, unasked", page.value("[asked, l6.library.example.key]"), [0, "exercise-2"])
    page.open("#exercise-1")
    page.same("it is marked, also when the page was closed", page.value(marked), "✓ 1. Count down")
    page.browser.click("#verdict button")
    page.same("and the answer is there", page.box("deck"), solved)
    change(page, solved + "* MORE\n")
    page.do("l6.library.makeLink()")
    page.open(page.value("location.hash"))
    page.same(
        "a link has the task", [page.box("deck"), page.count("#exercise[hidden]")], [solved + "* MORE\n", 0]
    )
    page.has("its text", page.text("exercise"), "Print the numbers from 10 down to 1")
    page.value(
        "localStorage.clear(), Object.getPrototypeOf(localStorage).setItem = () => { throw new Error(); }"
    )
    page.click("run")
    page.has("where the store is refused that is said", page.text("verdict"), "only until the page is closed")
    page.has("data of one's own is offered", page.text("input-label"), "this deck reads none")
    page.open("#exercise-2")
    page.same("where the deck reads it", page.text("input-label"), "Input: put data of your own here")


@trial
def tasks(page: Page) -> None:
    """A teacher makes a task, which goes out as a link or a file."""
    page.open()
    page.put(" (A,IN,1)(A,PR,1)(PL)\n", "Q\n")
    page.click("run")
    page.click("task")
    page.fill("task-text", "Print the <b>letter</b>.")
    page.same("the printout is taken", page.box("task-printout"), "Q\n")
    page.fill("task-deck", "* YOUR TURN\n")
    page.value("navigator.clipboard.writeText = (it) => { window.copied = it; return Promise.resolve(); }")
    page.browser.click("#task-link")
    page.browser.wait("window.copied !== undefined")
    link = page.value("copied")
    page.value(
        """window.kept = []; URL.createObjectURL = (it) => { kept.push(it); return 'about:blank#'; };
        HTMLAnchorElement.prototype.click = function () { kept.push(this.download); }"""
    )
    page.browser.click("#task-file")
    text = page.value("kept[0].text()")
    page.same(
        "a file", [page.value("kept[1]"), json.loads(text)["task"]], ["my.task", "Print the <b>letter</b>."]
    )
    page.browser.click("#task-try")
    page.same("a trial of it", [page.count("dialog[open]"), page.box("deck")], [0, "* YOUR TURN\n"])
    page.fill("task-text", "")
    page.click("task")
    page.browser.click("#task-link")
    page.has("what is missing is said", page.text("task-note"), "Missing: what is to be done")
    page.fill("task-text", "Print.")
    page.fill("task-printout", "")
    page.browser.click("#task-link")
    page.same("and that nothing is to be printed", page.text("task-note"), "Missing: what it is to print.")
    page.open("#" + link.split("#")[1])
    expected = [page.box("deck"), page.box("input"), page.count("#exercise b")]
    page.same("the link has deck and input, and the text is no markup", expected, ["* YOUR TURN\n", "Q\n", 1])
    change(page, " (A,IN,1)(A,PR,1)(PL)\n")
    page.click("run")
    page.has("it is solved", page.text("verdict"), "Solved")
    page.open()
    page.do(f"l6.library.openFile(new File([{json.dumps(text)}], 'my.task'))")
    page.has("the file is opened", page.text("exercise"), "Print the <b>letter</b>.")


@trial
def numbers_and_letters(page: Page) -> None:
    """A number is a number, unless the field holds texts."""
    cells = "[...document.querySelectorAll('.cell .value')].map(it => it.textContent)"
    page.open()
    page.put(" (0,DF,0,5)(0,DG,6,35)(A,GT,1)(AF,E,63)(AG,E,33)\n")
    page.do("l6.run()")
    page.same("63 is no _, and 33 may be an A", page.value(cells), ["63", "33 A"])
    page.put(" (0,DF,0,5)(A,GT,1)(B,IN,1)(AF,E,B)\n", "_\n")
    page.do("l6.run()")
    page.same("but a text is", page.value(cells), ["_"])
    lines = """(e => e.clientHeight / parseFloat(getComputedStyle(e).lineHeight))
        (document.getElementById('printed'))"""
    for width, height in ((1280, 720), (1400, 900), (375, 667)):
        page.browser.resize(width, height)
        page.right(f"the printout has eight lines at {width}", page.value(lines) >= 8, str(page.value(lines)))
    page.browser.resize(1400, 900)


@trial
def the_manual_beside(page: Page) -> None:
    page.open("#tree@137")
    page.click("manual")
    page.has("it is there", page.text("manual-text"), "An afternoon with L6")
    seen = f"(it => Boolean(it) && {IN_VIEW}(it))(document.querySelector('.spot.at'))"
    page.becomes("beside the deck, whose card comes into sight", seen, True)
    names = page.value("[...document.querySelectorAll('#manual-page option')].map(it => it.value)")
    linked = 0
    for name in names:
        page.fill("manual-page", name, "change")
        title = (TOP / "docs" / f"{name}.md").read_text("utf-8").split("\n")[0].removeprefix("# ")
        page.same(
            f"its page {name}", page.value("document.querySelector('#manual-text h1').textContent"), title
        )
        dead = page.value(
            """[...document.querySelectorAll('#manual-text a[href^="#"]')]
            .map(it => it.getAttribute('href').slice(1)).filter(it => !document.getElementById(it))"""
        )
        page.same("its anchors", dead, [])
        linked += page.count("#manual-text a[href^='#']")
    page.right("pages lead to sections of their own", linked > 0)
    page.fill("manual-page", "page", "change")
    page.browser.click("#manual-text a[href$='l6.html#lost']")
    page.browser.wait("l6.library.example.key === 'lost'")
    page.right("a link to a deck opens it", True)
    page.focus("manual-text")
    page.key("Escape")
    page.same("Esc closes it", page.value("document.activeElement.id"), "manual")


@trial
def on_a_small_screen(page: Page) -> None:
    """After Run the answer is in view; targets are large; an empty drawing folds."""
    page.browser.resize(375, 667, phone=True)
    page.open()
    page.put(" (HELLO,PH)\n")
    height = "document.getElementById('run').getBoundingClientRect().y"
    place = page.value(height)
    page.value("l6.tellBusy()")
    page.same("the controls stay where they are", page.value(height), place)
    page.value("l6.showBusy()")
    page.click("run")
    page.right("the printout is in view", page.value(f"{IN_VIEW}(document.getElementById('printed'))"))
    page.open("#exercise-1")
    page.click("run")
    page.right("the verdict is in view", page.value(f"{IN_VIEW}(document.getElementById('verdict'))"))
    page.right("an empty drawing is folded", page.value("document.getElementById('board').offsetHeight < 90"))
    page.put(" (A,E,5\n")
    page.click("run")
    page.right("a fault is in view", page.value(f"{IN_VIEW}(document.getElementById('fault'))"))
    page.open("#tree@120")
    page.has(
        "the card is there", page.text("card"), page.value("l6.editor.lineOf(l6.editor.spot.card)").strip()
    )
    page.right("in sight", page.value(f"{IN_VIEW}(document.getElementById('card'))"))
    page.do("l6.viewer.chooseBlock(1024)")
    targets = """[...document.querySelectorAll('button, select, summary, input:not([type=file])')]
        .filter(it => it.getClientRects().length && !it.closest('.gutter, .bits, .manual'))
        .filter(it => !/checkbox|range/.test(it.type))"""
    page.same("targets of less than 40 by 32", page.value(
        f"{targets}.filter(it => it.offsetWidth < 40 || it.offsetHeight < 32).map(it => it.outerHTML.slice(0, 80))"), [])
    page.right("there are many targets", page.value(f"{targets}.length") > 30, str(page.value(f"{targets}.length")))
    page.browser.resize(1400, 900)


@trial
def focus_and_keys(page: Page) -> None:
    page.open("#lost@20")
    page.focus("step")
    page.click("step")
    page.same(
        "at the end Step does nothing", page.value("document.getElementById('step').ariaDisabled"), "true"
    )
    page.same("but keeps the focus", page.value("document.activeElement.id"), "step")
    page.click("start")
    page.same("so does Start", page.value("document.activeElement.id"), "start")
    page.value("document.getElementById('letter-keys').click(), document.activeElement.blur()")
    page.key("n")
    page.same("letters may be no keys", page.state(), 0)
    page.key("ArrowRight")
    page.same("arrows still are", page.state(), 2)
