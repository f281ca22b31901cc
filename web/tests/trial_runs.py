"""Trials of what the page does with a run: steps, breakpoints, keys, what changed, and what is said of it."""
from __future__ import annotations

from page import Page, trial

JOININGS = [  # of the deck "join", as docs/allocator.md has them
    "freed 1 word at 1027 (it was not joined, since its buddy at 1026 is a block)",
    "freed 1 word at 1026 (it was joined 1 time, to a free piece of 2, and no more, since the buddy of that "
    "piece at 1024 is not free as a whole)",
    "freed 1 word at 1024 (it was not joined, since its buddy at 1025 is a block)",
    "freed 1 word at 1025 (it was joined 10 times, to a free piece of 1,024, which is a whole unit)",
]


@trial
def the_first_deck(page: Page) -> None:
    page.open()
    page.same("its deck is there", page.box("deck"), " (A,E,5)(A,PD)\n")
    page.has("the page says what it is", page.text("empty"), "Bell Labs")
    page.click("run")
    page.same("printed", page.text("printed"), "5\n== DONE AFTER 6 STEPS")
    page.same("where", page.text("where"), "== DONE AFTER 6 STEPS")
    page.same("the state", page.state(), 6)
    page.same("a number is no letter", page.text("bugs"), "A5000000000005")
    asked = sorted(it.partition(":")[0] for it in page.browser.requests())
    page.same("nothing was asked of a network: the page is a file, and its two workers are made of it", asked, ["blob", "blob", "file"])


@trial
def troubles_are_seen(page: Page) -> None:
    """An error of the page, and what its policy refuses, are noted: so it says something that there are no such troubles."""
    page.open()
    page.value("void setTimeout(() => { throw new Error('it must be found'); })")
    page.value("void fetch('https://example.org/').catch(() => {})")
    found: list[str] = []
    for _ in range(200):
        found += page.browser.troubles() if len(found) < 2 else []
        page.value("new Promise(it => setTimeout(it, 10))" if len(found) < 2 else "0")
    words = ("it must be found", "Content Security Policy")
    page.same("an error, and a refusal", [any(word in it for it in found) for word in words], [True, True])


@trial
def an_endless_deck(page: Page) -> None:
    page.open()
    page.put("L (A,A,1) L\n", steps=1_000_000_000)
    page.value("void l6.run()")
    page.browser.wait("document.getElementById('stop').ariaDisabled === 'false'")
    page.same("the page answers while it runs", page.value("1 + 1"), 2)
    page.click("stop")
    page.same("it is stopped", page.note(), "stopped")
    page.do("l6.state(1000)")
    page.same("and goes on", page.text("where"), "AT 0.1 AFTER 1000 STEPS")
    page.do("l6.state(100000000)")
    page.same("a state far away", page.text("where"), "AT 0.1 AFTER 100000000 STEPS")
    near = "[1,2,3,-1,-2].every(it => l6.session.has(100000000 + it))"
    page.right("its neighbours are there at once", page.value(near))
    page.do("(l6.editor.breakpoints.add(0), l6.breakpointBefore())")
    page.same("the breakpoint before it", page.state(), 99_999_999)


@trial
def a_session(page: Page) -> None:
    page.open("#lost")
    page.click("step")
    page.same("a step that shows something", page.text("where"), "AT 0.2 AFTER 2 STEPS")
    page.value("l6.toggle(3)")
    page.click("mark-next")
    page.same("a breakpoint", page.text("where"), "AT 3.0 AFTER 14 STEPS")
    page.same("the card is marked", page.value("l6.editor.spot.card"), 4)
    page.same("its blocks", page.value("[...l6.viewer.drawing.figures.blocks.keys()]"), [1024, 1026, 1028])
    page.same("its lost block", page.count(".block.lost"), 1)
    page.click("back")
    page.same("nothing changed on that way", [page.state(), page.text("changes")], [13, ""])
    page.click("back")
    undone = "Undone: block 1028 is lost: nothing leads to it · B was 1028, is 0"
    page.same("what was undone", page.text("changes"), undone)
    page.same("the bug is marked in the drawing", page.count(".pill.changed"), 1)
    page.same("and in the table", page.count("#bugs .changed"), 1)
    page.click("end")
    page.has("the trap", page.text("where"), "== TRAP 2 NOT A BLOCK AT 4.1 AFTER 20 STEPS")
    page.has("the trap in words", page.text("changes"), "no block begins")
    page.click("mark-back")
    page.same("back to the breakpoint", page.state(), 14)
    page.click("start")
    page.same("the start", page.state(), 0)
    page.do("l6.runTo(2)")
    page.same("to a statement", page.text("where"), "AT 2.0 AFTER 10 STEPS")
    page.fill("slider", 20)
    page.browser.wait("l6.view.state.number === 20")
    page.right("the slider goes there", True)


@trial
def what_is_said_aloud(page: Page) -> None:
    page.open("#lost@11")
    page.click("step")
    where = "Statement 2, after 12 steps. Next: (B,E,0) B becomes 0."
    page.has("where the run is", page.text("spoken"), where)
    page.has("and what changed", page.text("spoken"), "Changed: got 4 words at 1028")
    page.do("l6.end()")
    ending = "TRAP 2 NOT A BLOCK AT 4.1 AFTER 20 STEPS. trap 2: no block begins"
    page.has("how it ended", page.text("spoken"), ending)
    page.open("#store@6")
    page.click("step")
    why = "it was not joined, since its buddy at 1027 is a block"
    page.has("why pieces do not join", page.text("spoken"), why)
    page.open("#tree@137")
    drawing = "l6.viewer.drawing.picture.getAttribute('aria-label')"
    page.has("the drawing", page.value(drawing), "6 blocks; T leads to 1024")
    block = "l6.viewer.drawing.figures.blocks.get(1026).getAttribute('aria-label')"
    page.has("a block", page.value(block), "Block 1026, 2 words, X leads here. L leads to 1032")
    page.has("the store", page.label("strip"), "1024 block of 2, 1026 block of 2")


@trial
def blocks_and_chains(page: Page) -> None:
    page.open("#lost@14")
    page.browser.click(".block[data-place='1028']")
    page.browser.wait("document.querySelectorAll('#words .wordline').length === 4")
    page.has("the words of a block", page.text("words"), "0000000000000N\u00a00")
    page.fill("chain", "anv")
    page.browser.wait("document.getElementById('led').textContent !== ''")
    page.has("a chain", page.text("led"), "V of block 1026 = 7")
    page.fill("chain", "annv")
    page.has("a chain that leads too far", page.text("led"), "trap 2")
    page.put(" (A,GT,1)(B,E,A)(C,E,1030)\n")
    page.do("l6.run()")
    leads = "[...document.querySelectorAll('#bugs tr')].map(it => [it.cells[0].textContent, it.querySelectorAll('[aria-label]').length])"
    page.same("a bug leads to a block, and not to free words", page.value(leads), [["A", 1], ["B", 1], ["C", 0]])
    page.open("#store@0")
    page.do("l6.step()")
    page.has("halvings", page.text("changes"), "a free piece of 1,024 was halved 10 times")
    page.has("the picture has a text", page.label("levels"), "1536 free of 512")
    page.open("#join@0")
    freed = []
    for _ in range(8):
        page.do("l6.step()")
        freed.append(page.text("changes").removeprefix("Changed ").partition(" · ")[0])
    page.same("joinings", [it for it in freed if it.startswith("freed")], JOININGS)
    page.open("#tree@137")
    before = page.value("l6.viewer.drawing.plan.width")
    page.value("document.querySelectorAll('.legend .way')[0].click()")
    page.right("links are turned", page.value("l6.viewer.drawing.plan.width") != before)


@trial
def keys(page: Page) -> None:
    page.open("#lost")
    page.value("document.activeElement.blur()")
    for key, state in (("n", 2), ("ArrowRight", 3), ("p", 2), ("ArrowLeft", 0), ("End", 21), ("Home", 0)):
        page.key(key)
        page.same(f"the key {key}", page.state(), state)
    page.key("m")
    page.same("m sets a breakpoint", page.value("[...l6.editor.breakpoints]"), [0])
    page.value("l6.toggle(3)")
    page.key("g")
    page.same("g", page.state(), 14)
    page.key("b")
    page.same("b", page.state(), 0)
    deck = page.box("deck")
    page.browser.key("e", text="e")
    page.same("a key that leads into the deck is not typed there", [page.value("document.activeElement.id"), page.box("deck")],
              ["deck", deck])


@trial
def keys_in_the_deck_and_the_drawing(page: Page) -> None:
    page.open("#lost@0")
    page.focus("deck", 0)
    page.key("F8")
    page.same("F8 in the deck", page.state(), 2)
    page.key("F8", modifiers=8)
    page.same("Shift F8 in the deck", page.state(), 0)
    page.key("Enter", modifiers=2)
    page.same("Ctrl Enter in the deck", page.state(), 21)
    page.key("F9")
    page.same("F9 in the deck sets a breakpoint", page.value("[...l6.editor.breakpoints]"), [0])
    page.key("F9")
    page.same("and removes it", page.value("[...l6.editor.breakpoints]"), [])
    page.key("Escape")
    page.same("Escape leaves the deck", page.value("document.activeElement.tagName"), "BODY")
    page.key("d")
    focused = "document.activeElement.dataset.place"
    page.same("d goes to the drawing", page.value(focused), "1024")
    page.key("ArrowRight")
    page.same("there an arrow goes to the next block", page.value(focused), "1026")
    page.same("to which Tab comes back", page.value("[...document.querySelectorAll('#drawing .block[tabindex=\"0\"]')].map(it => it.dataset.place)"),
              ["1026"])
    page.key("Enter")
    page.same("and Enter chooses it", page.box("place"), "1026")
    page.do("l6.papers.open('printout')")
    page.focus("tab-printout")
    page.key("ArrowRight")
    page.same("an arrow goes to the next tab", page.value("document.activeElement.id"), "tab-listing")
    page.browser.wait("document.getElementById('paper').textContent.includes('(ANNV,PD)')")
    page.right("and shows it", True)


@trial
def playing(page: Page) -> None:
    page.open("#lost")
    page.value("document.getElementById('speed').value = '40'")
    page.browser.click("#play")
    page.browser.wait("(l6.view?.state.number ?? 0) >= 5")
    page.browser.click("#play")
    page.right("it is paused", page.value("!l6.player.isPlaying"))
    page.browser.click("#play")
    page.browser.wait("l6.view?.state.number === 21 && !l6.player.isPlaying")
    page.has("it plays to the end", page.text("printed"), "12\n== TRAP 2")
    page.value("document.getElementById('speed').value = '1500'")
    page.browser.click("#play")
    page.browser.wait("l6.view?.state.number < 21")
    page.right("at the end it begins at the start", page.value("l6.player.isPlaying && l6.view.state.number < 5"))
    page.browser.click("#stop")
    page.right("Stop ends it, too", page.value("!l6.player.isPlaying"))
