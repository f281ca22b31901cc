"""The plan of docs/page.md for 45 minutes, to the letter: at two sizes with the mouse, and by keys alone."""
from __future__ import annotations

import json

from page import Page, trial

ANSWER = " (N,E,10)\nLOOP (N,PD)(PL)(N,S,1)\n IF (N,G,0) THEN LOOP\n"
WIDTHS = "[...document.querySelectorAll('#words .wordline')].map(it => it.textContent).join('|')"

# Waits until an element has been at one place for some frames, for a second at most.
AT_REST = """(async () => {
    const element = document.querySelector(%s);
    let [place, still] = ["", 0];
    for (let frame = 0; still < 5 && frame < 60; frame += 1) {
        const {x, y} = element.getBoundingClientRect();
        [place, still] = `${x} ${y}` === place ? [place, still + 1] : [`${x} ${y}`, 0];
        await new Promise(requestAnimationFrame);
    }
})()"""


class Hand:
    """How a reader does something: with the mouse, or by keys alone."""

    def __init__(self, page: Page, keys: bool) -> None:
        self.page, self.keys = page, keys

    def press(self, control: str, key: str, modifiers: int = 0) -> None:
        """Presses a button, or its key."""
        if self.keys:
            self.page.key(key, modifiers=modifiers)
        else:
            self.page.value("scrollTo(0, 0)")  # (on a phone some controls are there alone)
            self.page.click(control)

    def breakpoint(self, statement: int, card: str) -> None:
        """Sets a breakpoint: by a click on the statement's number, or with the cursor on its card."""
        if self.keys:
            self.page.key("e")
            at = self.page.box("deck").index(card)
            self.page.value(f"document.getElementById('deck').setSelectionRange({at}, {at})")
            self.page.key("F9")
            self.page.key("Escape")
        else:
            # (what is found in a deck that was just opened may move its cards)
            self.page.browser.wait("!l6.isBusy && !l6.engine.isBusy")
            button = f"#gutter button[aria-label$=' {statement}']"
            line = self.page.box("deck")[:self.page.box("deck").index(card)].count("\n")
            is_seen = f"Boolean(document.querySelector({json.dumps(button)}))"
            if not self.page.value(is_seen):  # (the reader scrolls there)
                self.page.value(f"void (l6.editor.text.scrollTop = {line} * l6.editor.row - 60)")
                self.page.browser.wait(is_seen)
            self.page.value(AT_REST % json.dumps(button))
            self.page.browser.click(button)
        self.page.same(
            f"the breakpoint at {statement}", self.page.value("[...l6.editor.breakpoints]"), [statement]
        )

    def type(self, name: str, text: str) -> None:
        """Types into a box that is reached by a click, or by Tab."""
        if not self.keys:
            self.page.browser.click(f"#{name}")
        for _ in range(120 if self.keys else 0):
            if self.page.value("document.activeElement.id") == name:
                break
            self.page.browser.key("Tab")
        self.page.same(f"{name} has the focus", self.page.value("document.activeElement.id"), name)
        self.page.browser.type(text)


def lesson(page: Page, hand: Hand) -> None:
    """The plan, line by line."""
    page.open("#squares")
    hand.press("run", "Enter", 2)
    page.has("squares", page.text("printed"), "== DONE")
    hand.press("start", "Home")
    for _ in range(5):
        hand.press("step", "n")
    page.right("the first round of squares", 5 <= page.state() <= 12, str(page.state()))

    page.open("#exercise-1")
    hand.type("deck", ANSWER)
    hand.press("run", "Enter", 2)
    page.has("the exercise", page.text("verdict"), "Solved: just this is printed")

    page.open("#fields")
    found = []
    hand.press("step", "n")
    for _ in range(30):
        hand.press("step", "n")
        if page.count(".block") == 1 and not page.box("place"):
            if hand.keys:
                page.key("d")
                page.browser.key("Enter")
                page.browser.key("Escape")
            else:
                page.browser.click(".block")
            page.browser.wait("document.getElementById('place').value !== ''")
        if page.box("place"):
            found.append(page.value(WIDTHS))
    page.right("the word of the block, as its fields get narrower", len(set(found)) > 3, str(len(set(found))))

    page.open("#list")
    hand.breakpoint(1, "READ ")
    for _ in range(4):
        hand.press("mark-next", "g")
    page.same("three letters are linked", page.count(".block"), 3)
    hand.type("chain", "LNC")
    page.browser.wait("document.getElementById('answer').textContent !== ''")
    page.same("LNC", page.text("answer"), "= 52 “T”")
    if hand.keys:
        page.key("Escape")
    hand.press("run", "Enter", 2)
    page.has("the list", page.text("printed"), "DESSERTS")

    page.open("#reverse")
    hand.breakpoint(8, "TURN ")
    for _ in range(9):
        hand.press("mark-next", "g")
    page.same(
        "nine presses turn all links",
        page.value("[l6.view.bugs.has('L'), l6.view.bugs.get('R')]"),
        [False, 1024],
    )
    page.same("the blocks stay", page.count(".block"), 8)

    page.open("#lost")
    for _ in range(20):
        if page.state() >= 13:
            break
        hand.press("step", "n")
    page.same("state 13", page.state(), 13)
    page.same(
        "the block is red",
        page.value("getComputedStyle(document.querySelector('.block.lost .top')).fill"),
        "rgb(185, 56, 21)",
    )
    hand.press("back", "p")
    page.has(
        "Back says what is undone", page.text("changes"), "Undone: block 1028 is lost: nothing leads to it"
    )


@trial
def a_lesson(page: Page) -> None:
    page.browser.resize(1280, 720)
    page.open()
    page.value("localStorage.clear()")
    lesson(page, Hand(page, keys=False))
    page.browser.resize(1400, 900)


@trial
def a_lesson_on_a_small_projector(page: Page) -> None:
    page.browser.resize(1024, 640)
    lesson(page, Hand(page, keys=False))
    page.browser.resize(1400, 900)


@trial
def a_lesson_on_a_phone(page: Page) -> None:
    page.browser.resize(375, 667, phone=True)
    lesson(page, Hand(page, keys=False))
    page.browser.resize(1400, 900)


@trial
def a_lesson_by_keys(page: Page) -> None:
    page.browser.resize(1280, 720)
    lesson(page, Hand(page, keys=True))
    page.browser.resize(1400, 900)
